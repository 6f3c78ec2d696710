//! The sheets on which the boxes run, with their witnesses. Each has over 2^60 commitments, so none comes twice by chance.

use dimkhoros::{EXPONENT, Header, Instance, Places, ROOT, Values, places};
use std::fs;
use std::ops::Deref;
use std::path::{Path, PathBuf};
use std::process;
use std::sync::atomic::{AtomicU32, Ordering};

/// A sheet and its witness.
pub struct Course {
    pub sheet: Instance,
    pub witness: Places,
}

/// The sheet of this header and table that the witness is a witness of.
fn course(header: Header, entries: [Places; 8], witness: Places) -> Course {
    // The image of the witness is what the simulator answers for challenge 0, whatever the statement.
    let any = Values { header, entries, statement: places([1, 1]) };
    let statement = Instance::encode(&any).unwrap().simulate(0, &witness).unwrap();
    let sheet = Instance::encode(&Values { header, entries, statement }).unwrap();
    Course { sheet, witness }
}

/// An exponent sheet of two rows and columns: 4^x = z and 4^y = w modulo a prime, in the group of a prime order.
pub fn exponents() -> Course {
    let (modulus, order) = (4294967087, 2147483543);
    let header = Header { kind: EXPONENT, modulus, order, challenges: 65536, rows: 2, columns: 2 };
    let mut entries = [[0; 8]; 8];
    entries[0] = places([4, 1]);
    entries[1] = places([1, 4]);
    course(header, entries, places([123456789, 987654321]))
}

/// A root sheet of two rows. Near half of the numbers below the modulus, 15 times a prime, are no group elements.
pub fn roots() -> Course {
    let header = Header {
        kind: ROOT,
        modulus: 15 * 268435399,
        order: 65537,
        challenges: 65536,
        rows: 2,
        columns: 2,
    };
    course(header, [[0; 8]; 8], places([1234567, 7654321]))
}

/// A box's folder, which is removed at the end. It is in memory where the system has files there, since a box waits for the
/// disk at each step.
pub struct Folder(PathBuf);

impl Folder {
    /// An empty folder.
    fn make() -> Folder {
        static MADE: AtomicU32 = AtomicU32::new(0);
        let memory = Path::new("/dev/shm");
        let parent = if memory.is_dir() { memory } else { Path::new(env!("CARGO_TARGET_TMPDIR")) };
        let number = MADE.fetch_add(1, Ordering::Relaxed);
        let folder = parent.join(format!("dimkhoros-box-{}-{number}", process::id()));
        fs::create_dir(&folder).unwrap();
        Folder(folder)
    }
}

impl Deref for Folder {
    type Target = Path;

    fn deref(&self) -> &Path {
        &self.0
    }
}

impl Drop for Folder {
    fn drop(&mut self) {
        let _ = fs::remove_dir_all(&self.0);
    }
}

impl Course {
    /// How many numbers a commitment has.
    pub fn rows(&self) -> usize {
        self.sheet.values().header.rows as usize
    }

    /// A folder for a box of this course, with the sheet and the witness.
    pub fn folder(&self) -> Folder {
        let folder = Folder::make();
        fs::write(folder.join("sheet.bin"), self.sheet.bytes()).unwrap();
        let [x, y, ..] = self.witness;
        fs::write(folder.join("witness.txt"), format!("witness {x} {y}\n")).unwrap();
        folder
    }
}
