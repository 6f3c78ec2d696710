//! Round files: reading them, adding rounds to them and converting them.

use crate::{Instance, Refusal, Round};
use dimkhoros_sys as sys;

/// A round file of an instance, over the caller's own bytes. Its version is 1 or 2: in version 2 a challenge is stored in 16 bits,
/// in version 1 in 32.
///
/// ```
/// use dimkhoros::{places, RoundFile};
/// # use dimkhoros::{Instance, Patterns, Plan};
/// # let plan = Plan { pattern: 1, modulus: 23, order: 11, challenges: 11, values: &[2], statement: &[13] };
/// # let instance = Instance::from_pattern(&Patterns::shipped(), &plan)?;
///
/// let bytes = b"RND\x00\x01\x00\x01\x00\x00\x00\x09\x00\x00\x00\x03\x00\x00\x00\x04";
/// let file = RoundFile::open(&instance, bytes)?;
/// for round in file.rounds() {
///     assert!(instance.judge(&round)?.is_accepted());
/// }
/// # Ok::<(), dimkhoros::Refusal>(())
/// ```
#[derive(Clone, Copy, Debug)]
pub struct RoundFile<'a> {
    instance: &'a Instance,
    bytes: &'a [u8],
    count: usize,
}

impl<'a> RoundFile<'a> {
    /// Opens a round file, or refuses it with 12.
    ///
    /// ```
    /// use dimkhoros::{Refusal, RoundFile};
    /// # use dimkhoros::{Instance, Patterns, Plan};
    /// # let plan = Plan { pattern: 1, modulus: 23, order: 11, challenges: 11, values: &[2], statement: &[13] };
    /// # let instance = Instance::from_pattern(&Patterns::shipped(), &plan)?;
    ///
    /// assert_eq!(RoundFile::open(&instance, b"RND\x00\x01\x00\x00")?.count(), 0);
    /// assert_eq!(RoundFile::open(&instance, b"RND\x00\x01\x00\x01").unwrap_err(), Refusal::File);
    /// # Ok::<(), Refusal>(())
    /// ```
    pub fn open(instance: &'a Instance, bytes: &'a [u8]) -> Result<RoundFile<'a>, Refusal> {
        let counted = sys::count(instance.bytes(), bytes);
        Refusal::check(counted.refusal)?;
        Ok(RoundFile { instance, bytes, count: counted.count as usize })
    }

    /// How many rounds the file has.
    ///
    /// ```
    /// # use dimkhoros::{Instance, Patterns, Plan, RoundFile};
    /// # let plan = Plan { pattern: 1, modulus: 23, order: 11, challenges: 11, values: &[2], statement: &[13] };
    /// # let instance = Instance::from_pattern(&Patterns::shipped(), &plan)?;
    /// # let bytes = b"RND\x00\x01\x00\x01\x00\x00\x00\x09\x00\x00\x00\x03\x00\x00\x00\x04";
    /// assert_eq!(RoundFile::open(&instance, bytes)?.count(), 1);
    /// # Ok::<(), dimkhoros::Refusal>(())
    /// ```
    pub fn count(&self) -> usize {
        self.count
    }

    /// The file's version, 1 or 2.
    ///
    /// ```
    /// # use dimkhoros::{Instance, Patterns, Plan, RoundFile};
    /// # let plan = Plan { pattern: 1, modulus: 23, order: 11, challenges: 11, values: &[2], statement: &[13] };
    /// # let instance = Instance::from_pattern(&Patterns::shipped(), &plan)?;
    /// assert_eq!(RoundFile::open(&instance, b"RND\x00\x01\x00\x00")?.version(), 1);
    /// assert_eq!(RoundFile::open(&instance, b"RND\x00\x02\x00\x00")?.version(), 2);
    /// # Ok::<(), dimkhoros::Refusal>(())
    /// ```
    pub fn version(&self) -> u32 {
        // A file that is open has a version below 256.
        self.bytes[4].into()
    }

    /// The file's bytes.
    ///
    /// ```
    /// # use dimkhoros::{Instance, Patterns, Plan, RoundFile};
    /// # let plan = Plan { pattern: 1, modulus: 23, order: 11, challenges: 11, values: &[2], statement: &[13] };
    /// # let instance = Instance::from_pattern(&Patterns::shipped(), &plan)?;
    /// assert_eq!(RoundFile::open(&instance, b"RND\x00\x01\x00\x00")?.bytes(), b"RND\x00\x01\x00\x00");
    /// # Ok::<(), dimkhoros::Refusal>(())
    /// ```
    pub fn bytes(&self) -> &'a [u8] {
        self.bytes
    }

    /// The bytes of the round of this number, from 0, as that part of the caller's own file, or refusal 13.
    ///
    /// ```
    /// # use dimkhoros::{Instance, Patterns, Plan, Refusal, RoundFile};
    /// # let plan = Plan { pattern: 1, modulus: 23, order: 11, challenges: 11, values: &[2], statement: &[13] };
    /// # let instance = Instance::from_pattern(&Patterns::shipped(), &plan)?;
    /// # let bytes = b"RND\x00\x01\x00\x01\x00\x00\x00\x09\x00\x00\x00\x03\x00\x00\x00\x04";
    /// let file = RoundFile::open(&instance, bytes)?;
    /// assert_eq!(file.part(0), Ok(&bytes[7..19]));
    /// assert_eq!(file.part(1), Err(Refusal::RoundNumber));
    /// # Ok::<(), Refusal>(())
    /// ```
    pub fn part(&self, number: usize) -> Result<&'a [u8], Refusal> {
        let sheet = self.instance.bytes();
        Refusal::check(sys::check(sheet, self.bytes, number))?;
        let part = sys::part(sheet, self.bytes, number);
        Ok(&self.bytes[part.offset..part.offset + part.length])
    }

    /// The values of the round of this number, from 0, as they stand in the file, or refusal 13. They are not tested;
    /// [`Instance::judge`] tests them.
    ///
    /// ```
    /// # use dimkhoros::{places, Instance, Patterns, Plan, Refusal, RoundFile};
    /// # let plan = Plan { pattern: 1, modulus: 23, order: 11, challenges: 11, values: &[2], statement: &[13] };
    /// # let instance = Instance::from_pattern(&Patterns::shipped(), &plan)?;
    /// # let bytes = b"RND\x00\x01\x00\x01\x00\x00\x00\x09\x00\x00\x00\x03\x00\x00\x00\x04";
    /// let file = RoundFile::open(&instance, bytes)?;
    /// assert_eq!(file.read(0)?.response, places([4]));
    /// assert_eq!(file.read(1), Err(Refusal::RoundNumber));
    /// # Ok::<(), Refusal>(())
    /// ```
    pub fn read(&self, number: usize) -> Result<Round, Refusal> {
        let fetched = sys::read(self.instance.bytes(), self.bytes, number);
        Refusal::check(fetched.refusal)?;
        Ok(fetched.round)
    }

    /// Whether the rounds of these two numbers, from 0, have the same commitment, byte for byte, or refusal 13. Two accepted
    /// rounds with the same commitment and different challenges give the witness away.
    ///
    /// ```
    /// # use dimkhoros::{Instance, Patterns, Plan, Refusal, RoundFile};
    /// # let plan = Plan { pattern: 1, modulus: 23, order: 11, challenges: 11, values: &[2], statement: &[13] };
    /// # let instance = Instance::from_pattern(&Patterns::shipped(), &plan)?;
    /// // The rounds (9, 3, 4), (9, 1, 1) and (2, 3, 0).
    /// let bytes = b"RND\x00\x01\x00\x03\0\0\0\x09\0\0\0\x03\0\0\0\x04\0\0\0\x09\0\0\0\x01\0\0\0\x01\0\0\0\x02\0\0\0\x03\0\0\0\0";
    /// let file = RoundFile::open(&instance, bytes)?;
    /// assert_eq!(file.same_commitment(0, 1), Ok(true));
    /// assert_eq!(file.same_commitment(0, 2), Ok(false));
    /// assert_eq!(file.same_commitment(3, 0), Err(Refusal::RoundNumber));
    /// # Ok::<(), Refusal>(())
    /// ```
    pub fn same_commitment(&self, i: usize, j: usize) -> Result<bool, Refusal> {
        let compared = sys::same_commitment(self.instance.bytes(), self.bytes, i, j);
        Refusal::check(compared.refusal)?;
        Ok(compared.same == 1)
    }

    /// Writes the file in its other version, 2 for 1 and 1 for 2, to the start of a buffer; no byte behind it is changed. The
    /// rounds keep their order and all their values. A file of version 1 with a challenge above 65,535 is refused with 15, and
    /// a buffer that is too short with 22, and the buffer is not changed.
    ///
    /// Every verdict stays the same, and the result converts to the file again: this is proved.
    ///
    /// ```
    /// # use dimkhoros::{Instance, Patterns, Plan, Refusal, RoundFile};
    /// # let plan = Plan { pattern: 1, modulus: 23, order: 11, challenges: 11, values: &[2], statement: &[13] };
    /// # let instance = Instance::from_pattern(&Patterns::shipped(), &plan)?;
    /// # let bytes = b"RND\x00\x01\x00\x01\x00\x00\x00\x09\x00\x00\x00\x03\x00\x00\x00\x04";
    /// let file = RoundFile::open(&instance, bytes)?;
    /// let mut buffer = [0; 17];
    /// let narrow = file.convert_into(&mut buffer)?;
    /// assert_eq!(narrow.bytes(), b"RND\x00\x02\x00\x01\x00\x00\x00\x09\x00\x03\x00\x00\x00\x04");
    /// assert_eq!(narrow.read(0), file.read(0));
    /// assert_eq!(narrow.convert_into(&mut [0; 19])?.bytes(), bytes);
    /// assert_eq!(narrow.convert_into(&mut [0; 18]).unwrap_err(), Refusal::Buffer);
    /// # Ok::<(), Refusal>(())
    /// ```
    pub fn convert_into<'b>(&self, buffer: &'b mut [u8]) -> Result<RoundFile<'b>, Refusal>
    where
        'a: 'b,
    {
        let written = sys::convert(self.instance.bytes(), self.bytes, buffer);
        Refusal::check(written.refusal)?;
        Ok(RoundFile { bytes: &buffer[..written.length], ..*self })
    }

    /// All rounds of the file, in order.
    ///
    /// ```
    /// # use dimkhoros::{Instance, Patterns, Plan, RoundFile};
    /// # let plan = Plan { pattern: 1, modulus: 23, order: 11, challenges: 11, values: &[2], statement: &[13] };
    /// # let instance = Instance::from_pattern(&Patterns::shipped(), &plan)?;
    /// # let bytes = b"RND\x00\x01\x00\x01\x00\x00\x00\x09\x00\x00\x00\x03\x00\x00\x00\x04";
    /// let file = RoundFile::open(&instance, bytes)?;
    /// assert_eq!(file.rounds().map(|round| round.challenge).collect::<Vec<_>>(), [3]);
    /// # Ok::<(), dimkhoros::Refusal>(())
    /// ```
    pub fn rounds(&self) -> impl Iterator<Item = Round> + 'a {
        let file = *self;
        (0..file.count).map_while(move |number| file.read(number).ok())
    }
}

/// A round file of an instance that grows in the caller's own buffer.
///
/// ```
/// use dimkhoros::{places, Round, RoundWriter, LONGEST_FILE};
/// # use dimkhoros::{Instance, Patterns, Plan};
/// # let plan = Plan { pattern: 1, modulus: 23, order: 11, challenges: 11, values: &[2], statement: &[13] };
/// # let instance = Instance::from_pattern(&Patterns::shipped(), &plan)?;
///
/// let mut buffer = [0; LONGEST_FILE];
/// let mut writer = RoundWriter::start(&instance, 1, &mut buffer)?;
/// writer.append(&Round { commitment: places([9]), challenge: 3, response: places([4]) })?;
/// assert_eq!(writer.file().bytes(), b"RND\x00\x01\x00\x01\x00\x00\x00\x09\x00\x00\x00\x03\x00\x00\x00\x04");
/// # Ok::<(), dimkhoros::Refusal>(())
/// ```
#[derive(Debug)]
pub struct RoundWriter<'a> {
    instance: &'a Instance,
    buffer: &'a mut [u8],
    used: usize,
    count: usize,
}

impl<'a> RoundWriter<'a> {
    /// Writes a file of version 1 or 2 without rounds to the start of a buffer. Any other version is refused with 12 and a
    /// buffer that is too short with 22, and nothing is changed.
    ///
    /// ```
    /// # use dimkhoros::{Instance, Patterns, Plan, Refusal, RoundWriter};
    /// # let plan = Plan { pattern: 1, modulus: 23, order: 11, challenges: 11, values: &[2], statement: &[13] };
    /// # let instance = Instance::from_pattern(&Patterns::shipped(), &plan)?;
    /// assert_eq!(RoundWriter::start(&instance, 2, &mut [0; 7])?.file().version(), 2);
    /// assert_eq!(RoundWriter::start(&instance, 2, &mut [0; 6]).unwrap_err(), Refusal::Buffer);
    /// assert_eq!(RoundWriter::start(&instance, 3, &mut [0; 7]).unwrap_err(), Refusal::File);
    /// # Ok::<(), Refusal>(())
    /// ```
    pub fn start(
        instance: &'a Instance,
        version: u32,
        buffer: &'a mut [u8],
    ) -> Result<RoundWriter<'a>, Refusal> {
        let written = sys::empty(version, buffer);
        Refusal::check(written.refusal)?;
        Ok(RoundWriter { instance, buffer, used: written.length, count: 0 })
    }

    /// Goes on with the file in the first `used` bytes of a buffer, or refuses it with 12.
    ///
    /// ```
    /// # use dimkhoros::{Instance, Patterns, Plan, Refusal, RoundWriter};
    /// # let plan = Plan { pattern: 1, modulus: 23, order: 11, challenges: 11, values: &[2], statement: &[13] };
    /// # let instance = Instance::from_pattern(&Patterns::shipped(), &plan)?;
    /// let mut buffer = *b"RND\x00\x01\x00\x00 and room for more";
    /// assert_eq!(RoundWriter::resume(&instance, &mut buffer, 7)?.file().count(), 0);
    /// assert_eq!(RoundWriter::resume(&instance, &mut buffer, 8).unwrap_err(), Refusal::File);
    /// # Ok::<(), Refusal>(())
    /// ```
    pub fn resume(
        instance: &'a Instance,
        buffer: &'a mut [u8],
        used: usize,
    ) -> Result<RoundWriter<'a>, Refusal> {
        let bytes = buffer.get(..used).ok_or(Refusal::File)?;
        let count = RoundFile::open(instance, bytes)?.count();
        Ok(RoundWriter { instance, buffer, used, count })
    }

    /// Adds a round in the file's version. Its values are not tested, but for a challenge above 65,535, which a file of version 2
    /// cannot hold and which is refused with 15. A file of 512 rounds is refused with 12 and a buffer without room for the
    /// round with 22. What is refused changes nothing.
    ///
    /// ```
    /// # use dimkhoros::{Instance, Patterns, Plan, Refusal, Round, RoundWriter};
    /// # let plan = Plan { pattern: 1, modulus: 23, order: 11, challenges: 11, values: &[2], statement: &[13] };
    /// # let instance = Instance::from_pattern(&Patterns::shipped(), &plan)?;
    /// let mut buffer = [0; 20];
    /// let mut writer = RoundWriter::start(&instance, 2, &mut buffer)?;
    /// assert_eq!(writer.append(&Round { challenge: 65_536, ..Round::default() }), Err(Refusal::Challenge));
    /// assert_eq!(writer.append(&Round::default()), Ok(()));
    /// assert_eq!(writer.append(&Round::default()), Err(Refusal::Buffer));
    /// assert_eq!(writer.file().count(), 1);
    /// # Ok::<(), Refusal>(())
    /// ```
    pub fn append(&mut self, round: &Round) -> Result<(), Refusal> {
        let written = sys::append(self.instance.bytes(), self.buffer, self.used, round);
        Refusal::check(written.refusal)?;
        self.used = written.length;
        self.count += 1;
        Ok(())
    }

    /// The file as far as it is written.
    ///
    /// ```
    /// # use dimkhoros::{Instance, Patterns, Plan, RoundWriter};
    /// # let plan = Plan { pattern: 1, modulus: 23, order: 11, challenges: 11, values: &[2], statement: &[13] };
    /// # let instance = Instance::from_pattern(&Patterns::shipped(), &plan)?;
    /// let mut buffer = [0; 100];
    /// let writer = RoundWriter::start(&instance, 1, &mut buffer)?;
    /// assert_eq!(writer.file().bytes(), b"RND\x00\x01\x00\x00");
    /// # Ok::<(), dimkhoros::Refusal>(())
    /// ```
    pub fn file(&self) -> RoundFile<'_> {
        RoundFile { instance: self.instance, bytes: &self.buffer[..self.used], count: self.count }
    }
}
