//! Moduli, orders and slots at which arithmetic and the search for a divisor
//! turn, and how often a run meets each.

use crate::arithmetic::{least_divisor, next_prime};
use crate::library::{Header, Places};

/// A name, and which sheets have it by their fixed fields.
type Fields = (&'static str, fn(&Header) -> bool);

/// A name, and which orders have it by their least divisor p, which is handed
/// in behind the order.
type Order = (&'static str, fn(u32, u32) -> bool);

/// A name, and which slots have it by the order, which is handed in behind.
type Slot = (&'static str, fn(u32, u32) -> bool);

/// Moduli and exponents at both ends. Sheets of each kind are to load with them.
const ENDS: [Fields; 9] = [
    ("m = 3", |sheet| sheet.modulus == 3),
    ("m = 4", |sheet| sheet.modulus == 4),
    ("m = 2^k, 4 < m < 2^31", |sheet| {
        sheet.modulus.is_power_of_two() && (5..1 << 31).contains(&sheet.modulus)
    }),
    ("m = 2^31", |sheet| sheet.modulus == 1 << 31),
    ("m even, m > 2^31", |sheet| sheet.modulus % 2 == 0 && sheet.modulus > 1 << 31),
    ("m odd, m > 2^31", |sheet| sheet.modulus % 2 != 0 && sheet.modulus > 1 << 31),
    ("m = 2^32 - 2", |sheet| sheet.modulus == u32::MAX - 1),
    ("m = 2^32 - 1", |sheet| sheet.modulus == u32::MAX),
    ("l = 2^32 - 1", |sheet| sheet.order == u32::MAX),
];

/// Orders by their least divisor p, up to which K may go. Sheets with them are
/// to load at K = p and to be refused with 8 at K = p + 1.
const ORDERS: [Order; 14] = [
    ("l = p", |order, p| order == p),
    ("l = p^2", |order, p| order / p == p),
    ("l = p^2, p > 255", |order, p| order / p == p && p > 255),
    ("l = p q, the next prime q", neighbours),
    ("l = p q, the next prime q, p > 255", |order, p| neighbours(order, p) && p > 255),
    ("l = 2 q, a prime q", |order, p| p == 2 && prime(order / 2)),
    ("l = 3 q, a prime q", |order, p| p == 3 && prime(order / 3)),
    ("p = 5, l > 5", |order, p| p == 5 && order > 5),
    ("p = 7, l > 7", |order, p| p == 7 && order > 7),
    ("p = 11, l > 11", |order, p| p == 11 && order > 11),
    ("p = 13, l > 13", |order, p| p == 13 && order > 13),
    ("l = 25", |order, _| order == 25),
    ("l = 35", |order, _| order == 35),
    ("l = 49", |order, _| order == 49),
];

/// Slots as exponents. Calls are to bring them to sheets of kind 1 that load.
const SLOTS: [Slot; 5] = [
    ("slot 0, q > 2^31", |slot, q| slot == 0 && q > 1 << 31),
    ("slot 1, q > 2^31", |slot, q| slot == 1 && q > 1 << 31),
    ("slot q - 1, q > 2^31", |slot, q| slot == q - 1 && q > 1 << 31),
    ("slot q - 1, q = 2^32 - 1", |slot, q| slot == q - 1 && q == u32::MAX),
    ("slot 2^32 - 1", |slot, _| slot == u32::MAX),
];

/// Whether n is a prime.
fn prime(n: u32) -> bool {
    n >= 2 && least_divisor(n) == n
}

/// Whether the order is the product of p and the next prime.
fn neighbours(order: u32, p: u32) -> bool {
    order > p && order / p == next_prime(p)
}

/// What a case shows: the fixed fields of its sheet, the number that the sheet
/// is refused with, 0 for none, and the slots that are brought to it.
pub struct Seen {
    pub header: Header,
    pub refusal: u32,
    pub slots: Vec<Places>,
}

/// A count for each shape.
#[derive(Default)]
pub struct Shapes {
    /// For each kind.
    ends: [[u64; 2]; ENDS.len()],
    /// For sheets that load and for those that are refused with 8.
    orders: [[u64; 2]; ORDERS.len()],
    slots: [u64; SLOTS.len()],
}

impl Shapes {
    /// Counts the shapes of a case.
    pub fn add(&mut self, seen: &Seen) {
        match seen.refusal {
            0 => {
                self.add_ends(&seen.header);
                self.add_slots(seen);
                self.add_order(&seen.header, 0);
            }
            8 => self.add_order(&seen.header, 1),
            _ => {}
        }
    }

    /// Counts the fixed fields of a sheet that loads.
    fn add_ends(&mut self, header: &Header) {
        for (count, (_, holds)) in self.ends.iter_mut().zip(ENDS) {
            count[usize::from(header.kind == 2)] += u64::from(holds(header));
        }
    }

    /// Counts the slots that are brought to a sheet that loads.
    fn add_slots(&mut self, seen: &Seen) {
        let Header { kind, order, columns, .. } = seen.header;
        let slots = seen.slots.iter().filter(|_| kind == 1);
        for slot in slots.flat_map(|slots| slots.iter().take(columns as usize)) {
            for (count, (_, holds)) in self.slots.iter_mut().zip(SLOTS) {
                *count += u64::from(holds(*slot, order));
            }
        }
    }

    /// Counts the order of a sheet whose K is its least divisor and so much more.
    fn add_order(&mut self, header: &Header, more: u32) {
        let Header { order, challenges, .. } = *header;
        let least = least_divisor(order);
        if challenges.checked_sub(more) == Some(least) {
            for (count, (_, holds)) in self.orders.iter_mut().zip(ORDERS) {
                count[more as usize] += u64::from(holds(order, least));
            }
        }
    }

    /// Each shape with the columns in which it is counted, and the counts.
    pub fn rows(&self) -> Vec<(&'static str, Vec<(&'static str, u64)>)> {
        let ends = ENDS
            .iter()
            .zip(self.ends)
            .map(|((name, _), [one, two])| (*name, vec![("kind 1", one), ("kind 2", two)]));
        let orders = ORDERS
            .iter()
            .zip(self.orders)
            .map(|((name, _), [most, more])| (*name, vec![("K = p", most), ("K = p + 1", more)]));
        let slots =
            SLOTS.iter().zip(self.slots).map(|((name, _), met)| (*name, vec![("brought", met)]));
        ends.chain(orders).chain(slots).collect()
    }
}

#[cfg(test)]
mod tests {
    use super::*;

    /// The counts after one sheet of kind 2 with this order and K.
    fn counted(order: u32, challenges: u32, refusal: u32) -> Vec<(&'static str, Vec<u64>)> {
        let mut shapes = Shapes::default();
        shapes.add(&Seen {
            header: Header { kind: 2, modulus: 1 << 31, order, challenges, rows: 1, columns: 1 },
            refusal,
            slots: vec![[0; 8]],
        });
        let rows = shapes.rows().into_iter();
        let counts = rows
            .map(|(name, columns)| (name, columns.iter().map(|(_, met)| *met).collect::<Vec<_>>()));
        counts.filter(|(_, counts)| counts.iter().any(|met| *met > 0)).collect()
    }

    #[test]
    fn orders_are_counted_at_their_least_divisor_and_one_above() {
        let modulus = ("m = 2^31", vec![0, 1]);
        let square = |counts: [u64; 2]| {
            ["l = p^2", "p = 7, l > 7", "l = 49"].map(|name| (name, counts.to_vec()))
        };
        assert_eq!(counted(49, 7, 0)[0], modulus);
        assert_eq!(counted(49, 6, 0), [modulus]);
        assert_eq!(counted(49, 7, 0)[1..], square([1, 0]));
        assert_eq!(counted(49, 8, 8), square([0, 1]));
        assert_eq!(counted(49, 9, 8), []);
        assert_eq!(counted(49, 8, 10), []);
    }
}
