//! The bytes of a roster, lawful or not.
#![allow(unsafe_code)]

use std::fmt;

use reference::roster::Record;
use yard::Lane;

/// The bytes of a record: number, held, and the wait in the machine's order.
const RECORD: usize = size_of::<Lane>();
/// A count of lanes that is kept in one byte comes round within it.
const ROOM: usize = 264 * RECORD;

#[derive(Clone, Copy, PartialEq, Eq)]
pub struct Roster {
    bytes: [u8; ROOM],
    len: usize,
}

impl Roster {
    /// A roster of these bytes, at most 264 records.
    pub fn new(bytes: &[u8]) -> Roster {
        let mut roster = Roster {
            bytes: [0; ROOM],
            len: bytes.len(),
        };
        roster.bytes[..bytes.len()].copy_from_slice(bytes);
        roster
    }

    pub fn of(records: &[Record]) -> Roster {
        let bytes = |record: &Record| {
            let [low, high] = record.wait.to_ne_bytes();
            [record.number, record.held, low, high]
        };
        Roster::new(&Vec::from_iter(records.iter().flat_map(bytes)))
    }

    pub fn bytes(&self) -> &[u8] {
        &self.bytes[..self.len]
    }

    pub fn records(&self) -> Vec<Record> {
        self.each().collect()
    }

    fn each(&self) -> impl Iterator<Item = Record> + '_ {
        let record = |bytes: &[u8]| Record {
            number: bytes[0],
            held: bytes[1],
            wait: u16::from_ne_bytes([bytes[2], bytes[3]]),
        };
        self.bytes().chunks_exact(RECORD).map(record)
    }
}

/// Number, held and wait of each record; a long one by its length alone. It takes no memory.
impl fmt::Debug for Roster {
    fn fmt(&self, f: &mut fmt::Formatter) -> fmt::Result {
        let lanes = self.len / RECORD;
        if lanes > 9 {
            return write!(f, "{lanes} lanes");
        }
        for Record { number, held, wait } in self.each() {
            write!(f, "[{number} {held} {wait}]")?;
        }
        Ok(())
    }
}

/// Lent bytes as the records that an engine is handed: whole ones, at an even address.
pub fn lanes(bytes: &mut [u8]) -> &mut [Lane] {
    // Every pattern of bits is a record.
    let (before, lanes, behind) = unsafe { bytes.align_to_mut() };
    assert!(
        before.is_empty() && behind.is_empty(),
        "not at a record's place"
    );
    lanes
}

#[cfg(test)]
mod tests {
    use super::*;

    #[test]
    fn the_bytes_are_the_records_of_an_engine() {
        let records = [(0, 255, 258), (1, 0, 65_535)];
        let records = records.map(|(number, held, wait)| Record { number, held, wait });
        let roster = Roster::of(&records);
        assert_eq!(roster.records(), records);
        let mut lent = [Lane::default(); 2];
        for (lane, record) in lent.iter_mut().zip(records) {
            let Record { number, held, wait } = record;
            *lane = Lane { number, held, wait };
        }
        let mut pages = crate::lent::Lent::new(100);
        for end in crate::lent::ENDS {
            pages.put(end, roster.bytes());
            assert_eq!(lanes(pages.bytes_mut()), lent);
        }
    }
}
