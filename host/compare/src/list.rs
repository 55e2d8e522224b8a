//! The bytes of a list of moves, lawful or not.

use std::fmt;

use reference::log;

use crate::runs::log_of;

/// A count of moves that is kept in one byte comes round within it.
const ROOM: usize = 520;

#[derive(Clone, Copy, PartialEq, Eq)]
pub struct List {
    bytes: [u8; ROOM],
    len: usize,
}

impl List {
    /// A list of these bytes, at most 520.
    pub fn new(bytes: &[u8]) -> List {
        let mut list = List {
            bytes: [0; ROOM],
            len: bytes.len(),
        };
        list.bytes[..bytes.len()].copy_from_slice(bytes);
        list
    }

    pub fn of(moves: &[usize]) -> List {
        List::new(&log_of(moves))
    }

    pub fn bytes(&self) -> &[u8] {
        &self.bytes[..self.len]
    }

    /// Its entries; a last byte without its second one is none.
    pub fn entries(&self) -> Vec<usize> {
        log::entries(self.bytes()).collect()
    }
}

/// A long one by its length alone.
impl fmt::Debug for List {
    fn fmt(&self, f: &mut fmt::Formatter) -> fmt::Result {
        match self.len {
            0..=20 => write!(f, "{:?}, {} bytes", self.entries(), self.len),
            len => write!(f, "{len} bytes"),
        }
    }
}
