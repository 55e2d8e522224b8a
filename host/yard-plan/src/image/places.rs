//! The places of an image's fields.

pub const LETTERS: &[u8; 4] = b"YARD";
pub const FORM: usize = 4;
pub const COUNTS: usize = 5;
pub const ORACLES: usize = 8;
pub const NUMBER: usize = 12;
pub const MARKS: usize = 16;
pub const LOCATIONS: usize = 24;
pub const LAST_PORTS: usize = 40;
pub const VALUES: usize = 56;
/// The cure of damage that comes before any other.
pub const LAST_COPY: &str = "take the last good copy, or start anew";
/// Oracles, components and variables that an image has room for.
pub const MOST_ORACLES: usize = 4;
pub const COMPONENTS: usize = 16;
pub const VARIABLES: usize = 64;

/// The 312 bytes of an image.
pub struct Image<'a>(pub &'a [u8; yard::IMAGE_BYTES]);

impl<'a> Image<'a> {
    /// None for another length.
    pub fn of(bytes: &'a [u8]) -> Option<Image<'a>> {
        bytes.try_into().ok().map(Image)
    }

    /// The state of an oracle: 0 is the first, the added ones follow.
    pub fn oracle(&self, oracle: usize) -> u8 {
        self.0[ORACLES + oracle]
    }

    fn four(&self, at: usize) -> [u8; 4] {
        [self.0[at], self.0[at + 1], self.0[at + 2], self.0[at + 3]]
    }

    pub fn number(&self) -> u32 {
        u32::from_le_bytes(self.four(NUMBER))
    }

    pub fn marks(&self) -> u64 {
        let bytes = self.0[MARKS..LOCATIONS].iter().rev();
        bytes.fold(0, |marks, &byte| marks << 8 | u64::from(byte))
    }

    pub fn location(&self, component: usize) -> u8 {
        self.0[LOCATIONS + component]
    }

    pub fn last_port(&self, component: usize) -> u8 {
        self.0[LAST_PORTS + component]
    }

    pub fn value(&self, variable: usize) -> i32 {
        i32::from_le_bytes(self.four(VALUES + 4 * variable))
    }
}
