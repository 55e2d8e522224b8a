//! A change of bytes that rids a file of a fault.

#[derive(Clone, Debug, PartialEq, Eq)]
pub enum Mend {
    /// Bytes to write, each with its offset.
    Write(Vec<(usize, u8)>),
    /// The file is cut off at this length.
    Cut(usize),
}

impl Mend {
    pub fn byte(at: usize, value: u8) -> Mend {
        Mend::Write(vec![(at, value)])
    }

    /// A 16-bit field.
    pub fn field(at: usize, value: usize) -> Mend {
        Mend::fields(&[(at, value)])
    }

    /// 16-bit fields with their places, lowest byte first.
    pub fn fields(fields: &[(usize, usize)]) -> Mend {
        let bytes = |&(at, value): &(usize, usize)| {
            let [low, high] = (value as u16).to_le_bytes();
            [(at, low), (at + 1, high)]
        };
        Mend::Write(fields.iter().flat_map(bytes).collect())
    }

    /// Changes the bytes; offsets past their end are passed over.
    pub fn apply(&self, bytes: &mut Vec<u8>) {
        match self {
            Mend::Cut(length) => bytes.truncate(*length),
            Mend::Write(writes) => {
                for &(at, value) in writes {
                    if let Some(byte) = bytes.get_mut(at) {
                        *byte = value;
                    }
                }
            }
        }
    }
}

#[cfg(test)]
mod tests {
    use super::*;

    fn applied(mend: Mend) -> Vec<u8> {
        let mut bytes = vec![9; 4];
        mend.apply(&mut bytes);
        bytes
    }

    #[test]
    fn bytes_are_written_and_cut() {
        assert_eq!(applied(Mend::byte(1, 5)), [9, 5, 9, 9]);
        assert_eq!(applied(Mend::field(2, 0x0102)), [9, 9, 2, 1]);
        assert_eq!(applied(Mend::Cut(3)), [9, 9, 9]);
    }

    #[test]
    fn writes_past_the_end_are_passed_over() {
        assert_eq!(applied(Mend::field(3, 0x0102)), [9, 9, 9, 2]);
        assert_eq!(applied(Mend::Cut(8)), [9; 4]);
    }
}
