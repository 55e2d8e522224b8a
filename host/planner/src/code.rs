//! The code of 01: a span is put together word by word.

use crate::plan::{Component, Variable};

/// The operators of kind 6, in 01's order.
pub use reference::code::Operator as Op;

/// The words of one guard, action, transfer or proposition.
#[derive(Clone, Default, PartialEq, Eq)]
pub struct Code {
    words: Vec<u16>,
}

impl Code {
    pub fn new() -> Code {
        Code::default()
    }

    pub fn words(&self) -> &[u16] {
        &self.words
    }

    fn word(mut self, kind: u16, operand: u16) -> Code {
        assert!(operand < 4096);
        self.words.push(kind << 12 | operand);
        self
    }

    /// Pushes any number: kinds 0 and 1 for its size, subtracted from 0 where it is negative, so that no sum goes past an end.
    pub fn int(self, n: i32) -> Code {
        match n {
            i32::MIN => self.int(i32::MIN + 1).int(1).op(Op::Subtract),
            n if n < 0 => self.int(0).int(-n).op(Op::Subtract),
            n => self.digits(n as u32),
        }
    }

    /// The digits of n to the base 4096, the highest first.
    fn digits(self, n: u32) -> Code {
        let operand = (n % 4096) as u16;
        match n / 4096 {
            0 => self.word(0, operand),
            higher => self.digits(higher).word(1, operand),
        }
    }

    pub fn var(self, v: Variable) -> Code {
        self.word(2, v.0.into())
    }

    /// Pops into the variable.
    pub fn store(self, v: Variable) -> Code {
        self.word(3, v.0.into())
    }

    pub fn at(self, c: Component, location: u8) -> Code {
        self.word(4, u16::from(c.0) << 8 | u16::from(location))
    }

    /// Whether the component's last port is this one; 255 asks for none yet.
    pub fn last(self, c: Component, port: u8) -> Code {
        self.word(5, u16::from(c.0) << 8 | u16::from(port))
    }

    pub fn op(self, op: Op) -> Code {
        self.word(6, op as u16)
    }

    /// Adds n to the variable.
    pub fn grow(self, v: Variable, n: i32) -> Code {
        let op = if n < 0 { Op::Subtract } else { Op::Add };
        self.var(v).int(n.abs()).op(op).store(v)
    }

    pub fn then(mut self, more: &Code) -> Code {
        self.words.extend(&more.words);
        self
    }

    /// Another value above this one, and both joined by the operator.
    pub fn join(self, other: Code, op: Op) -> Code {
        self.then(&other).op(op)
    }
}

#[cfg(test)]
mod tests {
    use super::*;

    #[test]
    fn numbers() {
        assert_eq!(Code::new().int(4095).words(), [0x0fff]);
        assert_eq!(Code::new().int(9000).words(), [0x0002, 0x1328]);
        assert_eq!(Code::new().int(i32::MAX).words(), [0x007f, 0x1fff, 0x1fff]);
        assert_eq!(Code::new().int(-3).words(), [0x0000, 0x0003, 0x6001]);
        let lowest = [0x0000, 0x007f, 0x1fff, 0x1fff, 0x6001, 0x0001, 0x6001];
        assert_eq!(Code::new().int(i32::MIN).words(), lowest);
    }
}
