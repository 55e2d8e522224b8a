//! Code words taken apart.

pub use reference::code::Operator;

/// The operators by their numbers.
const OPERATORS: [Operator; 8] = [
    Operator::Add,
    Operator::Subtract,
    Operator::Equal,
    Operator::AtLeast,
    Operator::And,
    Operator::Or,
    Operator::Not,
    Operator::Implies,
];

pub fn sign(operator: Operator) -> &'static str {
    match operator {
        Operator::Add => "+",
        Operator::Subtract => "-",
        Operator::Equal => "=",
        Operator::AtLeast => ">=",
        Operator::And => "and",
        Operator::Or => "or",
        Operator::Not => "not",
        Operator::Implies => "implies",
    }
}

#[derive(Clone, Copy, Debug, PartialEq, Eq)]
pub enum Word {
    Push(u16),
    /// The top times 4096 plus the operand.
    Extend(u16),
    Load(usize),
    Store(usize),
    At {
        component: usize,
        location: u8,
    },
    /// 255 asks for no last port yet.
    Last {
        component: usize,
        port: u8,
    },
    Apply(Operator),
    NoOperator(u16),
    NoKind(u16),
}

impl Word {
    pub fn of(word: u16) -> Word {
        let operand = word & 0x0fff;
        let component = usize::from(operand >> 8);
        let low = operand as u8;
        match word >> 12 {
            0 => Word::Push(operand),
            1 => Word::Extend(operand),
            2 => Word::Load(operand.into()),
            3 => Word::Store(operand.into()),
            4 => Word::At {
                component,
                location: low,
            },
            5 => Word::Last {
                component,
                port: low,
            },
            6 => OPERATORS
                .get(usize::from(operand))
                .map_or(Word::NoOperator(operand), |&operator| Word::Apply(operator)),
            kind => Word::NoKind(kind),
        }
    }

    /// How many values the word pops and how many it then pushes; none for words that mean nothing.
    pub fn effect(self) -> Option<(usize, usize)> {
        match self {
            Word::Push(_) | Word::Load(_) | Word::At { .. } | Word::Last { .. } => Some((0, 1)),
            Word::Store(_) => Some((1, 0)),
            Word::Extend(_) | Word::Apply(Operator::Not) => Some((1, 1)),
            Word::Apply(_) => Some((2, 1)),
            Word::NoOperator(_) | Word::NoKind(_) => None,
        }
    }

    /// The variable that the word names.
    pub fn variable(self) -> Option<usize> {
        match self {
            Word::Load(variable) | Word::Store(variable) => Some(variable),
            _ => None,
        }
    }
}
