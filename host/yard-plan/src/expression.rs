//! Code as expressions and assignments.

use std::fmt::{self, Display};

use crate::text;
use crate::words::{sign, Operator, Word};

#[derive(Clone, Debug, PartialEq, Eq)]
pub enum Expression {
    /// Kinds 0 and 1: not negative, and held at the upper end of 32 bits.
    Number(i32),
    Variable(usize),
    /// A value kept before the variables in it were assigned anew.
    Kept(usize),
    At(usize, u8),
    Last(usize, u8),
    /// Times 4096 plus a number, held once: kind 1 on what is no number.
    Extended(Box<Expression>, u16),
    Not(Box<Expression>),
    Joined(Operator, Box<Expression>, Box<Expression>),
}

#[derive(Clone, Debug, PartialEq, Eq)]
pub enum Statement {
    /// `let t0 = v0`
    Keep(usize, Expression),
    /// `v0 := 9000`
    Assign(usize, Expression),
}

/// What a span does and the value that it ends with, where there is one.
#[derive(Clone, Debug, PartialEq, Eq)]
pub struct Code {
    pub statements: Vec<Statement>,
    pub value: Option<Expression>,
}

/// The words as expressions; none where they pop what is not there, mean nothing, or end with more than one value.
pub fn read(words: &[u16]) -> Option<Code> {
    let mut reader = Reader::default();
    for &word in words {
        reader.word(Word::of(word))?;
    }
    (reader.stack.len() <= 1).then(|| Code {
        statements: reader.statements,
        value: reader.stack.pop(),
    })
}

#[derive(Default)]
struct Reader {
    stack: Vec<Expression>,
    statements: Vec<Statement>,
    kept: usize,
}

impl Reader {
    fn word(&mut self, word: Word) -> Option<()> {
        let pushed = match word {
            Word::Push(number) => Expression::Number(number.into()),
            Word::Extend(number) => extended(self.stack.pop()?, number),
            Word::Load(variable) => Expression::Variable(variable),
            Word::Store(variable) => {
                let value = self.stack.pop()?;
                self.keep_old(variable);
                self.statements.push(Statement::Assign(variable, value));
                return Some(());
            }
            Word::At {
                component,
                location,
            } => Expression::At(component, location),
            Word::Last { component, port } => Expression::Last(component, port),
            Word::Apply(Operator::Not) => Expression::Not(Box::new(self.stack.pop()?)),
            Word::Apply(operator) => {
                let right = Box::new(self.stack.pop()?);
                let left = Box::new(self.stack.pop()?);
                Expression::Joined(operator, left, right)
            }
            Word::NoOperator(_) | Word::NoKind(_) => return None,
        };
        self.stack.push(pushed);
        Some(())
    }

    /// Values on the stack were read before the variable is assigned: those that name it are kept under a name of their own.
    fn keep_old(&mut self, variable: usize) {
        for value in self.stack.iter_mut().filter(|v| v.names(variable)) {
            let old = std::mem::replace(value, Expression::Kept(self.kept));
            self.statements.push(Statement::Keep(self.kept, old));
            self.kept += 1;
        }
    }
}

fn extended(top: Expression, number: u16) -> Expression {
    match top {
        Expression::Number(top) => {
            let exact = i64::from(top) * 4096 + i64::from(number);
            Expression::Number(exact.min(i32::MAX.into()) as i32)
        }
        top => Expression::Extended(Box::new(top), number),
    }
}

/// How tightly an expression holds together, for parentheses.
#[derive(Clone, Copy, PartialEq, Eq)]
enum Class {
    Atom,
    Product,
    Sum,
    Comparison,
    Not,
    And,
    Or,
    Implies,
}

fn class_of(operator: Operator) -> Class {
    match operator {
        Operator::Add | Operator::Subtract => Class::Sum,
        Operator::Equal | Operator::AtLeast => Class::Comparison,
        Operator::And => Class::And,
        Operator::Or => Class::Or,
        Operator::Not => Class::Not,
        Operator::Implies => Class::Implies,
    }
}

/// Whether an operand stands without parentheses; they are left out where nobody can read the other meaning.
fn bare(parent: Class, operand: Class, left: bool) -> bool {
    match (parent, operand) {
        (_, Class::Atom) | (Class::Comparison, Class::Sum) => true,
        (Class::And | Class::Or | Class::Implies, Class::Comparison | Class::Not) => true,
        (Class::Sum, Class::Sum) | (Class::And, Class::And) | (Class::Or, Class::Or) => left,
        _ => false,
    }
}

impl Expression {
    fn class(&self) -> Class {
        match self {
            Expression::Number(_)
            | Expression::Variable(_)
            | Expression::Kept(_)
            | Expression::At(..)
            | Expression::Last(..) => Class::Atom,
            Expression::Extended(..) => Class::Sum,
            Expression::Not(_) => Class::Not,
            Expression::Joined(operator, ..) => class_of(*operator),
        }
    }

    fn names(&self, variable: usize) -> bool {
        match self {
            Expression::Variable(named) => *named == variable,
            Expression::Extended(inner, _) | Expression::Not(inner) => inner.names(variable),
            Expression::Joined(_, left, right) => left.names(variable) || right.names(variable),
            _ => false,
        }
    }

    fn operand(&self, f: &mut fmt::Formatter, parent: Class, left: bool) -> fmt::Result {
        if bare(parent, self.class(), left) {
            write!(f, "{self}")
        } else {
            write!(f, "({self})")
        }
    }
}

impl Display for Expression {
    fn fmt(&self, f: &mut fmt::Formatter) -> fmt::Result {
        match self {
            Expression::Number(number) => write!(f, "{number}"),
            Expression::Variable(variable) => write!(f, "v{variable}"),
            Expression::Kept(kept) => write!(f, "t{kept}"),
            Expression::At(component, location) => write!(f, "at({component}, {location})"),
            Expression::Last(component, port) => {
                write!(f, "last({component}, {})", text::last_port(*port))
            }
            Expression::Extended(inner, number) => {
                inner.operand(f, Class::Product, true)?;
                write!(f, " * 4096 + {number}")
            }
            Expression::Not(inner) => {
                f.write_str("not ")?;
                inner.operand(f, Class::Not, false)
            }
            Expression::Joined(operator, left, right) => {
                left.operand(f, self.class(), true)?;
                write!(f, " {} ", sign(*operator))?;
                right.operand(f, self.class(), false)
            }
        }
    }
}

impl Display for Statement {
    fn fmt(&self, f: &mut fmt::Formatter) -> fmt::Result {
        match self {
            Statement::Keep(kept, value) => write!(f, "let t{kept} = {value}"),
            Statement::Assign(variable, value) => write!(f, "v{variable} := {value}"),
        }
    }
}

impl Display for Code {
    fn fmt(&self, f: &mut fmt::Formatter) -> fmt::Result {
        let statements = self.statements.iter().map(Statement::to_string);
        let value = self.value.iter().map(Expression::to_string);
        let parts: Vec<String> = statements.chain(value).collect();
        f.write_str(&parts.join("; "))
    }
}

#[cfg(test)]
mod tests {
    use super::*;

    fn text(words: &[u16]) -> String {
        read(words).map_or("none".to_string(), |code| code.to_string())
    }

    #[test]
    fn the_samples_code() {
        assert_eq!(text(&[0x0002, 0x1328, 0x3000]), "v0 := 9000");
        let proposition = [0x4002, 0x2000, 0x0000, 0x6002, 0x6004];
        assert_eq!(text(&proposition), "at(0, 2) and v0 = 0");
    }

    #[test]
    fn numbers_are_held_at_the_upper_end() {
        assert_eq!(text(&[0x007f, 0x1fff, 0x1ffe]), "2147483646");
        assert_eq!(text(&[0x007f, 0x1fff, 0x1fff]), "2147483647");
        assert_eq!(text(&[0x0080, 0x1000, 0x1000]), "2147483647");
        assert_eq!(text(&[0x0fff, 0x1fff, 0x1fff, 0x1fff]), "2147483647");
    }

    #[test]
    fn what_is_no_number_is_extended_in_parentheses() {
        assert_eq!(text(&[0x2001, 0x1005]), "v1 * 4096 + 5");
        assert_eq!(
            text(&[0x2001, 1, 0x6000, 0x1005, 0x1006]),
            "((v1 + 1) * 4096 + 5) * 4096 + 6"
        );
    }

    #[test]
    fn tests_of_locations_and_last_ports() {
        assert_eq!(text(&[0x4f0e]), "at(15, 14)");
        assert_eq!(text(&[0x5103]), "last(1, 3)");
        assert_eq!(text(&[0x52ff]), "last(2, none)");
    }

    #[test]
    fn parentheses_stand_where_needed_or_in_doubt() {
        let [a, b, c] = [0x2000, 0x2001, 0x2002];
        let [add, sub, eq, and, or, not, implies] =
            [0x6000, 0x6001, 0x6002, 0x6004, 0x6005, 0x6006, 0x6007];
        assert_eq!(text(&[a, b, sub, c, sub]), "v0 - v1 - v2");
        assert_eq!(text(&[a, b, c, add, sub]), "v0 - (v1 + v2)");
        assert_eq!(text(&[a, b, add, c, eq]), "v0 + v1 = v2");
        assert_eq!(text(&[a, b, eq, c, eq]), "(v0 = v1) = v2");
        assert_eq!(text(&[a, b, and, c, and]), "v0 and v1 and v2");
        assert_eq!(text(&[a, b, c, and, and]), "v0 and (v1 and v2)");
        assert_eq!(text(&[a, b, and, c, or]), "(v0 and v1) or v2");
        assert_eq!(text(&[a, not, b, and]), "not v0 and v1");
        assert_eq!(text(&[a, b, and, not]), "not (v0 and v1)");
        assert_eq!(text(&[a, not, b, add]), "(not v0) + v1");
        assert_eq!(
            text(&[a, b, implies, c, implies]),
            "(v0 implies v1) implies v2"
        );
        assert_eq!(text(&[a, b, add, c, and]), "(v0 + v1) and v2");
    }

    #[test]
    fn a_value_read_before_an_assignment_is_kept() {
        let swap = [0x2000, 0x2001, 0x3000, 0x3001];
        assert_eq!(text(&swap), "let t0 = v0; v0 := v1; v1 := t0");
        let apart = [0x2000, 0x0001, 0x3001, 0x3002];
        assert_eq!(text(&apart), "v1 := 1; v2 := v0");
    }

    #[test]
    fn unlawful_words_are_no_expression() {
        for words in [
            &[0x6000][..],
            &[0x1001],
            &[0x3000],
            &[0x7000],
            &[1, 1, 0x6008],
            &[1, 1],
        ] {
            assert_eq!(text(words), "none");
        }
    }
}
