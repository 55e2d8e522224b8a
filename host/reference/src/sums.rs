//! Add, subtract and kind 1: the exact result, held once at the ends of signed 32 bits.
//! How often a result went past an end is counted, for those who compare engines.

use std::cell::Cell;

/// The three operations, in the order of their counts.
#[derive(Clone, Copy)]
enum Sum {
    Add,
    Subtract,
    Extend,
}

#[derive(Clone, Copy)]
enum End {
    Upper,
    Lower,
}

/// How often exact results went past an end: for add, subtract and kind 1, past the upper and past the lower one.
pub type Past = [[u64; 2]; 3];

thread_local! {
    static PAST: Cell<Past> = const { Cell::new([[0; 2]; 3]) };
}

pub fn add(left: i32, right: i32) -> i32 {
    held(Sum::Add, i64::from(left) + i64::from(right))
}

pub fn subtract(left: i32, right: i32) -> i32 {
    held(Sum::Subtract, i64::from(left) - i64::from(right))
}

/// Kind 1: the top times 4096 plus the operand.
pub fn extend(top: i32, operand: i32) -> i32 {
    held(Sum::Extend, i64::from(top) * 4096 + i64::from(operand))
}

fn held(sum: Sum, exact: i64) -> i32 {
    if exact > i64::from(i32::MAX) {
        count(sum, End::Upper);
        i32::MAX
    } else if exact < i64::from(i32::MIN) {
        count(sum, End::Lower);
        i32::MIN
    } else {
        exact as i32
    }
}

fn count(sum: Sum, end: End) {
    let mut past = PAST.get();
    past[sum as usize][end as usize] += 1;
    PAST.set(past);
}

/// What the work gives, and how often results went past an end in it.
pub fn counted<T>(work: impl FnOnce() -> T) -> (T, Past) {
    PAST.take();
    let done = work();
    (done, PAST.take())
}
