//! Buffers as they are lent to an engine: one end touches memory without access, so that a read or write past it stops the run.

use std::ops::Range;

use crate::pages::Pages;

/// The longest damaged plan has fewer bytes.
const PLAN_ROOM: usize = 24_000;

/// The end of a lent buffer that touches memory without access.
#[derive(Clone, Copy, Debug, PartialEq, Eq)]
pub enum End {
    Front,
    Back,
}

pub const ENDS: [End; 2] = [End::Front, End::Back];

pub struct Lent {
    pages: Pages,
    place: Range<usize>,
}

impl Lent {
    /// An empty buffer with room for so many bytes.
    pub fn new(room: usize) -> Lent {
        Lent {
            pages: Pages::new(room),
            place: 0..0,
        }
    }

    pub fn put(&mut self, end: End, bytes: &[u8]) {
        let from = match end {
            End::Front => 0,
            End::Back => self.pages.bytes().len() - bytes.len(),
        };
        self.place = from..from + bytes.len();
        self.bytes_mut().copy_from_slice(bytes);
    }

    pub fn bytes(&self) -> &[u8] {
        &self.pages.bytes()[self.place.clone()]
    }

    pub fn bytes_mut(&mut self) -> &mut [u8] {
        &mut self.pages.bytes_mut()[self.place.clone()]
    }

    /// The bytes, read-only until they are asked for otherwise.
    pub fn locked(&mut self) -> &[u8] {
        self.pages.lock();
        self.bytes()
    }
}

/// A plan, lent at either end and read-only.
pub struct LentPlan {
    front: Lent,
    back: Lent,
}

impl LentPlan {
    fn new() -> LentPlan {
        LentPlan {
            front: Lent::new(PLAN_ROOM),
            back: Lent::new(PLAN_ROOM),
        }
    }

    fn put(&mut self, bytes: &[u8]) {
        for (lent, end) in [(&mut self.front, End::Front), (&mut self.back, End::Back)] {
            lent.put(end, bytes);
            lent.locked();
        }
    }

    pub fn at(&self, end: End) -> &[u8] {
        match end {
            End::Front => self.front.bytes(),
            End::Back => self.back.bytes(),
        }
    }

    pub fn bytes(&self) -> &[u8] {
        self.front.bytes()
    }
}

/// The plans that are not lent at present, for their memory.
#[derive(Default)]
pub struct Shelf(Vec<LentPlan>);

impl Shelf {
    pub fn lend(&mut self, bytes: &[u8]) -> LentPlan {
        let mut plan = self.0.pop().unwrap_or_else(LentPlan::new);
        plan.put(bytes);
        plan
    }

    pub fn take_back(&mut self, plan: LentPlan) {
        self.0.push(plan);
    }
}

#[cfg(test)]
mod tests {
    use super::*;

    #[test]
    fn the_chosen_end_touches_the_end_of_the_pages() {
        let mut lent = Lent::new(312);
        for len in [0, 1, 312] {
            lent.put(End::Front, &vec![7; len]);
            assert_eq!(lent.bytes(), vec![7; len]);
            assert_eq!(
                lent.bytes().as_ptr_range().start,
                lent.pages.bytes().as_ptr_range().start
            );
            lent.put(End::Back, &vec![8; len]);
            assert_eq!(lent.bytes(), vec![8; len]);
            assert_eq!(
                lent.bytes().as_ptr_range().end,
                lent.pages.bytes().as_ptr_range().end
            );
        }
    }

    #[test]
    fn a_plan_is_the_same_at_both_ends_and_so_is_the_next_one_in_its_memory() {
        let mut shelf = Shelf::default();
        for bytes in [&[1, 2, 3][..], &[4], &[5; 15_000]] {
            let plan = shelf.lend(bytes);
            assert_eq!((plan.at(End::Front), plan.at(End::Back)), (bytes, bytes));
            shelf.take_back(plan);
        }
        assert_eq!(shelf.0.len(), 1);
    }
}
