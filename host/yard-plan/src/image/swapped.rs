//! A plan handed in as the image, or an image as the plan.

use super::places;
use crate::layout;

#[derive(Clone, Copy, Debug, PartialEq, Eq)]
pub enum Swapped {
    /// The plan begins with the letters of an image.
    Plan,
    /// The image begins with the letters of a plan.
    Image,
}

impl Swapped {
    pub fn of(plan: &[u8], image: &[u8]) -> Option<Swapped> {
        if plan.starts_with(places::LETTERS) {
            return Some(Swapped::Plan);
        }
        image.starts_with(layout::LETTERS).then_some(Swapped::Image)
    }

    pub fn question(self) -> &'static str {
        match self {
            Swapped::Plan => {
                "PLAN begins with YARD, and these are the letters of an image: are PLAN and IMAGE swapped?\n"
            }
            Swapped::Image => {
                "IMAGE begins with PLAN, and these are the letters of a plan: are PLAN and IMAGE swapped?\n"
            }
        }
    }

    /// Whether a refusal is of the file with the other's letters, so that its faults say nothing more.
    pub fn explains(self, number: u32) -> bool {
        match self {
            Swapped::Plan => number == 1,
            Swapped::Image => matches!(number, 11 | 12),
        }
    }
}
