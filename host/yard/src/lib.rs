//! The engine of libyard.a behind safe calls: include/yard.h in Rust's words.

mod turn;

pub use turn::{turn_of, Lane, Turn};

/// One number of the engine taken apart: kind times 65536 plus number.
#[derive(Clone, Copy, Debug, PartialEq, Eq)]
pub struct Answer {
    pub kind: u32,
    pub number: u32,
}

pub const ACCEPTED: u32 = 0;
pub const COMMITTED: u32 = 1;
pub const CANCELLED: u32 = 2;
pub const STALLED: u32 = 3;
pub const PENNED: u32 = 4;
pub const REFUSED: u32 = 5;
pub const WRONG: u32 = 6;
pub const IDLE: u32 = 7;

pub const IMAGE_BYTES: usize = 312;
/// The most moves of a list.
pub const LIST_MOVES: usize = 8;
/// The most lanes of a roster.
pub const ROSTER_LANES: usize = 8;

pub fn answer(packed: u32) -> Answer {
    Answer {
        kind: packed >> 16,
        number: packed & 0xffff,
    }
}

/// The calls of an engine with the interface of yard.h, by the names of its C functions. A slice's pointer is never null, is aligned, is valid for its
/// length, and `&mut` keeps the image apart from the plan and a list, and roster and images apart from each other and the plan: all that yard.h asks of a
/// caller.
#[macro_export]
macro_rules! engine {
    ($check:literal, $start:literal, $offered:literal, $bits:literal, $try:literal, $settle:literal, $list:literal,
     $turn:literal, $log:literal, $log_index:literal) => {
        mod raw {
            extern "C" {
                #[link_name = $check]
                pub fn check(plan: *const u8, plan_len: usize) -> u32;
                #[link_name = $start]
                pub fn start(
                    plan: *const u8,
                    plan_len: usize,
                    image: *mut u8,
                    image_len: usize,
                ) -> u32;
                #[link_name = $offered]
                pub fn offered(
                    plan: *const u8,
                    plan_len: usize,
                    image: *const u8,
                    image_len: usize,
                ) -> u32;
                #[link_name = $bits]
                pub fn offered_bits(
                    plan: *const u8,
                    plan_len: usize,
                    image: *const u8,
                    image_len: usize,
                ) -> u64;
                #[link_name = $try]
                pub fn attempt(
                    plan: *const u8,
                    plan_len: usize,
                    image: *mut u8,
                    image_len: usize,
                    interaction: u32,
                ) -> u32;
                #[link_name = $settle]
                pub fn settle(
                    plan: *const u8,
                    plan_len: usize,
                    image: *mut u8,
                    image_len: usize,
                ) -> u32;
                #[link_name = $list]
                pub fn list(
                    plan: *const u8,
                    plan_len: usize,
                    image: *mut u8,
                    image_len: usize,
                    moves: *const u8,
                    moves_len: usize,
                ) -> u32;
                #[link_name = $turn]
                pub fn turn(
                    plan: *const u8,
                    plan_len: usize,
                    roster: *mut $crate::Lane,
                    lanes: usize,
                    images: *mut u8,
                    images_len: usize,
                ) -> u32;
                #[link_name = $log]
                pub fn log(plan: *const u8, plan_len: usize, log: *const u8, log_len: usize)
                    -> u32;
                #[link_name = $log_index]
                pub fn log_index(
                    plan: *const u8,
                    plan_len: usize,
                    log: *const u8,
                    log_len: usize,
                ) -> u64;
            }
        }

        pub fn check(plan: &[u8]) -> $crate::Answer {
            $crate::answer(unsafe { raw::check(plan.as_ptr(), plan.len()) })
        }

        pub fn start(plan: &[u8], image: &mut [u8]) -> $crate::Answer {
            $crate::answer(unsafe {
                raw::start(plan.as_ptr(), plan.len(), image.as_mut_ptr(), image.len())
            })
        }

        pub fn offered(plan: &[u8], image: &[u8]) -> $crate::Answer {
            $crate::answer(unsafe {
                raw::offered(plan.as_ptr(), plan.len(), image.as_ptr(), image.len())
            })
        }

        pub fn offered_bits(plan: &[u8], image: &[u8]) -> u64 {
            unsafe { raw::offered_bits(plan.as_ptr(), plan.len(), image.as_ptr(), image.len()) }
        }

        /// A try; `try` is a word of Rust's own.
        pub fn attempt(plan: &[u8], image: &mut [u8], interaction: u32) -> $crate::Answer {
            let (plan_len, image_len) = (plan.len(), image.len());
            $crate::answer(unsafe {
                raw::attempt(
                    plan.as_ptr(),
                    plan_len,
                    image.as_mut_ptr(),
                    image_len,
                    interaction,
                )
            })
        }

        pub fn settle(plan: &[u8], image: &mut [u8]) -> $crate::Answer {
            $crate::answer(unsafe {
                raw::settle(plan.as_ptr(), plan.len(), image.as_mut_ptr(), image.len())
            })
        }

        /// Hands in a list of moves, 16 bits each with the lowest byte first.
        pub fn list(plan: &[u8], image: &mut [u8], moves: &[u8]) -> $crate::Answer {
            let (plan_len, image_len) = (plan.len(), image.len());
            $crate::answer(unsafe {
                raw::list(
                    plan.as_ptr(),
                    plan_len,
                    image.as_mut_ptr(),
                    image_len,
                    moves.as_ptr(),
                    moves.len(),
                )
            })
        }

        /// Gives a turn to one of the lanes, whose images lie end to end.
        pub fn turn(plan: &[u8], roster: &mut [$crate::Lane], images: &mut [u8]) -> $crate::Turn {
            let (plan_len, lanes, images_len) = (plan.len(), roster.len(), images.len());
            $crate::turn_of(unsafe {
                raw::turn(
                    plan.as_ptr(),
                    plan_len,
                    roster.as_mut_ptr(),
                    lanes,
                    images.as_mut_ptr(),
                    images_len,
                )
            })
        }

        pub fn log(plan: &[u8], log: &[u8]) -> $crate::Answer {
            $crate::answer(unsafe { raw::log(plan.as_ptr(), plan.len(), log.as_ptr(), log.len()) })
        }

        /// The index of the first wrong entry; 0 where the log's answer is not wrong.
        pub fn log_index(plan: &[u8], log: &[u8]) -> u64 {
            unsafe { raw::log_index(plan.as_ptr(), plan.len(), log.as_ptr(), log.len()) }
        }
    };
}

engine!(
    "yard_check",
    "yard_start",
    "yard_offered",
    "yard_offered_bits",
    "yard_try",
    "yard_settle",
    "yard_list",
    "yard_turn",
    "yard_log",
    "yard_log_index"
);
