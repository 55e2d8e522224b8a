//! Random tries on a lane.

use crate::lane::Lane;
use crate::rng::Rng;
use yard::Answer;

/// Whether a cancelled move is left out of the draw until the next commit, as the disabler of 002 does.
#[derive(Clone, Copy, PartialEq, Eq)]
pub enum Disabler {
    On,
    Off,
}

/// Why a drive ended early.
#[derive(Debug)]
pub enum End {
    /// No move is on offer after this many commits.
    NothingOffered(u64),
    /// An answer that a try of a move on offer cannot have.
    Unexpected(Answer),
}

const MARKED: u32 = 19;

/// Draws and tries moves until so many are committed; gives the number of rollbacks, which are moves cancelled or,
/// without the disabler, refused because they are marked.
pub fn drive(lane: &mut Lane, rng: &mut Rng, commits: u64, disabler: Disabler) -> Result<u64, End> {
    let (mut done, mut rollbacks) = (0, 0);
    let mut choices = lane.offered();
    while done < commits {
        if choices == 0 {
            return Err(End::NothingOffered(done));
        }
        let fresh = match lane.attempt(rng.bit(choices)) {
            Answer {
                kind: yard::COMMITTED,
                ..
            } => true,
            Answer {
                kind: yard::CANCELLED,
                ..
            } => false,
            Answer {
                kind: yard::REFUSED,
                number: MARKED,
            } => false,
            answer => return Err(End::Unexpected(answer)),
        };
        done += u64::from(fresh);
        rollbacks += u64::from(!fresh);
        let offered = lane.offered();
        if offered == 0 || fresh || disabler == Disabler::On {
            choices = offered;
        }
    }
    Ok(rollbacks)
}
