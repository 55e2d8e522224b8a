//! What an older build of the library may lack: lists, and with them verdict 1, and turns.

use yard::Turn;

use crate::engines::Engine;

/// What the engines that are compared have.
#[derive(Clone, Copy, Debug, PartialEq, Eq)]
pub struct Has {
    /// And so verdict 1.
    pub lists: bool,
    pub turns: bool,
}

impl Has {
    pub const ALL: Has = Has {
        lists: true,
        turns: true,
    };

    /// What an older build has: a stub that refuses nothing stands for a call that it lacks (`host/bench`).
    pub fn of(engine: Engine) -> Has {
        let turn = (engine.turn)(&[], &mut [], &mut []);
        Has {
            lists: (engine.list)(&[], &mut [], &[]).kind == yard::REFUSED,
            turns: matches!(turn, Turn::Refused(_)),
        }
    }

    /// What is left out, where something is.
    pub fn lacking(self) -> Option<&'static str> {
        match (self.lists, self.turns) {
            (true, true) => None,
            (true, false) => Some("turns are left out: the older build has none"),
            (false, _) => {
                Some("lists, plans with verdict 1 and turns are left out: the older build has none")
            }
        }
    }
}

/// Whether a plan that can be told apart into its sections has an oracle state of verdict 1.
pub fn has_verdict_1(plan: &[u8]) -> bool {
    let field = |at: usize| Some(u16::from_le_bytes([*plan.get(at)?, *plan.get(at + 1)?]));
    let row = field(18).filter(|&propositions| propositions <= 4);
    let row = row.map_or(1, |propositions| 1 + (1_usize << propositions));
    let [from, to] = [38, 40].map(|at| field(at).map_or(0, usize::from));
    let oracles = plan.get(from..to).unwrap_or(&[]);
    oracles.chunks(row).any(|state| state[0] == 1)
}

#[cfg(test)]
mod tests {
    use super::*;
    use crate::engines::BASELINE;
    use crate::generate;
    use crate::rng::Rng;

    #[test]
    fn an_engine_without_lists_or_turns_is_told_by_its_stubs() {
        let without_turns = Engine {
            turn: |_, _, _| yard::turn_of(0),
            ..BASELINE
        };
        let without_both = Engine {
            list: |_, _, _| yard::answer(0),
            ..without_turns
        };
        let has = |lists, turns| Has { lists, turns };
        assert_eq!(Has::of(BASELINE), Has::ALL);
        assert_eq!(Has::of(without_turns), has(true, false));
        assert_eq!(Has::of(without_both), has(false, false));
    }

    #[test]
    fn verdict_1_is_found_in_any_oracle() {
        let mut rng = Rng::new(5);
        let mut met = [0; 2];
        for _ in 0..300 {
            let draft = generate::plan(&mut rng).draft;
            let mut states = draft.oracle.iter().chain(draft.added.iter().flatten());
            let has = states.any(|state| state.verdict == 1);
            assert_eq!(has_verdict_1(&draft.bytes()), has);
            met[usize::from(has)] += 1;
        }
        assert!(met.iter().all(|&count| count > 60), "{met:?}");
    }
}
