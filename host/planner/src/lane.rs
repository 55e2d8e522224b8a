//! A lane that is run by the engine: its plan and its image.

use yard::{Answer, IMAGE_BYTES};

pub struct Lane {
    plan: Vec<u8>,
    pub image: [u8; IMAGE_BYTES],
}

impl Lane {
    /// A started lane, or the answer that start was refused with.
    pub fn start(plan: Vec<u8>) -> Result<Lane, Answer> {
        let mut image = [0; IMAGE_BYTES];
        match yard::start(&plan, &mut image) {
            Answer {
                kind: yard::ACCEPTED,
                ..
            } => Ok(Lane { plan, image }),
            refused => Err(refused),
        }
    }

    pub fn offered(&self) -> u64 {
        yard::offered_bits(&self.plan, &self.image)
    }

    pub fn attempt(&mut self, interaction: u32) -> Answer {
        yard::attempt(&self.plan, &mut self.image, interaction)
    }

    pub fn settle(&mut self) -> Answer {
        yard::settle(&self.plan, &mut self.image)
    }

    /// Hands in a list of moves.
    pub fn list(&mut self, moves: &[u16]) -> Answer {
        let bytes: Vec<u8> = moves.iter().flat_map(|n| n.to_le_bytes()).collect();
        yard::list(&self.plan, &mut self.image, &bytes)
    }

    /// The state of an oracle: 0 is the first, the added ones follow.
    pub fn oracle(&self, oracle: usize) -> u8 {
        self.image[8 + oracle]
    }

    pub fn location(&self, component: usize) -> u8 {
        self.image[24 + component]
    }

    pub fn value(&self, variable: usize) -> i32 {
        let bytes = &self.image[56 + 4 * variable..];
        i32::from_le_bytes([bytes[0], bytes[1], bytes[2], bytes[3]])
    }
}
