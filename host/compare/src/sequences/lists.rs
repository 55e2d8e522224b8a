//! The lists of a session.

use reference::image;
use reference::plan::Plan;

use super::Session;
use crate::lent::LentPlan;
use crate::list::List;
use crate::loads;

impl Session {
    /// A list for the lane, whole or spoilt; where plan or image is refused one of any numbers.
    pub(super) fn next_list(&mut self, plan: &LentPlan, bytes: &[u8]) -> List {
        let plan = Plan::read(plan.bytes());
        let stored = plan.and_then(|plan| Ok((image::read_unjudged(&plan, bytes)?, plan)));
        match stored {
            Ok((stored, plan)) => loads::on_lane(&mut self.rng, &plan, &stored.lane),
            Err(_) => loads::any(&mut self.rng),
        }
    }
}
