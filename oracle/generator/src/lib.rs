//! Random tree files, all from a seed: readable ones, damaged copies, paired copies, and files
//! that lie just below, at and above each limit.

pub mod damage;
pub mod limits;
pub mod near;
pub mod node;
pub mod pairs;
pub mod rng;
pub mod runnable;
pub mod scripts;

use rng::Rng;
use tree_file::Script;

/// Scripts without patterns are those of their seed whatever is drawn for patterns.
#[derive(Clone, Copy, PartialEq, Eq)]
pub enum Sort {
    Plain,
    Patterns,
}

impl Sort {
    /// One script in three has patterns.
    pub fn any(rng: &mut Rng) -> Sort {
        match rng.once_in(3) {
            true => Sort::Patterns,
            false => Sort::Plain,
        }
    }

    /// A readable script of about `low` to `high` nodes, small ones more often.
    pub fn script(self, rng: &mut Rng, low: usize, high: usize) -> Script {
        let a = rng.from(low, high);
        let b = rng.from(low, high);
        let c = rng.from(low, high);
        let nodes = a.min(b).min(c);
        match self {
            Sort::Plain => scripts::script(rng, nodes),
            Sort::Patterns => scripts::pattern_script(rng, nodes),
        }
    }

    /// The script brought near a limit.
    pub fn near_limit(self, rng: &mut Rng, script: &Script) -> Script {
        match self {
            Sort::Plain => near::near_limit(rng, script),
            Sort::Patterns => near::near_limit_with_patterns(rng, script),
        }
    }
}
