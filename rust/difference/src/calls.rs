//! The public calls, the refusals that 01 lets each give, and what was reached.

use std::fmt;

#[derive(Clone, Copy, Debug, PartialEq, Eq)]
#[rustfmt::skip]
pub enum Call {
    Check, ReadText, WriteText, Assemble, Verdicts, Operate, Run, First, Next, States, Reachable, Admissible,
    CanCause, Rules, Stratum, Outcomes, TreeSize, Depth,
}

impl Call {
    #[rustfmt::skip]
    pub const ALL: [Call; 18] = [
        Call::Check, Call::ReadText, Call::WriteText, Call::Assemble, Call::Verdicts, Call::Operate, Call::Run,
        Call::First, Call::Next, Call::States, Call::Reachable, Call::Admissible, Call::CanCause, Call::Rules,
        Call::Stratum, Call::Outcomes, Call::TreeSize, Call::Depth,
    ];

    /// The export's name without `fernpocket_`.
    pub fn name(self) -> &'static str {
        match self {
            Call::Check => "check",
            Call::ReadText => "read_text",
            Call::WriteText => "write_text",
            Call::Assemble => "assemble",
            Call::Verdicts => "verdicts",
            Call::Operate => "operate",
            Call::Run => "run",
            Call::First => "first",
            Call::Next => "next",
            Call::States => "states",
            Call::Reachable => "reachable",
            Call::Admissible => "admissible",
            Call::CanCause => "can_cause",
            Call::Rules => "rules",
            Call::Stratum => "stratum",
            Call::Outcomes => "outcomes",
            Call::TreeSize => "tree_size",
            Call::Depth => "depth",
        }
    }

    /// The refusals that 01 lets the call give; 0 where it goes through.
    pub fn possible(self) -> &'static [i64] {
        match self {
            Call::Check | Call::Rules => &[0, 1, 2, 3],
            Call::ReadText | Call::WriteText => &[0, 14, 15],
            Call::Assemble | Call::Verdicts => &[0, 1, 2, 3, 4, 6, 7],
            Call::Operate => &[0, 1, 2, 3, 4, 5, 6, 7, 8, 9, 10, 11, 16],
            Call::Run => &[0, 1, 2, 3, 4, 5, 6, 7, 8],
            Call::First => &[0, 1, 2, 3, 4, 5],
            Call::Next => &[0, 1, 2, 3, 4, 5, 12, 13],
            _ => &[0, 1, 2, 3, 5],
        }
    }
}

/// The numbers of refusals, 0 among them.
const REFUSALS: usize = 17;

/// How often each call gave each refusal.
#[derive(Clone, Default)]
pub struct Reached([[u64; REFUSALS]; 18]);

impl Reached {
    pub fn count(&mut self, call: Call, refusal: i64) {
        self.0[call as usize][refusal as usize] += 1;
    }

    /// The number of calls in all.
    pub fn total(&self) -> u64 {
        self.0.iter().flatten().sum()
    }

    /// What 01 allows and was not reached.
    pub fn gaps(&self) -> Vec<(&'static str, i64)> {
        let mut gaps = vec![];
        for call in Call::ALL {
            for &refusal in call.possible() {
                if self.0[call as usize][refusal as usize] == 0 {
                    gaps.push((call.name(), refusal));
                }
            }
        }
        gaps
    }
}

/// A table; a dot stands where 01 does not let the call give the refusal.
impl fmt::Display for Reached {
    fn fmt(&self, f: &mut fmt::Formatter) -> fmt::Result {
        write!(f, "{:<11}", "")?;
        for refusal in 0..REFUSALS as i64 {
            write!(f, "{refusal:>10}")?;
        }
        for call in Call::ALL {
            write!(f, "\n{:<11}", call.name())?;
            for refusal in 0..REFUSALS as i64 {
                match call.possible().contains(&refusal) {
                    true => write!(f, "{:>10}", self.0[call as usize][refusal as usize])?,
                    false => write!(f, "{:>10}", ".")?,
                }
            }
        }
        Ok(())
    }
}
