//! How often each call gave each answer.

use std::fmt;

/// Answer numbers end at 30.
const NUMBERS: usize = 31;

/// A call, or the events within a run.
#[derive(Clone, Copy, Debug, PartialEq, Eq)]
pub enum Call {
    NewState,
    Check,
    ReadEvent,
    WriteEvent,
    Step,
    Run,
    EventOfRun,
    Find,
    /// Counted as 0 for a part given and 21 for an empty one.
    Record,
}

/// Every answer that a call can give by the specification.
const REACHABLE: [(Call, &[u8]); 9] = [
    (Call::NewState, &[0, 17]),
    (Call::Check, &[0, 16, 17]),
    (Call::ReadEvent, &[0, 18]),
    (Call::WriteEvent, &[0, 18, 30]),
    (
        Call::Step,
        &[
            0, 1, 2, 3, 16, 17, 18, 19, 20, 21, 22, 23, 24, 25, 26, 27, 28, 29,
        ],
    ),
    (Call::Run, &[0, 16, 17, 30]),
    (
        Call::EventOfRun,
        &[0, 1, 2, 3, 18, 19, 20, 21, 22, 23, 24, 25, 26, 27, 28, 29],
    ),
    (Call::Find, &[0, 16, 17, 21]),
    (Call::Record, &[0, 21]),
];

#[derive(Default)]
pub struct Tally([[u64; NUMBERS]; REACHABLE.len()]);

impl Tally {
    /// False for a number that is no answer.
    pub fn count(&mut self, call: Call, number: u8) -> bool {
        match self.0[call as usize].get_mut(usize::from(number)) {
            Some(counted) => *counted += 1,
            None => return false,
        }
        true
    }

    /// Answers that should have come and did not, or came and should not have.
    pub fn surprises(&self) -> Vec<String> {
        let mut surprises = Vec::new();
        for (call, reachable) in REACHABLE {
            for (number, &counted) in (0..).zip(&self.0[call as usize]) {
                if (counted != 0) != reachable.contains(&number) {
                    surprises.push(format!("{call:?} gave {number} {counted} times"));
                }
            }
        }
        surprises
    }
}

impl fmt::Display for Tally {
    fn fmt(&self, f: &mut fmt::Formatter<'_>) -> fmt::Result {
        for (call, _) in REACHABLE {
            write!(f, "{:<11}", format!("{call:?}"))?;
            for (number, counted) in self.0[call as usize].iter().enumerate() {
                if *counted != 0 {
                    write!(f, "  {number}: {counted}")?;
                }
            }
            writeln!(f)?;
        }
        Ok(())
    }
}
