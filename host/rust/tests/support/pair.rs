//! Two monitors given the same calls, with every byte compared after each.

use super::calls::Calls;
use super::rng::Rng;
use super::tally::{Call, Tally};
use plain::Fields;
use std::fmt;

/// The least bytes before a lent buffer, and the bytes after it.
const GUARD: usize = 16;

/// A call after which the two monitors are not alike, or not as they should be.
#[derive(Debug)]
pub struct Difference {
    call: Call,
    what: String,
}

impl Difference {
    pub fn new(call: Call, what: String) -> Difference {
        Difference { call, what }
    }
}

impl fmt::Display for Difference {
    fn fmt(&self, f: &mut fmt::Formatter<'_>) -> fmt::Result {
        write!(f, "{:?}: {}", self.call, self.what)
    }
}

/// One buffer as lent to both monitors, amid random guard bytes.
struct Twin {
    name: &'static str,
    start: usize,
    length: usize,
    before: Vec<u8>,
    left: Vec<u8>,
    right: Vec<u8>,
}

impl Twin {
    fn lend(name: &'static str, content: &[u8], rng: &mut Rng) -> Twin {
        // The first guard's length varies, and with it the buffer's alignment.
        let start = GUARD + rng.below(8);
        let mut before = noise(start, rng);
        before.extend_from_slice(content);
        before.extend_from_slice(&noise(GUARD, rng));
        Twin {
            name,
            start,
            length: content.len(),
            left: before.clone(),
            right: before.clone(),
            before,
        }
    }

    fn left(&mut self) -> &mut [u8] {
        &mut self.left[self.start..][..self.length]
    }

    fn right(&mut self) -> &mut [u8] {
        &mut self.right[self.start..][..self.length]
    }

    fn guards<'b>(&self, bytes: &'b [u8]) -> [&'b [u8]; 2] {
        [&bytes[..self.start], &bytes[self.start + self.length..]]
    }

    /// What happened to the bytes that should not have.
    fn complaint(&self, may_change: bool) -> Option<String> {
        if self.left != self.right {
            let place = (0..self.left.len()).find(|&at| self.left[at] != self.right[at])?;
            let place = place as i64 - self.start as i64;
            return Some(format!("byte {place} of the {} differs", self.name));
        }
        if self.guards(&self.left) != self.guards(&self.before) {
            return Some(format!("a guard byte of the {} changed", self.name));
        }
        if !may_change && self.left != self.before {
            return Some(format!("the {} changed and should not have", self.name));
        }
        None
    }
}

/// The two monitors, and what was asked of them.
pub struct Pair<'a> {
    left: &'a dyn Calls,
    right: &'a dyn Calls,
    pub rng: Rng,
    tally: &'a mut Tally,
}

impl<'a> Pair<'a> {
    pub fn new(left: &'a dyn Calls, right: &'a dyn Calls, seed: u64, tally: &'a mut Tally) -> Self {
        Pair {
            left,
            right,
            rng: Rng::new(seed),
            tally,
        }
    }

    fn lend(&mut self, name: &'static str, content: &[u8]) -> Twin {
        Twin::lend(name, content, &mut self.rng)
    }

    /// Lends an output that holds anything.
    fn lend_output(&mut self, length: usize) -> Twin {
        let content = noise(length, &mut self.rng);
        self.lend("output", &content)
    }

    pub fn new_state(&mut self, state: &mut [u8]) -> Result<u32, Difference> {
        let mut lent = self.lend("state", state);
        let left = self.left.new_state(lent.left());
        let right = self.right.new_state(lent.right());
        self.settle(Call::NewState, (left, right), &[], &[&lent])?;
        state.copy_from_slice(lent.left());
        Ok(left)
    }

    pub fn check(&mut self, policy: &[u8], state: &[u8]) -> Result<u32, Difference> {
        let (mut policy, mut state) = (self.lend("policy", policy), self.lend("state", state));
        let left = self.left.check(policy.left(), state.left());
        let right = self.right.check(policy.right(), state.right());
        self.settle(Call::Check, (left, right), &[&policy, &state], &[])?;
        Ok(left)
    }

    pub fn read_event(&mut self, record: &[u8]) -> Result<u32, Difference> {
        let mut record = self.lend("record", record);
        let left = self.left.read_event(record.left());
        let right = self.right.read_event(record.right());
        self.settle(Call::ReadEvent, (left, right), &[&record], &[])?;
        Ok(left)
    }

    pub fn write_event(&mut self, fields: &Fields, record: &mut [u8]) -> Result<u32, Difference> {
        let mut lent = self.lend("record", record);
        let left = self.left.write_event(fields, lent.left());
        let right = self.right.write_event(fields, lent.right());
        self.settle(Call::WriteEvent, (left, right), &[], &[&lent])?;
        record.copy_from_slice(lent.left());
        Ok(left)
    }

    pub fn step(
        &mut self,
        policy: &[u8],
        state: &mut [u8],
        event: &[u8],
    ) -> Result<u32, Difference> {
        let (mut policy, mut event) = (self.lend("policy", policy), self.lend("event", event));
        let mut lent = self.lend("state", state);
        let left = self.left.step(policy.left(), lent.left(), event.left());
        let right = self.right.step(policy.right(), lent.right(), event.right());
        self.settle(Call::Step, (left, right), &[&policy, &event], &[&lent])?;
        state.copy_from_slice(lent.left());
        Ok(left)
    }

    /// Runs with an output of the given size, whatever the number of events.
    pub fn run(
        &mut self,
        policy: &[u8],
        state: &mut [u8],
        events: &[u8],
        room: usize,
    ) -> Result<u32, Difference> {
        let (mut policy, mut events) = (self.lend("policy", policy), self.lend("events", events));
        let (mut lent, mut out) = (self.lend("state", state), self.lend_output(room));
        // The count stands between two guards too.
        let mut first = [self.rng.next(), self.rng.next(), self.rng.next()];
        let (before, mut second) = (first, first);
        let left = self.left.run(
            policy.left(),
            lent.left(),
            events.left(),
            out.left(),
            &mut first[1],
        );
        let right = self.right.run(
            policy.right(),
            lent.right(),
            events.right(),
            out.right(),
            &mut second[1],
        );
        self.settle(
            Call::Run,
            (left, right),
            &[&policy, &events],
            &[&lent, &out],
        )?;
        settle_counts(&before, &first, &second)?;
        if number(left) < 16 {
            self.count_events(out.left())?;
        }
        state.copy_from_slice(lent.left());
        Ok(left)
    }

    fn count_events(&mut self, out: &[u8]) -> Result<(), Difference> {
        for answer in out.chunks_exact(2) {
            self.count(Call::EventOfRun, answer[0])?;
        }
        Ok(())
    }

    pub fn find(&mut self, policy: &[u8], state: &[u8], suite: u16) -> Result<u32, Difference> {
        let (mut policy, mut state) = (self.lend("policy", policy), self.lend("state", state));
        let left = self.left.find(policy.left(), state.left(), suite);
        let right = self.right.find(policy.right(), state.right(), suite);
        self.settle(Call::Find, (left, right), &[&policy, &state], &[])?;
        Ok(left)
    }

    pub fn record(&mut self, policy: &[u8], state: &[u8], suite: u16) -> Result<u64, Difference> {
        let (mut policy, mut state) = (self.lend("policy", policy), self.lend("state", state));
        let left = self.left.record(policy.left(), state.left(), suite);
        let right = self.right.record(policy.right(), state.right(), suite);
        if left != right {
            return Err(Difference::new(
                Call::Record,
                format!("places {left:#x}, {right:#x}"),
            ));
        }
        let number = if left == 0 { 21 } else { 0 };
        self.settle(Call::Record, (number, number), &[&policy, &state], &[])?;
        Ok(left)
    }

    fn settle(
        &mut self,
        call: Call,
        (left, right): (u32, u32),
        read: &[&Twin],
        written: &[&Twin],
    ) -> Result<(), Difference> {
        if left != right {
            return Err(Difference::new(
                call,
                format!("answers {left:#x}, {right:#x}"),
            ));
        }
        let carried_out = number(left) < 16;
        let read = read.iter().find_map(|twin| twin.complaint(false));
        let written = written.iter().find_map(|twin| twin.complaint(carried_out));
        if let Some(what) = read.or(written) {
            return Err(Difference::new(call, format!("answer {left:#x}: {what}")));
        }
        self.count(call, number(left))
    }

    fn count(&mut self, call: Call, number: u8) -> Result<(), Difference> {
        if self.tally.count(call, number) {
            return Ok(());
        }
        Err(Difference::new(call, format!("{number} is no answer")))
    }
}

fn settle_counts(before: &[u64; 3], left: &[u64; 3], right: &[u64; 3]) -> Result<(), Difference> {
    if left == right && left[0] == before[0] && left[2] == before[2] {
        return Ok(());
    }
    let what = format!("counts and their guards {left:?}, {right:?}");
    Err(Difference::new(Call::Run, what))
}

fn noise(length: usize, rng: &mut Rng) -> Vec<u8> {
    (0..length).map(|_| rng.next() as u8).collect()
}

/// The number of a packed answer.
pub fn number(packed: u32) -> u8 {
    packed as u8
}
