//! A permission monitor in plain Rust, written from the specification alone.
//!
//! It offers the calls of the C library over the same bytes and with the same
//! packed results, so that the two can be compared call by call; it is also
//! the benchmark's baseline. A [`Fault`] makes it wrong on purpose, for a
//! comparison that misses planted faults would prove nothing.

#![forbid(unsafe_code)]
#![deny(missing_docs)]

mod bytes;
mod event;
mod policy;
mod reply;
mod rules;
mod store;
#[cfg(test)]
mod tests;

pub use event::Fields;

use event::{Event, EVENT_SIZE};
use policy::Policy;
use reply::{packed, Reply};
use store::{Store, STATE_SIZE};

/// A mistake planted on purpose.
#[derive(Clone, Copy, Debug, PartialEq, Eq)]
pub enum Fault {
    /// A stored decision is looked up by permission in slot order, whoever's it is.
    OldLookup,
    /// A suite installed again within a run gets its former decisions back.
    RemovedGrantsLeft,
    /// Suite 0 is found in a free slot.
    Suite0Found,
    /// A oneshot yes is kept for the session.
    OneshotKept,
    /// A denial wider than the cell is refused.
    DenialBounded,
    /// No room is left once the last slot is used, whatever is free before it.
    NoRoomWithHole,
    /// A session begins with the decisions of the run's session before it.
    SessionKeptAtStart,
    /// The last zero byte of a slot may be anything.
    DamagedByteIgnored,
}

impl Fault {
    /// Every fault there is.
    pub const ALL: [Fault; 8] = [
        Fault::OldLookup,
        Fault::RemovedGrantsLeft,
        Fault::Suite0Found,
        Fault::OneshotKept,
        Fault::DenialBounded,
        Fault::NoRoomWithHole,
        Fault::SessionKeptAtStart,
        Fault::DamagedByteIgnored,
    ];
}

/// The monitor; without a fault it keeps to the specification.
///
/// Its calls answer `number | detail << 8`.
#[derive(Clone, Copy, Debug, Default)]
pub struct Monitor {
    /// The mistake to make, if any.
    pub fault: Option<Fault>,
}

impl Monitor {
    /// Makes a new state.
    pub fn new_state(&self, state: &mut [u8]) -> u32 {
        if state.len() != STATE_SIZE {
            return packed(Err(Reply::BAD_STATE));
        }
        state.fill(0);
        packed(Ok(Reply::DONE))
    }

    /// Checks a policy and a state.
    pub fn check(&self, policy: &[u8], state: &[u8]) -> u32 {
        packed(self.open(policy, state).map(|_| Reply::DONE))
    }

    /// Tells whether a record is an event.
    pub fn read_event(&self, record: &[u8]) -> u32 {
        packed(event_of(record).map(|_| Reply::DONE))
    }

    /// Writes the record with these fields.
    pub fn write_event(&self, fields: &Fields, record: &mut [u8]) -> u32 {
        packed(match fields.event() {
            None => Err(Reply::BAD_EVENT),
            Some(_) if record.len() != EVENT_SIZE => Err(Reply::BAD_LENGTH),
            Some(_) => {
                record.copy_from_slice(&fields.record());
                Ok(Reply::DONE)
            }
        })
    }

    /// Answers one event.
    pub fn step(&self, policy: &[u8], state: &mut [u8], event: &[u8]) -> u32 {
        packed(self.open(policy, state).and_then(|mut store| {
            let reply = store.answer(event_of(event)?)?;
            store.write(state);
            Ok(reply)
        }))
    }

    /// Answers every event, two bytes for each: number, then detail.
    pub fn run(
        &self,
        policy: &[u8],
        state: &mut [u8],
        events: &[u8],
        out: &mut [u8],
        count: &mut u64,
    ) -> u32 {
        let answered = self.run_all(policy, state, events, out);
        *count = answered.unwrap_or(0);
        packed(answered.map(|_| Reply::DONE))
    }

    fn run_all(
        &self,
        policy: &[u8],
        state: &mut [u8],
        events: &[u8],
        out: &mut [u8],
    ) -> Result<u64, Reply> {
        let mut store = self.open(policy, state)?;
        let (events, []) = events.as_chunks() else {
            return Err(Reply::BAD_LENGTH);
        };
        if out.len() != 2 * events.len() {
            return Err(Reply::BAD_LENGTH);
        }
        let (answers, _) = out.as_chunks_mut();
        for (event, answer) in events.iter().zip(answers) {
            let event = Event::read(event).ok_or(Reply::BAD_EVENT);
            let reply = event.and_then(|event| store.answer(event));
            let Reply { number, detail } = reply.unwrap_or_else(|refusal| refusal);
            *answer = [number, detail];
        }
        store.write(state);
        Ok(events.len() as u64)
    }

    /// Tells whether a suite is installed.
    pub fn find(&self, policy: &[u8], state: &[u8], suite: u16) -> u32 {
        packed(self.place(policy, state, suite).map(|_| Reply::DONE))
    }

    /// Where a suite's record is in the state, `offset | length << 32`; 0 when find refuses.
    pub fn record(&self, policy: &[u8], state: &[u8], suite: u16) -> u64 {
        let (offset, length) = self.place(policy, state, suite).unwrap_or((0, 0));
        offset as u64 | (length as u64) << 32
    }

    fn place(&self, policy: &[u8], state: &[u8], suite: u16) -> Result<(usize, usize), Reply> {
        let store = self.open(policy, state)?;
        store.place(suite).ok_or(Reply::NOT_INSTALLED)
    }

    fn open<'p>(&self, policy: &'p [u8], state: &[u8]) -> Result<Store<'p>, Reply> {
        Store::read(state, Policy::read(policy)?, self.fault)
    }
}

fn event_of(record: &[u8]) -> Result<Event, Reply> {
    let record = record.try_into().map_err(|_| Reply::BAD_EVENT)?;
    Event::read(record).ok_or(Reply::BAD_EVENT)
}
