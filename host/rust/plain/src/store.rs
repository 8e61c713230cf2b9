//! The stored state: the session and 32 slots.

use crate::bytes::{put, u16_at, u64_at};
use crate::policy::{Policy, Row};
use crate::reply::Reply;
use crate::Fault;

const RECORD_SIZE: usize = 40;
pub(crate) const SLOTS: usize = 32;

/// Bytes of a state: the session's record and the slots'.
pub(crate) const STATE_SIZE: usize = RECORD_SIZE * (1 + SLOTS);

/// One installed suite; suite 0 is a free slot.
#[derive(Clone, Copy, Default, PartialEq, Eq)]
pub(crate) struct Slot {
    pub suite: u16,
    pub domain: u8,
    pub required: u64,
    pub optional: u64,
    pub granted: u64,
    pub revoked: u64,
}

/// The running suite, its slot and what the user decided for this session.
#[derive(Clone, Copy)]
pub(crate) struct Session {
    pub suite: u16,
    pub slot: usize,
    pub granted: u64,
    pub revoked: u64,
}

/// What planted faults carry from one event of a run to a later one.
#[derive(Default)]
pub(crate) struct Leftover {
    pub removed: Vec<Slot>,
    pub ended: Option<Session>,
}

/// A valid state under its policy.
pub(crate) struct Store<'p> {
    pub policy: Policy<'p>,
    pub session: Option<Session>,
    pub slots: [Slot; SLOTS],
    pub fault: Option<Fault>,
    pub leftover: Leftover,
}

impl Slot {
    pub fn declared(&self) -> u64 {
        self.required | self.optional
    }

    /// The slot of a record; none if a byte that must be zero is not.
    fn read(record: &[u8; RECORD_SIZE], fault: Option<Fault>) -> Option<Slot> {
        let slot = Slot {
            suite: u16_at(record, 0),
            domain: record[2],
            required: u64_at(record, 8),
            optional: u64_at(record, 16),
            granted: u64_at(record, 24),
            revoked: u64_at(record, 32),
        };
        // Bytes 3 to 7, or 3 to 6 if the last is not looked at.
        let unused = match fault {
            Some(Fault::DamagedByteIgnored) => u64_at(record, 0) << 8 >> 32,
            _ => u64_at(record, 0) >> 24,
        };
        let free_or_used = slot.suite != 0 || slot == Slot::default();
        (unused == 0 && free_or_used).then_some(slot)
    }

    fn write(&self, record: &mut [u8; RECORD_SIZE]) {
        *record = [0; RECORD_SIZE];
        put(record, 0, &self.suite.to_le_bytes());
        record[2] = self.domain;
        put(record, 8, &self.required.to_le_bytes());
        put(record, 16, &self.optional.to_le_bytes());
        put(record, 24, &self.granted.to_le_bytes());
        put(record, 32, &self.revoked.to_le_bytes());
    }

    /// Whether the sets are what the domain's row lets them be.
    fn fits(&self, row: &Row) -> bool {
        let declared = self.declared();
        within(self.required, row.offered)
            && within(self.granted, declared & row.blanket)
            && within(self.revoked, declared & row.asked)
            && self.granted & self.revoked == 0
    }
}

impl Session {
    /// The session of a record whose other bytes are zero; its slot is the one given.
    fn read(record: &[u8; RECORD_SIZE], slot: usize) -> Session {
        Session {
            suite: u16_at(record, 0),
            slot,
            granted: u64_at(record, 8),
            revoked: u64_at(record, 16),
        }
    }

    fn write(&self, record: &mut [u8; RECORD_SIZE]) {
        put(record, 0, &self.suite.to_le_bytes());
        put(record, 8, &self.granted.to_le_bytes());
        put(record, 16, &self.revoked.to_le_bytes());
    }

    /// Whether the sets fit the domain's row and no permission stands in two of the four.
    fn fits(&self, slot: &Slot, row: &Row) -> bool {
        let declared = slot.declared();
        within(self.granted, declared & row.session)
            && within(self.revoked, declared & row.asked)
            && self.granted & self.revoked == 0
            && (self.granted | self.revoked) & (slot.granted | slot.revoked) == 0
    }
}

impl<'p> Store<'p> {
    pub fn read(bytes: &[u8], policy: Policy<'p>, fault: Option<Fault>) -> Result<Self, Reply> {
        Store::parse(bytes, policy, fault).ok_or(Reply::BAD_STATE)
    }

    fn parse(bytes: &[u8], policy: Policy<'p>, fault: Option<Fault>) -> Option<Self> {
        let (records, []) = bytes.as_chunks::<RECORD_SIZE>() else {
            return None;
        };
        let (first, rest) = records.split_first()?;
        let rest: &[_; SLOTS] = rest.try_into().ok()?;
        let mut store = Store {
            policy,
            session: None,
            slots: [Slot::default(); SLOTS],
            fault,
            leftover: Leftover::default(),
        };
        for (slot, record) in store.slots.iter_mut().zip(rest) {
            *slot = Slot::read(record, fault)?;
        }
        if !store.slots_fit() || !store.numbers_differ() {
            return None;
        }
        store.session = store.read_session(first)?;
        Some(store)
    }

    fn slots_fit(&self) -> bool {
        self.slots.iter().all(|slot| {
            let row = self.policy.row(slot.domain);
            row.is_some_and(|row| slot.fits(row))
        })
    }

    fn numbers_differ(&self) -> bool {
        let numbers = self.slots.each_ref().map(|slot| slot.suite);
        numbers.iter().all(|&suite| {
            let equal = numbers.iter().filter(|&&other| other == suite).count();
            suite == 0 || equal == 1
        })
    }

    /// The session's record: none if it is bad, none inside if nothing runs.
    fn read_session(&self, record: &[u8; RECORD_SIZE]) -> Option<Option<Session>> {
        let zero = |part: &[u8]| part.iter().all(|&byte| byte == 0);
        let suite = u16_at(record, 0);
        if suite == 0 {
            return zero(record).then_some(None);
        }
        let place = self.position(suite)?;
        let slot = &self.slots[place];
        let session = Session::read(record, place);
        let fits = session.fits(slot, self.policy.row(slot.domain)?);
        (zero(&record[2..8]) && zero(&record[24..]) && fits).then_some(Some(session))
    }

    /// Writes the state back over the bytes it was read from.
    pub fn write(&self, bytes: &mut [u8]) {
        let (records, _) = bytes.as_chunks_mut::<RECORD_SIZE>();
        let Some((first, rest)) = records.split_first_mut() else {
            return;
        };
        *first = [0; RECORD_SIZE];
        if let Some(session) = &self.session {
            session.write(first);
        }
        for (slot, record) in self.slots.iter().zip(rest) {
            slot.write(record);
        }
    }

    /// Where the record of an installed suite starts, and its length.
    pub fn place(&self, suite: u16) -> Option<(usize, usize)> {
        let slot = self.position(suite)?;
        Some((RECORD_SIZE * (1 + slot), RECORD_SIZE))
    }

    pub fn position(&self, suite: u16) -> Option<usize> {
        if suite == 0 && self.fault != Some(Fault::Suite0Found) {
            return None;
        }
        self.slots.iter().position(|slot| slot.suite == suite)
    }
}

fn within(set: u64, whole: u64) -> bool {
    set & !whole == 0
}
