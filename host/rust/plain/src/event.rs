//! Event records and what they say.

use crate::bytes::{put, u16_at, u64_at};

/// Bytes of one event record.
pub(crate) const EVENT_SIZE: usize = 24;

/// The fields of an event record, whether or not they make an event.
#[derive(Clone, Copy, Debug, Default, PartialEq, Eq)]
pub struct Fields {
    /// 1 install, 2 remove, 3 start, 4 terminate, 5 request.
    pub kind: u8,
    /// Domain number of an install.
    pub domain: u8,
    /// Suite number of an install, a remove or a start.
    pub suite: u16,
    /// Permission number of a request.
    pub permission: u8,
    /// The user's answer in a request, 0 to 6.
    pub answer: u8,
    /// Required permissions of an install.
    pub required: u64,
    /// Optional permissions of an install.
    pub optional: u64,
}

/// How long a decision holds, in the order of the specification.
#[derive(Clone, Copy, Debug, PartialEq, Eq)]
pub(crate) enum Mode {
    Oneshot = 1,
    Session = 2,
    Blanket = 3,
}

/// What the user said, if anything.
#[derive(Clone, Copy, Debug, PartialEq, Eq)]
pub(crate) enum UserAnswer {
    Silent,
    Allow(Mode),
    Deny(Mode),
}

/// What a record says once every field passed.
#[derive(Clone, Copy, Debug, PartialEq, Eq)]
pub(crate) enum Event {
    Install {
        suite: u16,
        domain: u8,
        required: u64,
        optional: u64,
    },
    Remove(u16),
    Start(u16),
    Terminate,
    Request {
        permission: u8,
        answer: UserAnswer,
    },
}

impl UserAnswer {
    fn numbered(number: u8) -> Option<UserAnswer> {
        Some(match number {
            0 => UserAnswer::Silent,
            1 => UserAnswer::Allow(Mode::Oneshot),
            2 => UserAnswer::Allow(Mode::Session),
            3 => UserAnswer::Allow(Mode::Blanket),
            4 => UserAnswer::Deny(Mode::Oneshot),
            5 => UserAnswer::Deny(Mode::Session),
            6 => UserAnswer::Deny(Mode::Blanket),
            _ => return None,
        })
    }
}

impl Event {
    /// The event of a record; none if the record is not one.
    pub(crate) fn read(record: &[u8; EVENT_SIZE]) -> Option<Event> {
        let fields = Fields {
            kind: record[0],
            domain: record[1],
            suite: u16_at(record, 2),
            permission: record[4],
            answer: record[5],
            required: u64_at(record, 8),
            optional: u64_at(record, 16),
        };
        if u16_at(record, 6) != 0 {
            return None;
        }
        fields.event()
    }
}

impl Fields {
    /// The event of these fields: each in range, zero where the kind does not use it.
    pub(crate) fn event(&self) -> Option<Event> {
        let (suite, permission, answer) = (self.suite, self.permission, self.answer);
        let no_sets = self.required == 0 && self.optional == 0;
        let no_request = permission == 0 && answer == 0;
        let suite_only = suite != 0 && self.domain == 0 && no_request && no_sets;
        match self.kind {
            1 if suite != 0 && self.domain < 8 && no_request => Some(Event::Install {
                suite,
                domain: self.domain,
                required: self.required,
                optional: self.optional,
            }),
            2 if suite_only => Some(Event::Remove(suite)),
            3 if suite_only => Some(Event::Start(suite)),
            4 if suite == 0 && self.domain == 0 && no_request && no_sets => Some(Event::Terminate),
            5 if suite == 0 && self.domain == 0 && permission < 64 && no_sets => {
                UserAnswer::numbered(answer).map(|answer| Event::Request { permission, answer })
            }
            _ => None,
        }
    }

    /// The record with these fields, right or wrong.
    pub(crate) fn record(&self) -> [u8; EVENT_SIZE] {
        let mut record = [0; EVENT_SIZE];
        record[0] = self.kind;
        record[1] = self.domain;
        put(&mut record, 2, &self.suite.to_le_bytes());
        record[4] = self.permission;
        record[5] = self.answer;
        put(&mut record, 8, &self.required.to_le_bytes());
        put(&mut record, 16, &self.optional.to_le_bytes());
        record
    }
}
