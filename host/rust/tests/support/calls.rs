//! The calls that the C library and the plain monitor both offer.

use plain::{Fields, Monitor};
use treadlemint::raw;

/// A monitor over lent bytes; results are packed as at the C boundary.
#[allow(dead_code, reason = "each test makes some of the calls")]
pub trait Calls {
    fn new_state(&self, state: &mut [u8]) -> u32;
    fn check(&self, policy: &[u8], state: &[u8]) -> u32;
    fn read_event(&self, record: &[u8]) -> u32;
    fn write_event(&self, fields: &Fields, record: &mut [u8]) -> u32;
    fn step(&self, policy: &[u8], state: &mut [u8], event: &[u8]) -> u32;
    fn run(
        &self,
        policy: &[u8],
        state: &mut [u8],
        events: &[u8],
        out: &mut [u8],
        count: &mut u64,
    ) -> u32;
    fn find(&self, policy: &[u8], state: &[u8], suite: u16) -> u32;
    fn record(&self, policy: &[u8], state: &[u8], suite: u16) -> u64;
}

/// The C library.
pub struct Library;

impl Calls for Library {
    fn new_state(&self, state: &mut [u8]) -> u32 {
        raw::new_state(state)
    }

    fn check(&self, policy: &[u8], state: &[u8]) -> u32 {
        raw::check(policy, state)
    }

    fn read_event(&self, record: &[u8]) -> u32 {
        raw::read_event(record)
    }

    fn write_event(&self, fields: &Fields, record: &mut [u8]) -> u32 {
        let fields = raw::Fields {
            kind: fields.kind,
            domain: fields.domain,
            suite: fields.suite,
            permission: fields.permission,
            answer: fields.answer,
            required: fields.required,
            optional: fields.optional,
        };
        raw::write_event(&fields, record)
    }

    fn step(&self, policy: &[u8], state: &mut [u8], event: &[u8]) -> u32 {
        raw::step(policy, state, event)
    }

    fn run(
        &self,
        policy: &[u8],
        state: &mut [u8],
        events: &[u8],
        out: &mut [u8],
        count: &mut u64,
    ) -> u32 {
        raw::run(policy, state, events, out, count)
    }

    fn find(&self, policy: &[u8], state: &[u8], suite: u16) -> u32 {
        raw::find(policy, state, suite)
    }

    fn record(&self, policy: &[u8], state: &[u8], suite: u16) -> u64 {
        raw::record(policy, state, suite)
    }
}

impl Calls for Monitor {
    fn new_state(&self, state: &mut [u8]) -> u32 {
        Monitor::new_state(self, state)
    }

    fn check(&self, policy: &[u8], state: &[u8]) -> u32 {
        Monitor::check(self, policy, state)
    }

    fn read_event(&self, record: &[u8]) -> u32 {
        Monitor::read_event(self, record)
    }

    fn write_event(&self, fields: &Fields, record: &mut [u8]) -> u32 {
        Monitor::write_event(self, fields, record)
    }

    fn step(&self, policy: &[u8], state: &mut [u8], event: &[u8]) -> u32 {
        Monitor::step(self, policy, state, event)
    }

    fn run(
        &self,
        policy: &[u8],
        state: &mut [u8],
        events: &[u8],
        out: &mut [u8],
        count: &mut u64,
    ) -> u32 {
        Monitor::run(self, policy, state, events, out, count)
    }

    fn find(&self, policy: &[u8], state: &[u8], suite: u16) -> u32 {
        Monitor::find(self, policy, state, suite)
    }

    fn record(&self, policy: &[u8], state: &[u8], suite: u16) -> u64 {
        Monitor::record(self, policy, state, suite)
    }
}
