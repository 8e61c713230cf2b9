//! The C boundary: the only unsafe code of the crate.
//!
//! Each function lends its slices to the C function of the same name for the
//! time of the call and hands back the packed result as it is.

mod c {
    extern "C" {
        pub fn tm_new_state(state: *mut u8, state_len: usize) -> u32;
        pub fn tm_check(
            policy: *const u8,
            policy_len: usize,
            state: *const u8,
            state_len: usize,
        ) -> u32;
        pub fn tm_read_event(record: *const u8, record_len: usize) -> u32;
        pub fn tm_write_event(
            kind: u8,
            domain: u8,
            suite: u16,
            permission: u8,
            answer: u8,
            required: u64,
            optional: u64,
            record: *mut u8,
            record_len: usize,
        ) -> u32;
        pub fn tm_step(
            policy: *const u8,
            policy_len: usize,
            state: *mut u8,
            state_len: usize,
            event: *const u8,
            event_len: usize,
        ) -> u32;
        pub fn tm_run(
            policy: *const u8,
            policy_len: usize,
            state: *mut u8,
            state_len: usize,
            events: *const u8,
            events_len: usize,
            out: *mut u8,
            out_len: usize,
            count: *mut u64,
        ) -> u32;
        pub fn tm_find(
            policy: *const u8,
            policy_len: usize,
            state: *const u8,
            state_len: usize,
            suite: u16,
        ) -> u32;
        pub fn tm_record(
            policy: *const u8,
            policy_len: usize,
            state: *const u8,
            state_len: usize,
            suite: u16,
        ) -> u64;
    }
}

/// The fields of an event record, whether or not they make an event.
#[derive(Clone, Copy, Debug, Default, PartialEq, Eq)]
pub struct Fields {
    /// Byte 0.
    pub kind: u8,
    /// Byte 1.
    pub domain: u8,
    /// Bytes 2 and 3.
    pub suite: u16,
    /// Byte 4.
    pub permission: u8,
    /// Byte 5.
    pub answer: u8,
    /// Bytes 8 to 15.
    pub required: u64,
    /// Bytes 16 to 23.
    pub optional: u64,
}

/// `tm_new_state`.
pub fn new_state(state: &mut [u8]) -> u32 {
    // SAFETY: pointer and length are those of a live slice lent mutably.
    unsafe { c::tm_new_state(state.as_mut_ptr(), state.len()) }
}

/// `tm_check`.
pub fn check(policy: &[u8], state: &[u8]) -> u32 {
    // SAFETY: pointers and lengths are those of live slices, which the call only reads.
    unsafe { c::tm_check(policy.as_ptr(), policy.len(), state.as_ptr(), state.len()) }
}

/// `tm_read_event`.
pub fn read_event(record: &[u8]) -> u32 {
    // SAFETY: pointer and length are those of a live slice, which the call only reads.
    unsafe { c::tm_read_event(record.as_ptr(), record.len()) }
}

/// `tm_write_event`.
pub fn write_event(fields: &Fields, record: &mut [u8]) -> u32 {
    // SAFETY: pointer and length are those of a live slice lent mutably; the rest are values.
    unsafe {
        c::tm_write_event(
            fields.kind,
            fields.domain,
            fields.suite,
            fields.permission,
            fields.answer,
            fields.required,
            fields.optional,
            record.as_mut_ptr(),
            record.len(),
        )
    }
}

/// `tm_step`.
pub fn step(policy: &[u8], state: &mut [u8], event: &[u8]) -> u32 {
    // SAFETY: live slices; the one written, `state`, is lent mutably and so apart from the others.
    unsafe {
        c::tm_step(
            policy.as_ptr(),
            policy.len(),
            state.as_mut_ptr(),
            state.len(),
            event.as_ptr(),
            event.len(),
        )
    }
}

/// `tm_run`.
pub fn run(policy: &[u8], state: &mut [u8], events: &[u8], out: &mut [u8], count: &mut u64) -> u32 {
    // SAFETY: live slices and a live number; the three written are lent mutably and so apart.
    unsafe {
        c::tm_run(
            policy.as_ptr(),
            policy.len(),
            state.as_mut_ptr(),
            state.len(),
            events.as_ptr(),
            events.len(),
            out.as_mut_ptr(),
            out.len(),
            count,
        )
    }
}

/// `tm_find`.
pub fn find(policy: &[u8], state: &[u8], suite: u16) -> u32 {
    // SAFETY: pointers and lengths are those of live slices, which the call only reads.
    unsafe {
        c::tm_find(
            policy.as_ptr(),
            policy.len(),
            state.as_ptr(),
            state.len(),
            suite,
        )
    }
}

/// `tm_record`.
pub fn record(policy: &[u8], state: &[u8], suite: u16) -> u64 {
    // SAFETY: pointers and lengths are those of live slices, which the call only reads.
    unsafe {
        c::tm_record(
            policy.as_ptr(),
            policy.len(),
            state.as_ptr(),
            state.len(),
            suite,
        )
    }
}
