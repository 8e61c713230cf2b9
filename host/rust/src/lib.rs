//! Safe Rust over the C library of the verified MIDP permission monitor.
//!
//! A device installs suites in domains, runs one at a time and asks the
//! monitor at each request for a permission. The [`Policy`] says what each
//! domain offers, the [`State`] holds the installed suites, the running one
//! and the user's decisions, and an [`Event`] is one thing that happens. The
//! library checks policy and state at every call, and a refused call changes
//! nothing.
//!
//! The build looks for `libexport.a` in the folder that the environment
//! variable `TREADLEMINT_LIB` names, and otherwise in `../../crates/export/out`
//! beside this package.
//!
//! ```
//! use treadlemint::{Answer, Domain, Event, Mode, Outcome};
//! use treadlemint::{Permission, Policy, Refusal, State, Suite};
//!
//! // Domain 2 offers permissions 0 to 3: freely, up to session, up to blanket, oneshot.
//! let mut cells = [0; 512];
//! cells[128..132].copy_from_slice(&[4, 2, 3, 1]);
//! let policy = Policy::new(&cells)?;
//! let mut state = State::new()?;
//!
//! let install = Event::Install {
//!     suite: Suite(10),
//!     domain: Domain(2),
//!     required: 0b00011,
//!     optional: 0b11100,
//! };
//! let request = |number, answer| Event::Request {
//!     permission: Permission(number),
//!     answer,
//! };
//! let allow = Answer::Allow;
//!
//! assert_eq!(state.step(policy, &install), Ok(Outcome::Done));
//! assert_eq!(state.step(policy, &request(1, Answer::None)), Err(Refusal::NoSession));
//! assert_eq!(state.step(policy, &Event::Start(Suite(10))), Ok(Outcome::Done));
//! assert_eq!(state.step(policy, &request(0, Answer::None)), Ok(Outcome::Allowed));
//! assert_eq!(state.step(policy, &request(1, Answer::None)), Ok(Outcome::Ask(Mode::Session)));
//! assert_eq!(
//!     state.step(policy, &request(1, allow(Mode::Blanket))),
//!     Err(Refusal::ModeTooWide(Mode::Session))
//! );
//! assert_eq!(state.step(policy, &request(1, allow(Mode::Session))), Ok(Outcome::Allowed));
//! assert_eq!(state.step(policy, &request(1, Answer::None)), Ok(Outcome::Allowed));
//! # Ok::<(), Refusal>(())
//! ```

#![deny(missing_docs, unsafe_code)]

mod answer;
mod event;
#[allow(unsafe_code)]
mod sys;

pub use answer::{Answered, Outcome, Refusal};
pub use event::{Answer, Domain, Event, Mode, Permission, Suite, EVENT_SIZE};

use answer::{answered, unpacked};

/// The C calls over slices with their packed results, for tests and benchmarks.
#[doc(hidden)]
pub mod raw {
    pub use crate::sys::{
        check, find, new_state, read_event, record, run, step, write_event, Fields,
    };
}

/// Bytes of a policy: 8 rows of 64 cells.
pub const POLICY_SIZE: usize = 512;

/// Bytes of a state: the session's record and 32 slots.
pub const STATE_SIZE: usize = 1320;

/// Bytes of an installed suite's record.
pub const RECORD_SIZE: usize = 40;

/// What each domain offers: 8 rows of 64 cells, one row for each domain.
///
/// Cell p of a row says what becomes of permission p: 0, it is not offered; 1,
/// 2 or 3, the user is asked, and this is the widest [`Mode`] of a yes; 4, it
/// is allowed and nobody is asked.
#[derive(Clone, Copy, Debug)]
pub struct Policy<'a> {
    cells: &'a [u8],
}

impl<'a> Policy<'a> {
    /// Borrows the cells after the library checked them.
    ///
    /// # Errors
    /// [`Refusal::BadPolicy`] if they are not 512 or one is above 4.
    ///
    /// ```
    /// use treadlemint::{Policy, Refusal};
    ///
    /// assert!(Policy::new(&[4; 512]).is_ok());
    /// assert_eq!(Policy::new(&[5; 512]).err(), Some(Refusal::BadPolicy));
    /// assert_eq!(Policy::new(&[4; 511]).err(), Some(Refusal::BadPolicy));
    /// ```
    pub fn new(cells: &'a [u8]) -> Result<Policy<'a>, Refusal> {
        // A new state is valid under every policy, so the answer is about the cells.
        unpacked(sys::check(cells, &[0; STATE_SIZE]))?;
        Ok(Policy { cells })
    }
}

/// The stored state: the running session and the installed suites.
#[derive(Clone, Debug, PartialEq, Eq)]
pub struct State {
    bytes: [u8; STATE_SIZE],
}

impl State {
    /// A new state: nothing installed, nothing running.
    ///
    /// # Errors
    /// None for a library of this version.
    pub fn new() -> Result<State, Refusal> {
        let mut bytes = [0; STATE_SIZE];
        unpacked(sys::new_state(&mut bytes))?;
        Ok(State { bytes })
    }

    /// The state of stored bytes. Whether it is valid depends on the policy; see [`State::check`].
    ///
    /// # Errors
    /// [`Refusal::BadState`] if there are not 1,320 bytes.
    ///
    /// ```
    /// use treadlemint::{Refusal, State};
    ///
    /// let state = State::new()?;
    /// assert_eq!(State::from_bytes(state.as_bytes()), Ok(state));
    /// assert_eq!(State::from_bytes(&[0; 40]), Err(Refusal::BadState));
    /// # Ok::<(), Refusal>(())
    /// ```
    pub fn from_bytes(bytes: &[u8]) -> Result<State, Refusal> {
        let bytes = bytes.try_into().map_err(|_| Refusal::BadState)?;
        Ok(State { bytes })
    }

    /// The bytes to store.
    pub fn as_bytes(&self) -> &[u8; STATE_SIZE] {
        &self.bytes
    }

    /// Checks that the state is valid under the policy.
    ///
    /// # Errors
    /// [`Refusal::BadPolicy`], [`Refusal::BadState`].
    ///
    /// ```
    /// use treadlemint::{Policy, Refusal, State};
    ///
    /// let cells = [0; 512];
    /// let policy = Policy::new(&cells)?;
    /// assert_eq!(State::new()?.check(policy), Ok(()));
    ///
    /// let mut bytes = [0; 1320];
    /// bytes[0] = 10; // suite 10 runs, but is not installed
    /// assert_eq!(State::from_bytes(&bytes)?.check(policy), Err(Refusal::BadState));
    /// # Ok::<(), Refusal>(())
    /// ```
    pub fn check(&self, policy: Policy<'_>) -> Result<(), Refusal> {
        unpacked(sys::check(policy.cells, &self.bytes)).map(drop)
    }

    /// Answers one event and carries it out unless it is refused.
    ///
    /// # Errors
    /// Every [`Refusal`] but [`Refusal::BadLength`].
    pub fn step(&mut self, policy: Policy<'_>, event: &Event) -> Answered {
        // An event that cannot be written goes in as a record that is no event either,
        // so that the library refuses policy, state and event in its own order.
        let record = event.write().unwrap_or([0; EVENT_SIZE]);
        unpacked(sys::step(policy.cells, &mut self.bytes, &record))
    }

    /// Answers a list of event records, 24 bytes each, in their order.
    ///
    /// The list holds one answer for each record; a record that is no event
    /// is answered with [`Refusal::BadEvent`]. An event refused within the
    /// list changes nothing, and the events after it are answered all the
    /// same. The state is checked once, so this is much faster than as many
    /// steps.
    ///
    /// # Errors
    /// [`Refusal::BadPolicy`], [`Refusal::BadState`], and
    /// [`Refusal::BadLength`] if the events are not whole records. No event
    /// is answered then, and the state stays as it was.
    ///
    /// ```
    /// use treadlemint::{Domain, Event, Outcome, Policy, Refusal, State, Suite};
    ///
    /// let cells = [0; 512];
    /// let policy = Policy::new(&cells)?;
    /// let mut state = State::new()?;
    /// let install = Event::Install {
    ///     suite: Suite(10),
    ///     domain: Domain(0),
    ///     required: 0,
    ///     optional: 0,
    /// };
    /// let events = [Event::Terminate.write()?, install.write()?, [0; 24]].concat();
    /// let answers = state.run(policy, &events)?;
    /// assert_eq!(
    ///     answers,
    ///     [Err(Refusal::NoSession), Ok(Outcome::Done), Err(Refusal::BadEvent)]
    /// );
    /// assert_eq!(state.run(policy, &events[1..]), Err(Refusal::BadLength));
    /// # Ok::<(), Refusal>(())
    /// ```
    pub fn run(&mut self, policy: Policy<'_>, events: &[u8]) -> Result<Vec<Answered>, Refusal> {
        let mut out = vec![0; events.len() / EVENT_SIZE * 2];
        let mut count = 0;
        unpacked(sys::run(
            policy.cells,
            &mut self.bytes,
            events,
            &mut out,
            &mut count,
        ))?;
        let answers = out.chunks_exact(2).map(|pair| answered(pair[0], pair[1]));
        Ok(answers.collect())
    }

    /// Tells whether a suite is installed.
    ///
    /// # Errors
    /// [`Refusal::BadPolicy`], [`Refusal::BadState`], [`Refusal::NotInstalled`].
    pub fn find(&self, policy: Policy<'_>, suite: Suite) -> Result<(), Refusal> {
        unpacked(sys::find(policy.cells, &self.bytes, suite.0)).map(drop)
    }

    /// The record of an installed suite, as a part of the state.
    ///
    /// Bytes 0-1 are the suite number, 2 the domain, 8-15 the required
    /// permissions, 16-23 the optional, 24-31 those granted for good and
    /// 32-39 those revoked for good.
    ///
    /// # Errors
    /// Those of [`State::find`].
    ///
    /// ```
    /// use treadlemint::{Domain, Event, Policy, Refusal, State, Suite};
    ///
    /// let cells = [0; 512];
    /// let policy = Policy::new(&cells)?;
    /// let mut state = State::new()?;
    /// let install = Event::Install {
    ///     suite: Suite(65535),
    ///     domain: Domain(7),
    ///     required: 0,
    ///     optional: 0b101,
    /// };
    /// state.step(policy, &install)?;
    /// assert_eq!(state.find(policy, Suite(65535)), Ok(()));
    /// let record = state.record(policy, Suite(65535))?;
    /// assert_eq!(record[..3], [255, 255, 7]);
    /// assert_eq!(record[16], 0b101);
    /// assert_eq!(state.record(policy, Suite(0)), Err(Refusal::NotInstalled));
    /// # Ok::<(), Refusal>(())
    /// ```
    pub fn record(&self, policy: Policy<'_>, suite: Suite) -> Result<&[u8; RECORD_SIZE], Refusal> {
        self.find(policy, suite)?;
        let place = sys::record(policy.cells, &self.bytes, suite.0);
        // The low half is the offset, the high half the length.
        let (offset, length) = (place as u32 as usize, (place >> 32) as usize);
        let part = self.bytes.get(offset..offset + length);
        part.and_then(|part| part.try_into().ok())
            .ok_or(Refusal::NotInstalled)
    }
}
