//! Events and the numbers they carry.

use crate::answer::{unpacked, Refusal};
use crate::sys;

/// Bytes of one event record.
pub const EVENT_SIZE: usize = 24;

/// The number of a suite; the library takes 1 to 65,535.
#[derive(Clone, Copy, Debug, PartialEq, Eq, PartialOrd, Ord, Hash)]
pub struct Suite(pub u16);

/// The number of a permission; the library takes 0 to 63.
#[derive(Clone, Copy, Debug, PartialEq, Eq, PartialOrd, Ord, Hash)]
pub struct Permission(pub u8);

/// The number of a domain; the library takes 0 to 7.
#[derive(Clone, Copy, Debug, PartialEq, Eq, PartialOrd, Ord, Hash)]
pub struct Domain(pub u8);

/// How long a user's decision holds.
#[derive(Clone, Copy, Debug, PartialEq, Eq, PartialOrd, Ord, Hash)]
pub enum Mode {
    /// For this request alone.
    Oneshot = 1,
    /// Until the suite terminates.
    Session = 2,
    /// Until the suite is removed.
    Blanket = 3,
}

/// What the user answered, if asked.
#[derive(Clone, Copy, Debug, PartialEq, Eq, Hash)]
pub enum Answer {
    /// No answer is given with the request.
    None,
    /// The user allows.
    Allow(Mode),
    /// The user denies.
    Deny(Mode),
}

/// One thing that happens to the device.
///
/// A set of permissions is a number, with bit p for permission p.
#[derive(Clone, Copy, Debug, PartialEq, Eq, Hash)]
pub enum Event {
    /// A suite is installed in a domain; its two sets may overlap.
    Install {
        /// The new suite.
        suite: Suite,
        /// Its domain.
        domain: Domain,
        /// The permissions without which it is not installed.
        required: u64,
        /// The permissions it may ask for besides.
        optional: u64,
    },
    /// A suite is removed.
    Remove(Suite),
    /// A suite starts.
    Start(Suite),
    /// The running suite terminates.
    Terminate,
    /// The running suite asks for a permission.
    Request {
        /// The permission.
        permission: Permission,
        /// What the user said.
        answer: Answer,
    },
}

impl Mode {
    /// The mode's number: 1, 2 or 3.
    pub fn number(self) -> u8 {
        self as u8
    }
}

impl Answer {
    /// The answer's number, 0 to 6.
    pub fn number(self) -> u8 {
        match self {
            Answer::None => 0,
            Answer::Allow(mode) => mode.number(),
            Answer::Deny(mode) => 3 + mode.number(),
        }
    }

    fn of(number: u8) -> Option<Answer> {
        Some(match number {
            0 => Answer::None,
            1 => Answer::Allow(Mode::Oneshot),
            2 => Answer::Allow(Mode::Session),
            3 => Answer::Allow(Mode::Blanket),
            4 => Answer::Deny(Mode::Oneshot),
            5 => Answer::Deny(Mode::Session),
            6 => Answer::Deny(Mode::Blanket),
            _ => return None,
        })
    }
}

impl Event {
    /// Reads a record.
    ///
    /// # Errors
    /// [`Refusal::BadEvent`] if the record is not 24 bytes or a field is wrong.
    ///
    /// ```
    /// use treadlemint::{Event, Refusal, Suite};
    ///
    /// let mut record = [0; 24];
    /// record[0] = 3;
    /// record[2] = 10;
    /// assert_eq!(Event::read(&record), Ok(Event::Start(Suite(10))));
    ///
    /// record[1] = 1; // a start has no domain
    /// assert_eq!(Event::read(&record), Err(Refusal::BadEvent));
    /// ```
    pub fn read(record: &[u8]) -> Result<Event, Refusal> {
        unpacked(sys::read_event(record))?;
        record
            .first_chunk()
            .and_then(Event::decode)
            .ok_or(Refusal::BadEvent)
    }

    /// Writes the event's record.
    ///
    /// # Errors
    /// [`Refusal::BadEvent`] if a number is out of its range: suite 0,
    /// permission 64, domain 8.
    ///
    /// ```
    /// use treadlemint::{Answer, Event, Mode, Permission, Refusal};
    ///
    /// let deny = Answer::Deny(Mode::Session);
    /// let request = |number| Event::Request {
    ///     permission: Permission(number),
    ///     answer: deny,
    /// };
    /// let record = request(63).write()?;
    /// assert_eq!(record[..6], [5, 0, 0, 0, 63, 5]);
    /// assert_eq!(Event::read(&record), Ok(request(63)));
    /// assert_eq!(request(64).write(), Err(Refusal::BadEvent));
    /// # Ok::<(), Refusal>(())
    /// ```
    pub fn write(&self) -> Result<[u8; EVENT_SIZE], Refusal> {
        let mut record = [0; EVENT_SIZE];
        unpacked(sys::write_event(&self.fields(), &mut record))?;
        Ok(record)
    }

    fn fields(&self) -> sys::Fields {
        let blank = sys::Fields::default();
        let suite_only = |kind, suite: Suite| sys::Fields {
            kind,
            suite: suite.0,
            ..blank
        };
        match *self {
            Event::Install {
                suite,
                domain,
                required,
                optional,
            } => sys::Fields {
                domain: domain.0,
                required,
                optional,
                ..suite_only(1, suite)
            },
            Event::Remove(suite) => suite_only(2, suite),
            Event::Start(suite) => suite_only(3, suite),
            Event::Terminate => sys::Fields { kind: 4, ..blank },
            Event::Request { permission, answer } => sys::Fields {
                kind: 5,
                permission: permission.0,
                answer: answer.number(),
                ..blank
            },
        }
    }

    /// The event of a record that the library took for one.
    fn decode(record: &[u8; EVENT_SIZE]) -> Option<Event> {
        let suite = Suite(u16::from_le_bytes([record[2], record[3]]));
        let set = |place: usize| Some(u64::from_le_bytes(*record[place..].first_chunk()?));
        Some(match record[0] {
            1 => Event::Install {
                suite,
                domain: Domain(record[1]),
                required: set(8)?,
                optional: set(16)?,
            },
            2 => Event::Remove(suite),
            3 => Event::Start(suite),
            4 => Event::Terminate,
            5 => Event::Request {
                permission: Permission(record[4]),
                answer: Answer::of(record[5])?,
            },
            _ => return None,
        })
    }
}
