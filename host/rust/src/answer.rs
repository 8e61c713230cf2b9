//! What the library answers.

use crate::event::{Mode, Permission};
use std::error::Error;
use std::fmt;

/// What an event came to when it was not refused.
#[derive(Clone, Copy, Debug, PartialEq, Eq, Hash)]
pub enum Outcome {
    /// An install, a remove, a start or a terminate was carried out.
    Done,
    /// The request is allowed.
    Allowed,
    /// The request is denied.
    Denied,
    /// The user must be asked, and may allow up to this mode.
    Ask(Mode),
}

/// The answer to one event.
pub type Answered = Result<Outcome, Refusal>;

/// Why a call or an event was refused; nothing has changed then.
#[derive(Clone, Copy, Debug, PartialEq, Eq, Hash)]
pub enum Refusal {
    /// The policy is not 512 bytes or has a cell above 4.
    BadPolicy,
    /// The state has the wrong size or is not valid under the policy.
    BadState,
    /// The event is not 24 bytes or a field of it is wrong.
    BadEvent,
    /// A terminate or a request while nothing runs.
    NoSession,
    /// A start while a suite runs, be it the same one.
    Busy,
    /// No such suite is installed.
    NotInstalled,
    /// An install of a suite number that is present.
    Installed,
    /// An install requires this permission, the lowest of those that the domain does not offer.
    NotOffered(Permission),
    /// An install while no slot is free.
    NoRoom,
    /// A remove of the running suite.
    Active,
    /// A request for a permission that the suite does not declare.
    NotDeclared,
    /// A request for a permission that the suite's domain does not offer.
    NoRight,
    /// A request brings the user's answer although the user was not to be asked.
    AnswerNotAsked,
    /// A request brings an allowance wider than this mode, the widest the domain offers.
    ModeTooWide(Mode),
    /// The events are not whole records, or the lent bytes have the wrong size.
    BadLength,
    /// An answer this wrapper does not know: the library is of another version.
    Unknown {
        /// The answer's number.
        number: u8,
        /// The answer's detail.
        detail: u8,
    },
}

impl Refusal {
    /// The number of the refusal.
    pub fn number(self) -> u8 {
        match self {
            Refusal::BadPolicy => 16,
            Refusal::BadState => 17,
            Refusal::BadEvent => 18,
            Refusal::NoSession => 19,
            Refusal::Busy => 20,
            Refusal::NotInstalled => 21,
            Refusal::Installed => 22,
            Refusal::NotOffered(_) => 23,
            Refusal::NoRoom => 24,
            Refusal::Active => 25,
            Refusal::NotDeclared => 26,
            Refusal::NoRight => 27,
            Refusal::AnswerNotAsked => 28,
            Refusal::ModeTooWide(_) => 29,
            Refusal::BadLength => 30,
            Refusal::Unknown { number, .. } => number,
        }
    }

    /// The detail of the refusal: 0 where it has none.
    pub fn detail(self) -> u8 {
        match self {
            Refusal::NotOffered(permission) => permission.0,
            Refusal::ModeTooWide(mode) => mode.number(),
            Refusal::Unknown { detail, .. } => detail,
            _ => 0,
        }
    }

    fn of(number: u8, detail: u8) -> Refusal {
        match (number, detail) {
            (16, 0) => Refusal::BadPolicy,
            (17, 0) => Refusal::BadState,
            (18, 0) => Refusal::BadEvent,
            (19, 0) => Refusal::NoSession,
            (20, 0) => Refusal::Busy,
            (21, 0) => Refusal::NotInstalled,
            (22, 0) => Refusal::Installed,
            (23, 0..=63) => Refusal::NotOffered(Permission(detail)),
            (24, 0) => Refusal::NoRoom,
            (25, 0) => Refusal::Active,
            (26, 0) => Refusal::NotDeclared,
            (27, 0) => Refusal::NoRight,
            (28, 0) => Refusal::AnswerNotAsked,
            (29, 1) => Refusal::ModeTooWide(Mode::Oneshot),
            (29, 2) => Refusal::ModeTooWide(Mode::Session),
            (30, 0) => Refusal::BadLength,
            _ => Refusal::Unknown { number, detail },
        }
    }
}

impl fmt::Display for Refusal {
    fn fmt(&self, f: &mut fmt::Formatter<'_>) -> fmt::Result {
        let text = match self {
            Refusal::BadPolicy => "the policy is not 512 bytes or has a cell above 4",
            Refusal::BadState => "the state has the wrong size or is not valid under the policy",
            Refusal::BadEvent => "the event is not 24 bytes or has a wrong field",
            Refusal::NoSession => "no suite is running",
            Refusal::Busy => "a suite is running already",
            Refusal::NotInstalled => "the suite is not installed",
            Refusal::Installed => "the suite number is installed already",
            Refusal::NotOffered(permission) => {
                let number = permission.0;
                return write!(f, "the domain does not offer required permission {number}");
            }
            Refusal::NoRoom => "no slot is free",
            Refusal::Active => "the suite is running",
            Refusal::NotDeclared => "the suite does not declare the permission",
            Refusal::NoRight => "the suite's domain does not offer the permission",
            Refusal::AnswerNotAsked => "the user was not to be asked",
            Refusal::ModeTooWide(mode) => {
                return write!(f, "the domain offers at most {mode:?} for the permission");
            }
            Refusal::BadLength => "the lent bytes have the wrong length",
            Refusal::Unknown { number, detail } => {
                return write!(f, "unknown answer {number}, detail {detail}");
            }
        };
        f.write_str(text)
    }
}

impl Error for Refusal {}

/// The answer of a number and a detail.
pub(crate) fn answered(number: u8, detail: u8) -> Answered {
    match (number, detail) {
        (0, 0) => Ok(Outcome::Done),
        (1, 0) => Ok(Outcome::Allowed),
        (2, 0) => Ok(Outcome::Denied),
        (3, 1) => Ok(Outcome::Ask(Mode::Oneshot)),
        (3, 2) => Ok(Outcome::Ask(Mode::Session)),
        (3, 3) => Ok(Outcome::Ask(Mode::Blanket)),
        _ => Err(Refusal::of(number, detail)),
    }
}

/// The answer of a packed result: the number, and the detail in the next byte.
pub(crate) fn unpacked(packed: u32) -> Answered {
    let [number, detail, ..] = packed.to_le_bytes();
    answered(number, detail)
}

#[cfg(test)]
mod tests {
    use super::*;

    #[test]
    fn every_answer_keeps_its_number_and_detail() {
        for (number, detail) in (0..=255).flat_map(|number| (0..=255).map(move |d| (number, d))) {
            let (known_number, known_detail) = match answered(number, detail) {
                Ok(Outcome::Done) => (0, 0),
                Ok(Outcome::Allowed) => (1, 0),
                Ok(Outcome::Denied) => (2, 0),
                Ok(Outcome::Ask(mode)) => (3, mode.number()),
                Err(refusal) => (refusal.number(), refusal.detail()),
            };
            assert_eq!((known_number, known_detail), (number, detail));
        }
    }

    #[test]
    fn refusals_from_16_to_30_are_known() {
        for number in 16..=30 {
            let detail = u8::from(number == 29);
            let known = !matches!(Refusal::of(number, detail), Refusal::Unknown { .. });
            assert!(known, "refusal {number}");
        }
        assert_eq!(
            Refusal::NotOffered(Permission(4)).to_string(),
            "the domain does not offer required permission 4"
        );
    }
}
