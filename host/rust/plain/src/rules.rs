//! What each event does to the store, and its answer.

use crate::event::{Event, Mode, UserAnswer};
use crate::policy::FREE;
use crate::reply::{Answered, Reply};
use crate::store::{Session, Slot, Store, SLOTS};
use crate::Fault;
use std::mem;

impl Store<'_> {
    pub fn answer(&mut self, event: Event) -> Answered {
        match event {
            Event::Install {
                suite,
                domain,
                required,
                optional,
            } => self.install(Slot {
                suite,
                domain,
                required,
                optional,
                ..Slot::default()
            }),
            Event::Remove(suite) => self.remove(suite),
            Event::Start(suite) => self.start(suite),
            Event::Terminate => self.terminate(),
            Event::Request { permission, answer } => self.request(permission, answer),
        }
    }

    fn has(&self, fault: Fault) -> bool {
        self.fault == Some(fault)
    }

    fn install(&mut self, new: Slot) -> Answered {
        if self.position(new.suite).is_some() {
            return Err(Reply::INSTALLED);
        }
        let offered = self.policy.row(new.domain).map_or(0, |row| row.offered);
        let missing = new.required & !offered;
        if missing != 0 {
            return Err(Reply::NOT_OFFERED.with(missing.trailing_zeros() as u8));
        }
        let place = self.free_place().ok_or(Reply::NO_ROOM)?;
        let old = self
            .leftover
            .removed
            .iter()
            .rfind(|old| old.suite == new.suite);
        self.slots[place] = Slot {
            granted: old.map_or(0, |old| old.granted),
            revoked: old.map_or(0, |old| old.revoked),
            ..new
        };
        Ok(Reply::DONE)
    }

    fn free_place(&self) -> Option<usize> {
        if self.has(Fault::NoRoomWithHole) && self.slots[SLOTS - 1].suite != 0 {
            return None;
        }
        self.slots.iter().position(|slot| slot.suite == 0)
    }

    fn remove(&mut self, suite: u16) -> Answered {
        let place = self.position(suite).ok_or(Reply::NOT_INSTALLED)?;
        if self.session.is_some_and(|session| session.suite == suite) {
            return Err(Reply::ACTIVE);
        }
        let old = mem::take(&mut self.slots[place]);
        if self.has(Fault::RemovedGrantsLeft) {
            self.leftover.removed.push(old);
        }
        Ok(Reply::DONE)
    }

    fn start(&mut self, suite: u16) -> Answered {
        if self.session.is_some() {
            return Err(Reply::BUSY);
        }
        let slot = self.position(suite).ok_or(Reply::NOT_INSTALLED)?;
        let ended = self.leftover.ended;
        self.session = Some(Session {
            suite,
            slot,
            granted: ended.map_or(0, |session| session.granted),
            revoked: ended.map_or(0, |session| session.revoked),
        });
        Ok(Reply::DONE)
    }

    fn terminate(&mut self) -> Answered {
        let ended = self.session.take().ok_or(Reply::NO_SESSION)?;
        if self.has(Fault::SessionKeptAtStart) {
            self.leftover.ended = Some(ended);
        }
        Ok(Reply::DONE)
    }

    fn request(&mut self, permission: u8, answer: UserAnswer) -> Answered {
        let session = self.session.as_ref().ok_or(Reply::NO_SESSION)?;
        let slot = &self.slots[session.slot];
        let bit = 1 << permission;
        if slot.declared() & bit == 0 {
            return Err(Reply::NOT_DECLARED);
        }
        let cell = self.policy.cell(slot.domain, permission);
        let settled = match cell {
            0 => return Err(Reply::NO_RIGHT),
            FREE => Some(Reply::ALLOWED),
            _ => self.standing(session, slot, bit),
        };
        match (settled, answer) {
            (Some(reply), UserAnswer::Silent) => Ok(reply),
            (Some(_), _) => Err(Reply::ANSWER_NOT_ASKED),
            (None, UserAnswer::Silent) => Ok(Reply::ASK.with(cell)),
            (None, _) if self.too_wide(answer, cell) => Err(Reply::MODE_TOO_WIDE.with(cell)),
            (None, _) => Ok(self.decide(answer, bit)),
        }
    }

    /// What the decision that stands for the running suite says, if there is one.
    fn standing(&self, session: &Session, slot: &Slot, bit: u64) -> Option<Reply> {
        let stored = match self.fault {
            Some(Fault::OldLookup) => self.first_decided(bit).unwrap_or(slot),
            _ => slot,
        };
        if (stored.granted | session.granted) & bit != 0 {
            Some(Reply::ALLOWED)
        } else if (stored.revoked | session.revoked) & bit != 0 {
            Some(Reply::DENIED)
        } else {
            None
        }
    }

    /// The first slot, whoever's it is, with a decision on the permission: the old mistake.
    fn first_decided(&self, bit: u64) -> Option<&Slot> {
        let decided = |slot: &&Slot| (slot.granted | slot.revoked) & bit != 0;
        self.slots.iter().find(decided)
    }

    fn too_wide(&self, answer: UserAnswer, cell: u8) -> bool {
        match answer {
            UserAnswer::Silent => false,
            UserAnswer::Allow(mode) => mode as u8 > cell,
            UserAnswer::Deny(mode) => self.has(Fault::DenialBounded) && mode as u8 > cell,
        }
    }

    /// Enters an answer where its mode says, and repeats it.
    fn decide(&mut self, answer: UserAnswer, bit: u64) -> Reply {
        let keep_oneshot = self.has(Fault::OneshotKept);
        if let Some(session) = &mut self.session {
            let slot = &mut self.slots[session.slot];
            match answer {
                UserAnswer::Allow(Mode::Blanket) => slot.granted |= bit,
                UserAnswer::Allow(Mode::Session) => session.granted |= bit,
                UserAnswer::Allow(Mode::Oneshot) if keep_oneshot => session.granted |= bit,
                UserAnswer::Deny(Mode::Blanket) => slot.revoked |= bit,
                UserAnswer::Deny(Mode::Session) => session.revoked |= bit,
                _ => {}
            }
        }
        match answer {
            UserAnswer::Allow(_) => Reply::ALLOWED,
            _ => Reply::DENIED,
        }
    }
}
