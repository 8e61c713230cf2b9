//! The answers: a number and a detail.

/// What the monitor answers to a call or an event.
#[derive(Clone, Copy, Debug, PartialEq, Eq)]
pub(crate) struct Reply {
    pub number: u8,
    pub detail: u8,
}

/// `Ok` for what was carried out or decided, `Err` for a refusal.
pub(crate) type Answered = Result<Reply, Reply>;

impl Reply {
    pub const DONE: Reply = Reply::numbered(0);
    pub const ALLOWED: Reply = Reply::numbered(1);
    pub const DENIED: Reply = Reply::numbered(2);
    pub const ASK: Reply = Reply::numbered(3);
    pub const BAD_POLICY: Reply = Reply::numbered(16);
    pub const BAD_STATE: Reply = Reply::numbered(17);
    pub const BAD_EVENT: Reply = Reply::numbered(18);
    pub const NO_SESSION: Reply = Reply::numbered(19);
    pub const BUSY: Reply = Reply::numbered(20);
    pub const NOT_INSTALLED: Reply = Reply::numbered(21);
    pub const INSTALLED: Reply = Reply::numbered(22);
    pub const NOT_OFFERED: Reply = Reply::numbered(23);
    pub const NO_ROOM: Reply = Reply::numbered(24);
    pub const ACTIVE: Reply = Reply::numbered(25);
    pub const NOT_DECLARED: Reply = Reply::numbered(26);
    pub const NO_RIGHT: Reply = Reply::numbered(27);
    pub const ANSWER_NOT_ASKED: Reply = Reply::numbered(28);
    pub const MODE_TOO_WIDE: Reply = Reply::numbered(29);
    pub const BAD_LENGTH: Reply = Reply::numbered(30);

    const fn numbered(number: u8) -> Reply {
        Reply { number, detail: 0 }
    }

    pub const fn with(self, detail: u8) -> Reply {
        Reply { detail, ..self }
    }
}

/// The answer in one word: the number, and the detail in the next byte.
pub(crate) fn packed(answer: Answered) -> u32 {
    let reply = answer.unwrap_or_else(|refusal| refusal);
    u32::from(reply.number) | u32::from(reply.detail) << 8
}
