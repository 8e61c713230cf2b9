//! The safe wrapper over the C library.

use treadlemint::{
    Answer, Answered, Domain, Event, Mode, Outcome, Permission, Policy, Refusal, State, Suite,
};

const MODES: [Mode; 3] = [Mode::Oneshot, Mode::Session, Mode::Blanket];

/// Offers four permissions, in domain 2: allowed, up to session, up to blanket, oneshot.
fn listing_cells() -> [u8; 512] {
    let mut cells = [0; 512];
    cells[128..132].copy_from_slice(&[4, 2, 3, 1]);
    cells
}

fn install(suite: u16, required: u64, optional: u64) -> Event {
    Event::Install {
        suite: Suite(suite),
        domain: Domain(2),
        required,
        optional,
    }
}

fn request(number: u8, answer: Answer) -> Event {
    Event::Request {
        permission: Permission(number),
        answer,
    }
}

/// The specification's listing.
fn listing() -> [(Event, Answered); 19] {
    let allow = Answer::Allow;
    [
        (install(10, 0b00011, 0b11100), Ok(Outcome::Done)),
        (request(1, Answer::None), Err(Refusal::NoSession)),
        (Event::Start(Suite(10)), Ok(Outcome::Done)),
        (request(0, Answer::None), Ok(Outcome::Allowed)),
        (request(1, Answer::None), Ok(Outcome::Ask(Mode::Session))),
        (
            request(1, allow(Mode::Blanket)),
            Err(Refusal::ModeTooWide(Mode::Session)),
        ),
        (request(1, allow(Mode::Session)), Ok(Outcome::Allowed)),
        (request(1, Answer::None), Ok(Outcome::Allowed)),
        (request(2, Answer::Deny(Mode::Session)), Ok(Outcome::Denied)),
        (
            request(2, allow(Mode::Oneshot)),
            Err(Refusal::AnswerNotAsked),
        ),
        (request(3, allow(Mode::Oneshot)), Ok(Outcome::Allowed)),
        (request(3, Answer::None), Ok(Outcome::Ask(Mode::Oneshot))),
        (request(4, Answer::None), Err(Refusal::NoRight)),
        (request(5, Answer::None), Err(Refusal::NotDeclared)),
        (Event::Terminate, Ok(Outcome::Done)),
        (Event::Start(Suite(10)), Ok(Outcome::Done)),
        (request(2, Answer::None), Ok(Outcome::Ask(Mode::Blanket))),
        (Event::Remove(Suite(10)), Err(Refusal::Active)),
        (
            install(11, 0b10010, 0),
            Err(Refusal::NotOffered(Permission(4))),
        ),
    ]
}

#[test]
fn listing_by_steps_and_as_one_run() -> Result<(), Refusal> {
    let cells = listing_cells();
    let policy = Policy::new(&cells)?;
    let (mut stepped, mut run) = (State::new()?, State::new()?);
    let mut events = Vec::new();
    for (index, (event, answer)) in listing().iter().enumerate() {
        assert_eq!(stepped.step(policy, event), *answer, "event {index}");
        events.extend(event.write()?);
    }
    assert_eq!(
        run.run(policy, &events)?,
        listing().map(|(_, answer)| answer)
    );
    assert_eq!(run, stepped);
    assert_eq!(run.record(policy, Suite(10))?[..3], [10, 0, 2]);
    Ok(())
}

#[test]
fn events_survive_writing_and_reading() -> Result<(), Refusal> {
    let allowed = MODES.map(Answer::Allow);
    let denied = MODES.map(Answer::Deny);
    let answers = [&[Answer::None][..], &allowed, &denied].concat();
    let requests = answers.iter().map(|answer| request(63, *answer));
    let others = [
        install(65535, u64::MAX, 1 << 63),
        Event::Remove(Suite(1)),
        Event::Start(Suite(256)),
        Event::Terminate,
    ];
    for event in requests.chain(others) {
        assert_eq!(Event::read(&event.write()?), Ok(event));
    }
    Ok(())
}

#[test]
fn a_bad_state_is_refused_before_a_bad_event() -> Result<(), Refusal> {
    let cells = listing_cells();
    let policy = Policy::new(&cells)?;
    let bad_event = Event::Start(Suite(0));
    assert_eq!(
        State::new()?.step(policy, &bad_event),
        Err(Refusal::BadEvent)
    );
    let mut bad_state = State::from_bytes(&[1; 1320])?;
    assert_eq!(bad_state.step(policy, &bad_event), Err(Refusal::BadState));
    assert_eq!(bad_state.run(policy, &[]), Err(Refusal::BadState));
    assert_eq!(bad_state.record(policy, Suite(1)), Err(Refusal::BadState));
    Ok(())
}
