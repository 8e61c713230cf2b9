//! The specification's own cases.

use crate::{Fields, Monitor};

const MONITOR: Monitor = Monitor { fault: None };
const STATE_SIZE: usize = 1320;

/// Answers to a request.
const NONE: u8 = 0;
const ALLOW_ONESHOT: u8 = 1;
const ALLOW_SESSION: u8 = 2;
const ALLOW_BLANKET: u8 = 3;
const DENY_SESSION: u8 = 5;
const DENY_BLANKET: u8 = 6;

/// Offers four permissions, in domain 2: allowed, up to session, up to blanket, oneshot.
fn listing_policy() -> [u8; 512] {
    let mut policy = [0; 512];
    policy[128..132].copy_from_slice(&[4, 2, 3, 1]);
    policy
}

fn install(suite: u16, domain: u8, required: u64, optional: u64) -> Fields {
    Fields {
        kind: 1,
        domain,
        suite,
        required,
        optional,
        ..Fields::default()
    }
}

fn remove(suite: u16) -> Fields {
    Fields {
        kind: 2,
        suite,
        ..Fields::default()
    }
}

fn start(suite: u16) -> Fields {
    Fields {
        kind: 3,
        suite,
        ..Fields::default()
    }
}

fn terminate() -> Fields {
    Fields {
        kind: 4,
        ..Fields::default()
    }
}

fn request(permission: u8, answer: u8) -> Fields {
    Fields {
        kind: 5,
        permission,
        answer,
        ..Fields::default()
    }
}

/// The listing's events with the number and detail printed for each.
fn listing() -> [(Fields, [u8; 2]); 19] {
    [
        (install(10, 2, 0b00011, 0b11100), [0, 0]),
        (request(1, NONE), [19, 0]),
        (start(10), [0, 0]),
        (request(0, NONE), [1, 0]),
        (request(1, NONE), [3, 2]),
        (request(1, ALLOW_BLANKET), [29, 2]),
        (request(1, ALLOW_SESSION), [1, 0]),
        (request(1, NONE), [1, 0]),
        (request(2, DENY_SESSION), [2, 0]),
        (request(2, ALLOW_ONESHOT), [28, 0]),
        (request(3, ALLOW_ONESHOT), [1, 0]),
        (request(3, NONE), [3, 1]),
        (request(4, NONE), [27, 0]),
        (request(5, NONE), [26, 0]),
        (terminate(), [0, 0]),
        (start(10), [0, 0]),
        (request(2, NONE), [3, 3]),
        (remove(10), [25, 0]),
        (install(11, 2, 0b10010, 0), [23, 4]),
    ]
}

/// The state after the listing: suite 10 in slot 1, its second session without decisions.
fn listing_state() -> [u8; STATE_SIZE] {
    let mut state = [0; STATE_SIZE];
    state[0] = 10;
    state[40] = 10;
    state[42] = 2;
    state[48] = 0b00011;
    state[56] = 0b11100;
    state
}

fn step(policy: &[u8], state: &mut [u8], event: Fields) -> [u8; 2] {
    let packed = MONITOR.step(policy, state, &event.record());
    [packed as u8, (packed >> 8) as u8]
}

#[test]
fn listing_by_steps() {
    let policy = listing_policy();
    let mut state = [0; STATE_SIZE];
    for (index, (event, answer)) in listing().into_iter().enumerate() {
        assert_eq!(step(&policy, &mut state, event), answer, "event {index}");
    }
    assert_eq!(state, listing_state());
}

#[test]
fn listing_in_one_run() {
    let events = listing().map(|(event, _)| event.record()).concat();
    let answers = listing().map(|(_, answer)| answer).concat();
    let (mut state, mut out, mut count) = ([0; STATE_SIZE], [0; 38], 7);
    let done = MONITOR.run(&listing_policy(), &mut state, &events, &mut out, &mut count);
    assert_eq!((done, count), (0, 19));
    assert_eq!(out[..], answers[..]);
    assert_eq!(state, listing_state());
}

#[test]
fn line_8_is_entered_in_the_session_alone() {
    let policy = listing_policy();
    let mut state = [0; STATE_SIZE];
    for (event, _) in listing().into_iter().take(9) {
        step(&policy, &mut state, event);
    }
    assert_eq!(
        state[8..24],
        [2, 0, 0, 0, 0, 0, 0, 0, 4, 0, 0, 0, 0, 0, 0, 0]
    );
    assert_eq!(state[64..80], [0; 16]);
}

#[test]
fn ranges_of_the_fields() {
    let read = |event: Fields| MONITOR.read_event(&event.record());
    assert_eq!(read(install(65535, 7, 0, 0)), 0);
    assert_eq!(read(install(1, 8, 0, 0)), 18);
    assert_eq!(read(request(63, 6)), 0);
    for bad in [
        install(0, 0, 0, 0),
        remove(0),
        start(0),
        request(64, 0),
        request(0, 7),
    ] {
        assert_eq!(read(bad), 18);
    }
    for kind in [0, 6, 255] {
        assert_eq!(
            read(Fields {
                kind,
                ..terminate()
            }),
            18
        );
    }
}

#[test]
fn unused_bytes_are_zero() {
    // A letter for each byte that the kind uses.
    let used_by_kind = [
        (install(1, 0, 0, 0), "KDSS....RRRRRRRROOOOOOOO"),
        (remove(1), "K.SS...................."),
        (start(1), "K.SS...................."),
        (terminate(), "K......................."),
        (request(0, 0), "K...PA.................."),
    ];
    for (event, used) in used_by_kind {
        for (place, _) in used.match_indices('.') {
            let mut record = event.record();
            record[place] = 1;
            assert_eq!(MONITOR.read_event(&record), 18, "{event:?}, byte {place}");
        }
    }
}

#[test]
fn write_refuses_the_value_before_the_size() {
    let mut record = [9; 24];
    assert_eq!(MONITOR.write_event(&request(64, 0), &mut record[..23]), 18);
    assert_eq!(MONITOR.write_event(&request(63, 0), &mut record[..23]), 30);
    assert_eq!(record, [9; 24]);
    assert_eq!(MONITOR.write_event(&request(63, 6), &mut record), 0);
    assert_eq!(record, request(63, 6).record());
}

#[test]
fn the_33rd_install_has_no_room_until_a_remove() {
    let policy = listing_policy();
    let mut state = [0; STATE_SIZE];
    for suite in 1..=32 {
        assert_eq!(step(&policy, &mut state, install(suite, 2, 1, 0)), [0, 0]);
    }
    assert_eq!(step(&policy, &mut state, install(65535, 2, 1, 0)), [24, 0]);
    assert_eq!(step(&policy, &mut state, remove(5)), [0, 0]);
    assert_eq!(step(&policy, &mut state, install(65535, 2, 1, 0)), [0, 0]);
    assert_eq!(MONITOR.record(&policy, &state, 65535), 200 | 40 << 32);
}

#[test]
fn find_never_finds_suite_0() {
    let (policy, state) = (listing_policy(), listing_state());
    assert_eq!(MONITOR.find(&policy, &state, 10), 0);
    assert_eq!(MONITOR.record(&policy, &state, 10), 40 | 40 << 32);
    for suite in [0, 11] {
        assert_eq!(MONITOR.find(&policy, &state, suite), 21);
        assert_eq!(MONITOR.record(&policy, &state, suite), 0);
    }
}

#[test]
fn a_removed_suite_comes_back_without_decisions() {
    let policy = listing_policy();
    let mut state = [0; STATE_SIZE];
    let first = [
        install(10, 2, 0, 0b100),
        start(10),
        request(2, ALLOW_BLANKET),
        terminate(),
        remove(10),
        install(10, 2, 0, 0b100),
        start(10),
    ];
    for event in first {
        assert!(step(&policy, &mut state, event)[0] < 16);
    }
    assert_eq!(step(&policy, &mut state, request(2, NONE)), [3, 3]);
}

#[test]
fn a_denial_is_not_held_to_the_cell() {
    let policy = listing_policy();
    let mut state = [0; STATE_SIZE];
    step(&policy, &mut state, install(10, 2, 0, 0b1000));
    step(&policy, &mut state, start(10));
    assert_eq!(step(&policy, &mut state, request(3, DENY_BLANKET)), [2, 0]);
    assert_eq!(state[72], 0b1000);
    assert_eq!(MONITOR.check(&policy, &state), 0);
}

#[test]
fn decisions_of_another_suite_do_not_stand() {
    let policy = listing_policy();
    let mut state = [0; STATE_SIZE];
    for event in [
        install(10, 2, 0, 0b100),
        install(11, 2, 0, 0b100),
        start(10),
        request(2, DENY_BLANKET),
        terminate(),
        start(11),
    ] {
        assert!(step(&policy, &mut state, event)[0] < 16);
    }
    assert_eq!(step(&policy, &mut state, request(2, NONE)), [3, 3]);
}

#[test]
fn refusals_in_their_order() {
    let (policy, mut state) = (listing_policy(), listing_state());
    assert_eq!(
        step(&policy, &mut state, install(10, 2, 1 << 9, 0)),
        [22, 0]
    );
    assert_eq!(step(&policy, &mut state, start(11)), [20, 0]);
    assert_eq!(step(&policy, &mut state, remove(11)), [21, 0]);
    assert_eq!(MONITOR.step(&policy[1..], &mut state[1..], &[]), 16);
    assert_eq!(MONITOR.step(&policy, &mut state[1..], &[]), 17);
    assert_eq!(MONITOR.step(&policy, &mut state, &[4; 23]), 18);
    assert_eq!(state, listing_state());
}

#[test]
fn a_refused_run_changes_nothing_but_the_count() {
    let (policy, mut state) = (listing_policy(), listing_state());
    let events = [terminate().record(), start(10).record()].concat();
    let refused = |policy: &[u8], state: &mut [u8], length: usize, room: usize| {
        let (mut out, mut count) = ([9; 8], 9);
        let answer = MONITOR.run(
            policy,
            state,
            &events[..length],
            &mut out[..room],
            &mut count,
        );
        assert_eq!((out, count), ([9; 8], 0));
        answer
    };
    assert_eq!(refused(&policy[1..], &mut state[1..], 47, 3), 16);
    assert_eq!(refused(&policy, &mut state[1..], 47, 3), 17);
    for (length, room) in [(47, 4), (47, 2), (48, 3), (48, 5), (48, 2), (24, 4)] {
        assert_eq!(refused(&policy, &mut state, length, room), 30);
    }
    assert_eq!(state, listing_state());
    let mut count = 9;
    assert_eq!(
        MONITOR.run(&policy, &mut state, &[], &mut [], &mut count),
        0
    );
    assert_eq!(count, 0);
}

#[test]
fn states_that_are_not_valid() {
    let policy = listing_policy();
    let damage: [(usize, u8); 14] = [
        (2, 1),         // a zero byte of the session
        (24, 1),        // another
        (0, 11),        // the running suite is not installed
        (8, 0b1),       // a session grant under cell 4
        (8, 0b1000),    // a session grant under cell 1
        (16, 0b100000), // a revocation of what is not declared
        (16, 0b10000),  // a revocation under cell 0
        (42, 8),        // no such domain
        (43, 1),        // a zero byte of the slot
        (47, 1),        // another
        (48, 0b10011),  // required under cell 0
        (64, 0b10),     // a blanket grant under cell 2
        (72, 0b1),      // a revocation under cell 4
        (82, 1),        // a free slot that is not all zero
    ];
    assert_eq!(MONITOR.check(&policy, &listing_state()), 0);
    for (place, value) in damage {
        let mut state = listing_state();
        state[place] = value;
        assert_eq!(MONITOR.check(&policy, &state), 17, "byte {place}");
    }
}

#[test]
fn no_permission_stands_twice() {
    let policy = listing_policy();
    // Session grant, session revocation, blanket grant and blanket revocation of permission 2.
    let sets = [8, 16, 64, 72];
    for (index, first) in sets.into_iter().enumerate() {
        let mut once = listing_state();
        once[first] = 0b100;
        assert_eq!(MONITOR.check(&policy, &once), 0, "byte {first}");
        for second in &sets[index + 1..] {
            let mut twice = once;
            twice[*second] = 0b100;
            assert_eq!(
                MONITOR.check(&policy, &twice),
                17,
                "bytes {first}, {second}"
            );
        }
    }
}

#[test]
fn no_suite_stands_in_two_slots() {
    let (policy, mut state) = (listing_policy(), listing_state());
    state.copy_within(40..80, 1280);
    assert_eq!(MONITOR.check(&policy, &state), 17);
    state[1280] = 11;
    assert_eq!(MONITOR.check(&policy, &state), 0);
}
