//! One suite's course does not depend on other suites' user decisions.
//!
//! A trial chooses a suite and a policy, and two valid states that differ in
//! what the user decided for other suites, stored or in their session, and in
//! nothing else. Two lists of events are fed to them, which differ only where
//! another suite, or none, runs, and then only in one request for another.
//! The same suite must run after each event in both, what is stored for the
//! chosen one must be the same, and so must its session while it runs and
//! every answer, but to the requests that may differ. `TM_LONG=1` makes fifty
//! times as many trials.

mod support {
    pub mod budget;
    pub mod calls;
    pub mod rng;
    pub mod world;
}

use plain::{Fault, Monitor};
use support::budget::cases;
use support::calls::{Calls, Library};
use support::rng::Rng;
use support::world::{Record, World, REQUEST, STATE_SIZE};

/// Trials of an ordinary test run.
const TRIALS: u64 = 4_000;

const RECORD_SIZE: usize = 40;

/// Bytes of a slot before its decisions.
const UNDECIDED: usize = 24;

/// What the trials came to; a count of 0 means that they tested nothing.
#[derive(Debug, Default)]
struct Tally {
    states_that_differ: u64,
    lists_that_differ: u64,
    requests_replaced: u64,
    answers_excused: u64,
    requests_watched: u64,
    trials_without_the_suite: u64,
}

/// Two courses of events over one policy, with one suite in view.
struct Trial<'a> {
    calls: &'a dyn Calls,
    world: World,
    wanted: u16,
    states: [Vec<u8>; 2],
}

impl<'a> Trial<'a> {
    fn new(calls: &'a dyn Calls, rng: &mut Rng) -> Trial<'a> {
        let world = World::new(rng);
        let wanted = rng.pick(&world.suites);
        let first = reached(calls, &world, rng);
        let second = decided_anew(&world.policy, &first, wanted, rng);
        Trial {
            calls,
            world,
            wanted,
            states: [first, second],
        }
    }

    fn valid(&self) -> [u32; 2] {
        let policy = &self.world.policy;
        self.states
            .each_ref()
            .map(|state| self.calls.check(policy, state))
    }

    fn wanted_runs(&self) -> bool {
        running(&self.states[0]) == self.wanted
    }

    /// The event for each course: a request may differ while the wanted suite is not running.
    fn events(&self, rng: &mut Rng) -> [Record; 2] {
        let first = self.world.event(rng);
        if first[0] == REQUEST && !self.wanted_runs() && rng.chance(60) {
            return [first, self.world.request(rng)];
        }
        [first, first]
    }

    /// Steps both courses and compares what must be equal.
    fn step(&mut self, events: &[Record; 2], tally: &mut Tally) -> Result<[u32; 2], String> {
        let runs = self.wanted_runs();
        let reads = |event: &Record| event[0] == REQUEST && self.calls.read_event(event) == 0;
        // Only an answer to a request, read as such, may differ.
        let excused = !runs && events.iter().any(reads);
        let watched = runs && reads(&events[0]) && self.states[0] != self.states[1];
        let [first, second] = &mut self.states;
        let policy = &self.world.policy;
        let answers = [
            self.calls.step(policy, first, &events[0]),
            self.calls.step(policy, second, &events[1]),
        ];
        if answers[0] != answers[1] && !excused {
            return Err(format!("answers {answers:x?} to {events:?}"));
        }
        tally.requests_replaced += u64::from(events[0] != events[1]);
        tally.answers_excused += u64::from(answers[0] != answers[1]);
        tally.requests_watched += u64::from(watched);
        self.alike()?;
        Ok(answers)
    }

    /// Whether the states are valid and alike in all that is not another suite's decision.
    fn alike(&self) -> Result<(), String> {
        let [first, second] = &self.states;
        let policy = &self.world.policy;
        let place = |state| self.calls.record(policy, state, self.wanted);
        let places = [place(first), place(second)];
        let offset = places[0] as u32 as usize;
        let length = (places[0] >> 32) as usize;
        if running(first) != running(second) {
            return Err("the running suites differ".to_string());
        }
        if places[0] != places[1] || first[offset..][..length] != second[offset..][..length] {
            return Err("the wanted suite's stored records differ".to_string());
        }
        if self.wanted_runs() && first[..RECORD_SIZE] != second[..RECORD_SIZE] {
            return Err("the wanted suite's sessions differ".to_string());
        }
        let mut slots = (RECORD_SIZE..STATE_SIZE).step_by(RECORD_SIZE);
        if slots.any(|slot| first[slot..][..UNDECIDED] != second[slot..][..UNDECIDED]) {
            return Err("the installed suites differ".to_string());
        }
        match self.valid() {
            [0, 0] => Ok(()),
            answers => Err(format!("states not valid: {answers:x?}")),
        }
    }
}

/// A state reached by a run of the world's events.
fn reached(calls: &dyn Calls, world: &World, rng: &mut Rng) -> Vec<u8> {
    let mut state = vec![0; STATE_SIZE];
    let count = 20 + rng.below(200);
    let events = world.events(rng, count);
    let (mut out, mut answered) = (vec![0; 2 * count], 0);
    calls.run(&world.policy, &mut state, &events, &mut out, &mut answered);
    state
}

fn running(state: &[u8]) -> u16 {
    suite_at(state, 0)
}

fn suite_at(state: &[u8], place: usize) -> u16 {
    u16::from_le_bytes([state[place], state[place + 1]])
}

fn set_at(state: &[u8], place: usize) -> u64 {
    (0..8).fold(0, |set, at| set | u64::from(state[place + at]) << (8 * at))
}

fn put_set(state: &mut [u8], place: usize, set: u64) {
    state[place..place + 8].copy_from_slice(&set.to_le_bytes());
}

/// The same state with other decisions for every suite but the wanted one.
fn decided_anew(policy: &[u8], state: &[u8], wanted: u16, rng: &mut Rng) -> Vec<u8> {
    let mut anew = state.to_vec();
    for slot in (RECORD_SIZE..STATE_SIZE).step_by(RECORD_SIZE) {
        let suite = suite_at(state, slot);
        if suite == 0 || suite == wanted {
            continue;
        }
        let runs = suite == running(state);
        let row = &policy[usize::from(state[slot + 2]) * 64..][..64];
        let declared = set_at(state, slot + 8) | set_at(state, slot + 16);
        let [granted, revoked, session_granted, session_revoked] =
            decisions(row, declared, runs, rng);
        put_set(&mut anew, slot + 24, granted);
        put_set(&mut anew, slot + 32, revoked);
        if runs {
            put_set(&mut anew, 8, session_granted);
            put_set(&mut anew, 16, session_revoked);
        }
    }
    anew
}

/// Decisions within the rules: blanket grants and revocations, then the session's.
fn decisions(row: &[u8], declared: u64, runs: bool, rng: &mut Rng) -> [u64; 4] {
    let mut sets = [0; 4];
    for permission in (0..64).filter(|permission| declared >> permission & 1 == 1) {
        let cell = row[permission];
        let asked = (1..=3).contains(&cell);
        let allowed = [cell == 3, asked, runs && asked && cell >= 2, runs && asked];
        // The fifth choice is no decision.
        let chosen = rng.below(5);
        if allowed.get(chosen) == Some(&true) {
            sets[chosen] |= 1 << permission;
        }
    }
    sets
}

/// Plays one trial event by event, then both lists as runs, which must come to the same.
fn play(calls: &dyn Calls, seed: u64, tally: &mut Tally) -> Result<(), String> {
    let rng = &mut Rng::new(seed);
    let mut trial = Trial::new(calls, rng);
    trial.alike()?;
    let starts = trial.states.clone();
    tally.states_that_differ += u64::from(starts[0] != starts[1]);
    let absent = calls.find(&trial.world.policy, &starts[0], trial.wanted) != 0;
    tally.trials_without_the_suite += u64::from(absent);
    let (mut lists, mut answers) = ([vec![], vec![]], [vec![], vec![]]);
    for _ in 0..40 + rng.below(120) {
        let events = trial.events(rng);
        let pair = trial.step(&events, tally)?;
        for course in 0..2 {
            lists[course].extend_from_slice(&events[course]);
            answers[course].extend_from_slice(&pair[course].to_le_bytes()[..2]);
        }
    }
    tally.lists_that_differ += u64::from(lists[0] != lists[1]);
    for (course, mut state) in starts.into_iter().enumerate() {
        let (mut out, mut count) = (vec![0; answers[course].len()], 0);
        calls.run(
            &trial.world.policy,
            &mut state,
            &lists[course],
            &mut out,
            &mut count,
        );
        if out != answers[course] || state != trial.states[course] {
            return Err(format!(
                "course {course} comes to something else as one run"
            ));
        }
    }
    Ok(())
}

#[test]
fn other_suites_decisions_do_not_matter() {
    let mut tally = Tally::default();
    for seed in 0..cases(TRIALS) {
        if let Err(violation) = play(&Library, seed, &mut tally) {
            panic!("seed {seed}: {violation}");
        }
    }
    println!("{tally:#?}");
    for (what, counted) in [
        ("states that differ", tally.states_that_differ),
        ("lists that differ", tally.lists_that_differ),
        ("replaced requests", tally.requests_replaced),
        ("excused answers", tally.answers_excused),
        (
            "requests of the suite amid other decisions",
            tally.requests_watched,
        ),
        ("trials without the suite", tally.trials_without_the_suite),
    ] {
        assert_ne!(counted, 0, "no {what}: the trials test too little");
    }
}

#[test]
fn the_old_lookup_is_a_violation() {
    let violation_by = |fault, seed| {
        let played = play(&Monitor { fault }, seed, &mut Tally::default());
        played.err()
    };
    let faulty = |seed| Some((seed, violation_by(Some(Fault::OldLookup), seed)?));
    let Some((seed, violation)) = (0..TRIALS).find_map(faulty) else {
        panic!("no violation in {TRIALS} trials");
    };
    println!("seed {seed}: {violation}");
    // The fault alone makes the violation.
    assert_eq!(violation_by(None, seed), None, "seed {seed}");
}
