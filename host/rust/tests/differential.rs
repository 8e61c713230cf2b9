//! The C library against the plain monitor: the same random calls, byte by byte.
//!
//! Every buffer lies amid guard bytes. `TM_LONG=1` makes fifty times as many
//! cases. The seeds are fixed, so a failing case can be run again.

mod support {
    pub mod budget;
    pub mod calls;
    pub mod damage;
    pub mod pair;
    pub mod rng;
    pub mod tally;
    pub mod world;
}

use plain::{Fault, Fields, Monitor};
use support::budget::cases;
use support::calls::{Calls, Library};
use support::damage::{damage_policy, damage_state, wrong_size};
use support::pair::{number, Difference, Pair};
use support::tally::{Call, Tally};
use support::world::{damage_record, World, EVENT_SIZE, POLICY_SIZE, STATE_SIZE};

/// Cases of an ordinary test run.
const CASES: u64 = 12_000;

/// Events of the longest run.
const MOST_EVENTS: usize = 4_000;

type Compared = Result<(), Difference>;

/// Plays one case; the seed decides everything in it.
fn play(pair: &mut Pair, seed: u64) -> Compared {
    match seed % 8 {
        0 => damaged_inputs(pair),
        1 => records(pair),
        2 => wrong_sizes(pair),
        3 => long_run(pair),
        4 if seed % 64 == 4 => sweep(pair),
        4 | 5 => short_runs(pair),
        _ => steps(pair),
    }
}

/// The state that a run of the world's events leads to.
fn reached(pair: &mut Pair, world: &World, count: usize) -> Result<Vec<u8>, Difference> {
    let mut state = vec![0; STATE_SIZE];
    let events = world.events(&mut pair.rng, count);
    pair.run(&world.policy, &mut state, &events, 2 * count)?;
    Ok(state)
}

fn short_runs(pair: &mut Pair) -> Compared {
    let world = World::new(&mut pair.rng);
    let mut state = vec![7; STATE_SIZE];
    pair.new_state(&mut state)?;
    for _ in 0..6 {
        let count = pair.rng.below(120);
        let events = world.events(&mut pair.rng, count);
        pair.run(&world.policy, &mut state, &events, 2 * count)?;
        look_up(pair, &world, &world.policy, &state)?;
    }
    Ok(())
}

fn long_run(pair: &mut Pair) -> Compared {
    let world = World::new(&mut pair.rng);
    let count = pair.rng.below(MOST_EVENTS + 1);
    let state = reached(pair, &world, count)?;
    pair.check(&world.policy, &state)?;
    Ok(())
}

fn steps(pair: &mut Pair) -> Compared {
    let world = World::new(&mut pair.rng);
    let count = pair.rng.below(300);
    let mut state = reached(pair, &world, count)?;
    for _ in 0..60 {
        let event = match pair.rng.chance(30) {
            true => world.request(&mut pair.rng),
            false => world.event(&mut pair.rng),
        };
        pair.step(&world.policy, &mut state, &event)?;
        if pair.rng.chance(20) {
            look_up(pair, &world, &world.policy, &state)?;
        }
    }
    Ok(())
}

/// Asks for suites: of the pool, of the state's neighbourhood, and suite 0.
fn look_up(pair: &mut Pair, world: &World, policy: &[u8], state: &[u8]) -> Compared {
    let known = pair.rng.pick(&world.suites);
    let suite = pair.rng.pick(&[known, known, known ^ 1, known ^ 256, 0]);
    pair.check(policy, state)?;
    pair.find(policy, state, suite)?;
    pair.record(policy, state, suite)?;
    Ok(())
}

/// Every call on policies and states that are wrong or nearly so.
fn damaged_inputs(pair: &mut Pair) -> Compared {
    let world = World::new(&mut pair.rng);
    let count = pair.rng.below(200);
    let sound = reached(pair, &world, count)?;
    for _ in 0..40 {
        let (mut policy, mut state) = (world.policy.clone(), sound.clone());
        if pair.rng.chance(30) {
            damage_policy(&mut policy, &mut pair.rng);
        }
        let set = world.set(&mut pair.rng);
        damage_state(&mut state, set, &mut pair.rng);
        look_up(pair, &world, &policy, &state)?;
        let event = any_record(pair, &world);
        pair.step(&policy, &mut state, &event)?;
        any_run(pair, &world, &policy, &mut state)?;
    }
    Ok(())
}

/// One bit of every byte of a state, and every cell of a policy.
fn sweep(pair: &mut Pair) -> Compared {
    let world = World::new(&mut pair.rng);
    let sound = reached(pair, &world, 150)?;
    for place in 0..STATE_SIZE {
        let mut state = sound.clone();
        state[place] ^= 1 << pair.rng.below(8);
        pair.check(&world.policy, &state)?;
    }
    for place in 0..POLICY_SIZE {
        let mut policy = world.policy.clone();
        policy[place] = pair.rng.pick(&[0, 1, 2, 3, 4, 5, 255]);
        pair.check(&policy, &sound)?;
    }
    Ok(())
}

/// Records read and written: good ones, damaged ones and records of any length.
fn records(pair: &mut Pair) -> Compared {
    let world = World::new(&mut pair.rng);
    for _ in 0..150 {
        let mut record = world.event(&mut pair.rng);
        if pair.rng.chance(50) {
            damage_record(&mut record, &mut pair.rng);
        }
        pair.read_event(&record)?;
        write_back(pair, &record)?;
        let longer = [record, world.event(&mut pair.rng)].concat();
        let length = pair.rng.below(2 * EVENT_SIZE + 1);
        pair.read_event(&longer[..length])?;
    }
    Ok(())
}

/// Writes the fields of a record: the same record comes out, unless it is refused.
fn write_back(pair: &mut Pair, record: &[u8; EVENT_SIZE]) -> Compared {
    let set =
        |place: usize| (0..8).fold(0, |set, at| set | u64::from(record[place + at]) << (8 * at));
    let fields = Fields {
        kind: record[0],
        domain: record[1],
        suite: u16::from_le_bytes([record[2], record[3]]),
        permission: record[4],
        answer: record[5],
        required: set(8),
        optional: set(16),
    };
    let mut written = vec![0; EVENT_SIZE];
    if pair.rng.chance(25) {
        written.resize(wrong_size(EVENT_SIZE, 8, &mut pair.rng), 0);
    }
    let answer = pair.write_event(&fields, &mut written)?;
    // Bytes 6 and 7 have no field: they are written as zero.
    let expected = [&record[..6], &[0, 0], &record[8..]].concat();
    if number(answer) < 16 && written != expected {
        let what = format!("{fields:?} written as {written:?}");
        return Err(Difference::new(Call::WriteEvent, what));
    }
    Ok(())
}

/// Every call with buffers of the wrong size.
fn wrong_sizes(pair: &mut Pair) -> Compared {
    let world = World::new(&mut pair.rng);
    let sound = reached(pair, &world, 60)?;
    for _ in 0..30 {
        let mut state = vec![9; wrong_size(STATE_SIZE, 40, &mut pair.rng)];
        pair.new_state(&mut state)?;
        let mut state = sound.clone();
        let event = any_record(pair, &world);
        pair.step(&world.policy, &mut state, &event)?;
        any_run(pair, &world, &world.policy, &mut state)?;
    }
    Ok(())
}

/// An event's record, half of the time cut off or followed by a part of another.
fn any_record(pair: &mut Pair, world: &World) -> Vec<u8> {
    let mut record = world.events(&mut pair.rng, 2);
    let length = pair.rng.below(record.len() + 1);
    record.truncate(pair.rng.pick(&[EVENT_SIZE, length]));
    record
}

/// A short run; its events may not be whole records and its output may have the wrong size.
fn any_run(pair: &mut Pair, world: &World, policy: &[u8], state: &mut [u8]) -> Compared {
    let count = pair.rng.below(5);
    let mut events = world.events(&mut pair.rng, count);
    if pair.rng.chance(30) {
        events.resize(pair.rng.below(5 * EVENT_SIZE), 1);
    }
    let right = 2 * (events.len() / EVENT_SIZE);
    let wrong = pair
        .rng
        .pick(&[right + 1, right + 2, right / 2, right.max(1) - 1, 0]);
    let room = pair.rng.pick(&[right, wrong]);
    pair.run(policy, state, &events, room)?;
    Ok(())
}

/// The first difference in so many cases, with its seed.
fn first_difference(
    left: &dyn Calls,
    right: &dyn Calls,
    cases: u64,
    tally: &mut Tally,
) -> Option<(u64, Difference)> {
    (0..cases).find_map(|seed| {
        let played = play(&mut Pair::new(left, right, seed, tally), seed);
        played.err().map(|difference| (seed, difference))
    })
}

#[test]
fn library_and_plain_monitor_agree() {
    let mut tally = Tally::default();
    let right = Monitor { fault: None };
    if let Some((seed, difference)) = first_difference(&Library, &right, cases(CASES), &mut tally) {
        panic!("seed {seed}: {difference}");
    }
    println!("{tally}");
    assert_eq!(tally.surprises(), [""; 0]);
}

#[test]
fn every_planted_fault_is_found() {
    for fault in Fault::ALL {
        let right = Monitor { fault: Some(fault) };
        match first_difference(&Library, &right, CASES, &mut Tally::default()) {
            Some((seed, difference)) => println!("{fault:?}: seed {seed}: {difference}"),
            None => panic!("{fault:?} makes no difference in {CASES} cases"),
        }
    }
}
