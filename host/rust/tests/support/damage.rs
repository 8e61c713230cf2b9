//! Policies and states that are wrong, or nearly right.

use super::rng::Rng;
use super::world::{policy, STATE_SIZE};

const RECORD_SIZE: usize = 40;
const SLOTS: usize = 32;

/// Where a slot's four sets start: required, optional, granted, revoked.
const SETS: [usize; 4] = [8, 16, 24, 32];

/// Where the session's two sets start: granted, revoked.
const SESSION_SETS: [usize; 2] = [8, 16];

/// A size near the right one, or far from it.
pub fn wrong_size(right: usize, unit: usize, rng: &mut Rng) -> usize {
    let any = rng.below(2 * right + 2);
    rng.pick(&[
        0,
        1,
        unit,
        right - unit,
        right - 1,
        right + 1,
        right + unit,
        any,
    ])
}

fn resize(bytes: &mut Vec<u8>, unit: usize, rng: &mut Rng) {
    let size = wrong_size(bytes.len(), unit, rng);
    bytes.resize(size, 0);
}

/// Changes a sound policy into a bad one or into another sound one.
pub fn damage_policy(cells: &mut Vec<u8>, rng: &mut Rng) {
    let place = rng.below(cells.len());
    match rng.below(6) {
        0 => resize(cells, 64, rng),
        1 => cells[place] = rng.pick(&[5, 6, 128, 255]),
        2 => cells[place] ^= 1 << rng.below(8),
        3 => *cells = policy(rng),
        // Another sound cell: a state may lose its validity by it.
        4 => cells[place] = rng.below(5) as u8,
        _ => {
            let (from, to) = (rng.below(5) as u8, rng.below(5) as u8);
            cells
                .iter_mut()
                .filter(|cell| **cell == from)
                .for_each(|cell| *cell = to);
        }
    }
}

/// Changes a state; it may still be valid afterwards.
pub fn damage_state(state: &mut Vec<u8>, set: u64, rng: &mut Rng) {
    let place = rng.below(STATE_SIZE);
    let slot = used_slot(state, rng);
    match rng.below(14) {
        0 => resize(state, RECORD_SIZE, rng),
        1 => state[place] = rng.next() as u8,
        2 => state[place] ^= 1 << rng.below(8),
        3 => state[place % RECORD_SIZE] ^= 1 << rng.below(8),
        4 => state[slot + place % RECORD_SIZE] ^= 1 << rng.below(8),
        5 => state[slot + 2] = rng.below(16) as u8,
        6 => state[slot + 3 + place % 5] = 1,
        7 => merge(state, slot + rng.pick(&SETS), slot + rng.pick(&SETS)),
        8 => merge(state, slot + rng.pick(&SETS), rng.pick(&SESSION_SETS)),
        9 => merge(state, rng.pick(&SESSION_SETS), rng.pick(&SESSION_SETS)),
        10 => add(state, slot + rng.pick(&SETS), set),
        11 => add(state, rng.pick(&SESSION_SETS), set),
        12 => rearrange(state, slot, rng),
        _ => change_running(state, slot, rng),
    }
}

/// Moves, copies or clears a slot: numbers may stand twice or the running one nowhere.
fn rearrange(state: &mut [u8], slot: usize, rng: &mut Rng) {
    let other = RECORD_SIZE * (1 + rng.below(SLOTS));
    let length = rng.pick(&[2, RECORD_SIZE]);
    match rng.below(3) {
        0 => state.copy_within(slot..slot + length, other),
        1 => state[slot..slot + length].fill(0),
        _ => {
            for at in 0..RECORD_SIZE {
                state.swap(slot + at, other + at);
            }
        }
    }
}

/// Names another running suite, with or without the sets of the old one.
fn change_running(state: &mut [u8], slot: usize, rng: &mut Rng) {
    match rng.below(3) {
        0 => state.copy_within(slot..slot + 2, 0),
        1 => state[..2].fill(0),
        _ => {
            state[..RECORD_SIZE].fill(0);
            state.copy_within(slot..slot + 2, 0);
        }
    }
}

/// The offset of a used slot, or of any if none is used.
fn used_slot(state: &[u8], rng: &mut Rng) -> usize {
    let used = |slot: &usize| state[*slot..slot + 2] != [0, 0];
    let slots = (1..=SLOTS).map(|slot| slot * RECORD_SIZE);
    let slots: Vec<usize> = slots.filter(used).collect();
    if slots.is_empty() {
        RECORD_SIZE * (1 + rng.below(SLOTS))
    } else {
        rng.pick(&slots)
    }
}

/// Adds the set at one place to the set at another.
fn merge(state: &mut [u8], from: usize, to: usize) {
    for at in 0..8 {
        state[to + at] |= state[from + at];
    }
}

fn add(state: &mut [u8], place: usize, set: u64) {
    for (byte, more) in state[place..].iter_mut().zip(set.to_le_bytes()) {
        *byte |= more;
    }
}
