//! Policies and events from small pools, so that they meet often.

use super::rng::Rng;

pub const POLICY_SIZE: usize = 512;
pub const STATE_SIZE: usize = 1320;
pub const EVENT_SIZE: usize = 24;

pub type Record = [u8; EVENT_SIZE];

/// Kinds of event, as in byte 0 of a record.
pub const INSTALL: u8 = 1;
pub const REMOVE: u8 = 2;
pub const START: u8 = 3;
pub const TERMINATE: u8 = 4;
pub const REQUEST: u8 = 5;

/// How many of a hundred events are of each kind, from install to request.
type Mix = [usize; 5];

const QUIET: Mix = [8, 3, 16, 5, 68];
const CHURNING: Mix = [24, 16, 24, 12, 24];
const FILLING: Mix = [46, 3, 14, 3, 34];

/// Suites of a pool that overflows the 32 slots, though some numbers come twice.
const CROWD: usize = 60;

/// Cells that a policy draws from.
const PALETTES: [&[u8]; 6] = [
    &[0, 1, 2, 3, 4],
    &[1, 2, 3, 3, 3, 3],
    &[0, 1, 2, 2, 3, 3, 3, 4],
    &[3],
    &[1, 2],
    &[0, 3, 4],
];

/// Numbers at the ends of the range, or alike in one byte.
const SUITES: [u16; 8] = [1, 2, 255, 256, 257, 258, 65280, 65535];

/// A policy and the pools that events are drawn from.
pub struct World {
    pub policy: Vec<u8>,
    pub suites: Vec<u16>,
    domains: Vec<u8>,
    permissions: Vec<u8>,
    mix: Mix,
}

impl World {
    pub fn new(rng: &mut Rng) -> World {
        if rng.chance(30) {
            return World::with(rng, CROWD, FILLING);
        }
        let suites = 1 + rng.below(4);
        let mix = rng.pick(&[QUIET, CHURNING]);
        World::with(rng, suites, mix)
    }

    fn with(rng: &mut Rng, suites: usize, mix: Mix) -> World {
        let (domains, permissions) = (1 + rng.below(3), 1 + rng.below(6));
        World {
            policy: policy(rng),
            suites: (0..suites).map(|_| suite(rng)).collect(),
            domains: (0..domains).map(|_| rng.below(8) as u8).collect(),
            permissions: (0..permissions).map(|_| permission(rng)).collect(),
            mix,
        }
    }

    pub fn events(&self, rng: &mut Rng, count: usize) -> Vec<u8> {
        (0..count).flat_map(|_| self.event(rng)).collect()
    }

    /// A record of the world's mix; a few are damaged.
    pub fn event(&self, rng: &mut Rng) -> Record {
        let mut record = self.sound_event(rng);
        if rng.chance(4) {
            damage_record(&mut record, rng);
        }
        record
    }

    fn sound_event(&self, rng: &mut Rng) -> Record {
        let mut left = rng.below(self.mix.iter().sum());
        let mut kind = INSTALL;
        for share in self.mix {
            if left < share {
                break;
            }
            left -= share;
            kind += 1;
        }
        match kind {
            INSTALL => self.install(rng),
            REMOVE | START => suite_event(kind, rng.pick(&self.suites)),
            TERMINATE => suite_event(TERMINATE, 0),
            _ => self.sound_request(rng),
        }
    }

    fn install(&self, rng: &mut Rng) -> Record {
        let domain = rng.pick(&self.domains);
        let mut required = self.set(rng);
        if rng.chance(75) {
            required &= self.offered(domain);
        }
        let mut optional = self.set(rng) | self.set(rng);
        if rng.chance(15) {
            optional |= rng.next();
        }
        let mut record = suite_event(INSTALL, rng.pick(&self.suites));
        record[1] = domain;
        record[8..16].copy_from_slice(&required.to_le_bytes());
        record[16..].copy_from_slice(&optional.to_le_bytes());
        record
    }

    /// A request for a permission of the pool, or now and then for any; a few are damaged.
    pub fn request(&self, rng: &mut Rng) -> Record {
        let mut record = self.sound_request(rng);
        if rng.chance(4) {
            damage_record(&mut record, rng);
            record[0] = REQUEST;
        }
        record
    }

    fn sound_request(&self, rng: &mut Rng) -> Record {
        let mut record = suite_event(REQUEST, 0);
        record[4] = rng.pick(&self.permissions);
        if rng.chance(10) {
            record[4] = rng.below(64) as u8;
        }
        if rng.chance(60) {
            record[5] = 1 + rng.below(6) as u8;
        }
        record
    }

    /// Some of the pool's permissions.
    pub fn set(&self, rng: &mut Rng) -> u64 {
        let chosen = self.permissions.iter().filter(|_| rng.chance(50));
        chosen.fold(0, |set, permission| set | 1 << permission)
    }

    fn offered(&self, domain: u8) -> u64 {
        let row = &self.policy[usize::from(domain) * 64..][..64];
        let offered = (0..64).filter(|&permission| row[permission] != 0);
        offered.fold(0, |set, permission| set | 1 << permission)
    }
}

/// A sound policy.
pub fn policy(rng: &mut Rng) -> Vec<u8> {
    let palette = rng.pick(&PALETTES);
    (0..POLICY_SIZE).map(|_| rng.pick(palette)).collect()
}

fn suite(rng: &mut Rng) -> u16 {
    if rng.chance(40) {
        rng.pick(&SUITES)
    } else {
        1 + rng.below(65535) as u16
    }
}

fn permission(rng: &mut Rng) -> u8 {
    if rng.chance(30) {
        rng.pick(&[0, 31, 32, 63])
    } else {
        rng.below(64) as u8
    }
}

fn suite_event(kind: u8, suite: u16) -> Record {
    let mut record = [0; EVENT_SIZE];
    record[0] = kind;
    record[2..4].copy_from_slice(&suite.to_le_bytes());
    record
}

/// Changes a record, most often into one that is no event.
pub fn damage_record(record: &mut Record, rng: &mut Rng) {
    let any = rng.next() as u8;
    let place = rng.below(EVENT_SIZE);
    match rng.below(8) {
        0 => record[0] = rng.pick(&[0, 6, 7, 8, any]),
        1 => record[1] = rng.pick(&[8, any]),
        2 => record[2..4].fill(0),
        3 => record[4] = rng.pick(&[64, any | 64]),
        4 => record[5] = rng.pick(&[7, any]),
        5 => record[6 + place % 2] = any,
        6 => record[place] = any,
        _ => record[place] ^= 1 << (any % 8),
    }
}
