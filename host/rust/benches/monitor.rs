//! Nanoseconds per event and per call: the C library beside the plain monitor.
//!
//! Both do the same work on the same bytes. Samples alternate between the two
//! after a warm-up, and the table shows medians.

#[path = "../tests/support/calls.rs"]
mod calls;
#[path = "../tests/support/rng.rs"]
mod rng;

use calls::{Calls, Library};
use plain::{Fields, Monitor};
use rng::Rng;
use std::hint::black_box;
use std::process::exit;
use std::time::Instant;

const EVENTS: usize = 100_000;
const EVENT_SIZE: usize = 24;
const STATE_SIZE: usize = 1320;
const SLOTS: u16 = 32;

/// Calls of one sample where a single call is too short to time.
const CALLS: usize = 2_000;

const WARM_UPS: usize = 3;
const SAMPLES: usize = 15;

const PLAIN: Monitor = Monitor { fault: None };

/// The answer number that sends the question to the user.
const ASK: u8 = 3;

/// Kinds of event.
const INSTALL: u8 = 1;
const REMOVE: u8 = 2;
const START: u8 = 3;
const TERMINATE: u8 = 4;
const REQUEST: u8 = 5;

/// A device in use, and the events that its use gives.
struct Device {
    rng: Rng,
    policy: Vec<u8>,
    state: Vec<u8>,
    events: Vec<u8>,
    /// What the running suite declares.
    declared: Vec<u8>,
}

impl Device {
    /// A device with a suite in each slot, spread over all domains.
    fn full(seed: u64) -> Device {
        let mut rng = Rng::new(seed);
        let policy = (0..512)
            .map(|_| rng.pick(&[0, 1, 2, 2, 3, 3, 3, 4]))
            .collect();
        let mut device = Device {
            rng,
            policy,
            state: vec![0; STATE_SIZE],
            events: Vec::new(),
            declared: Vec::new(),
        };
        for slot in 0..SLOTS {
            device.install(suite_of(slot));
        }
        device
    }

    /// Lets an event happen and notes it; gives the packed answer.
    fn happen(&mut self, fields: Fields) -> u32 {
        let mut record = [0; EVENT_SIZE];
        PLAIN.write_event(&fields, &mut record);
        self.events.extend_from_slice(&record);
        PLAIN.step(&self.policy, &mut self.state, &record)
    }

    fn length(&self) -> usize {
        self.events.len() / EVENT_SIZE
    }

    fn install(&mut self, suite: u16) {
        let domain = suite % 8;
        let row = &self.policy[usize::from(domain) * 64..][..64];
        let offered = (0..64).filter(|&permission| row[permission] != 0);
        let offered = offered.fold(0, |set, permission| set | 1 << permission);
        let install = Fields {
            kind: INSTALL,
            domain: domain as u8,
            suite,
            required: self.rng.next() & self.rng.next() & offered,
            optional: self.rng.next(),
            ..Fields::default()
        };
        self.happen(install);
    }

    fn of_suite(&mut self, kind: u8, suite: u16) {
        self.happen(Fields {
            kind,
            suite,
            ..Fields::default()
        });
    }

    fn start(&mut self, suite: u16) {
        self.of_suite(START, suite);
        let slot = PLAIN.record(&self.policy, &self.state, suite) as u32 as usize;
        let bit = |set: usize, permission: u8| {
            let byte = self.state[slot + set + usize::from(permission / 8)];
            byte >> (permission % 8) & 1 == 1
        };
        let declared = (0..64).filter(|&permission| bit(8, permission) || bit(16, permission));
        self.declared = declared.collect();
    }

    /// A permission that the running suite declares; seldom another.
    fn permission(&mut self) -> u8 {
        if self.rng.chance(3) {
            self.rng.below(64) as u8
        } else {
            self.rng.pick(&self.declared)
        }
    }

    /// A request; if the user must be asked, a second one brings the answer.
    fn request(&mut self) {
        let mut fields = Fields {
            kind: REQUEST,
            permission: self.permission(),
            ..Fields::default()
        };
        let [number, cell, ..] = self.happen(fields).to_le_bytes();
        if number == ASK {
            let mode = 1 + self.rng.below(usize::from(cell)) as u8;
            fields.answer = if self.rng.chance(70) { mode } else { 3 + mode };
            self.happen(fields);
        }
    }

    /// A session of a few dozen requests; now and then a suite is replaced before it.
    fn session(&mut self) {
        if self.rng.chance(10) {
            let replaced = suite_of(self.rng.below(usize::from(SLOTS)) as u16);
            self.of_suite(REMOVE, replaced);
            self.install(replaced);
        }
        let suite = suite_of(self.rng.below(usize::from(SLOTS)) as u16);
        self.start(suite);
        for _ in 0..24 + self.rng.below(25) {
            self.request();
        }
        self.of_suite(TERMINATE, 0);
    }
}

fn suite_of(slot: u16) -> u16 {
    1_000 + 1_001 * slot
}

/// Events of a kind of use, with the state they start from.
struct Workload {
    policy: Vec<u8>,
    state: Vec<u8>,
    events: Vec<u8>,
}

impl Workload {
    fn of(mut device: Device, mut use_it: impl FnMut(&mut Device)) -> Workload {
        let state = device.state.clone();
        device.events.clear();
        while device.length() < EVENTS {
            use_it(&mut device);
        }
        device.events.truncate(EVENTS * EVENT_SIZE);
        Workload {
            policy: device.policy,
            state,
            events: device.events,
        }
    }

    fn mixed() -> Workload {
        Workload::of(Device::full(1), Device::session)
    }

    /// Requests of the suite in the last slot.
    fn requests() -> Workload {
        let mut device = Device::full(2);
        device.start(suite_of(SLOTS - 1));
        Workload::of(device, Device::request)
    }

    /// The state that a run leads to; its answers are left in the output.
    fn run(&self, monitor: &dyn Calls, out: &mut [u8]) -> Vec<u8> {
        let (mut state, mut count) = (self.state.clone(), 0);
        let done = monitor.run(&self.policy, &mut state, &self.events, out, &mut count);
        assert_eq!((done, count), (0, EVENTS as u64), "the run was refused");
        state
    }

    fn run_time(&self, monitor: &dyn Calls) -> f64 {
        // Written to once before the clock starts, so that its pages are there.
        let mut out = vec![1; 2 * EVENTS];
        let start = Instant::now();
        black_box(self.run(monitor, &mut out));
        nanoseconds_each(start, EVENTS)
    }

    /// Whether the monitors do the same work.
    fn agreed(&self) -> bool {
        let (mut first, mut second) = (vec![0; 2 * EVENTS], vec![1; 2 * EVENTS]);
        self.run(&Library, &mut first) == self.run(&PLAIN, &mut second) && first == second
    }

    fn step_time(&self, monitor: &dyn Calls) -> f64 {
        let mut state = self.state.clone();
        let start = Instant::now();
        for event in self.events.chunks_exact(EVENT_SIZE).take(CALLS) {
            black_box(monitor.step(&self.policy, &mut state, event));
        }
        nanoseconds_each(start, CALLS)
    }

    fn check_time(&self, monitor: &dyn Calls) -> f64 {
        let start = Instant::now();
        for _ in 0..CALLS {
            black_box(monitor.check(black_box(&self.policy), black_box(&self.state)));
        }
        nanoseconds_each(start, CALLS)
    }
}

fn nanoseconds_each(start: Instant, count: usize) -> f64 {
    start.elapsed().as_nanos() as f64 / count as f64
}

/// The medians of both monitors, their samples taken in turn.
fn compare(time: impl Fn(&dyn Calls) -> f64) -> [f64; 2] {
    let monitors: [&dyn Calls; 2] = [&Library, &PLAIN];
    let mut samples = [vec![], vec![]];
    for round in 0..WARM_UPS + SAMPLES {
        for (monitor, samples) in monitors.iter().zip(&mut samples) {
            let sample = time(*monitor);
            if round >= WARM_UPS {
                samples.push(sample);
            }
        }
    }
    samples.map(|mut samples| {
        samples.sort_by(f64::total_cmp);
        samples[SAMPLES / 2]
    })
}

fn print_line(name: &str, time: impl Fn(&dyn Calls) -> f64) {
    let [library, plain] = compare(time);
    let ratio = library / plain;
    println!("{name:<32}{library:>10.1}{plain:>10.1}{ratio:>8.2}");
}

fn main() {
    let mut arguments = std::env::args().skip(1);
    if let Some(argument) = arguments.find(|argument| argument != "--bench") {
        eprintln!("the benchmark takes no arguments, but got {argument:?}");
        exit(2);
    }
    let (mixed, requests) = (Workload::mixed(), Workload::requests());
    if !mixed.agreed() || !requests.agreed() {
        eprintln!("the two monitors differ: their times cannot be compared");
        exit(1);
    }
    println!("{:<32}{:>10}{:>10}{:>8}", "ns", "library", "plain", "ratio");
    print_line("run, mixed events, each", |monitor| mixed.run_time(monitor));
    print_line("run, requests alone, each", |monitor| {
        requests.run_time(monitor)
    });
    print_line("step, full store", |monitor| requests.step_time(monitor));
    print_line("check, full store", |monitor| requests.check_time(monitor));
}
