//! What `bench` runs for the grabs alone: queues in which the search for the best job has little or much to do.
#![forbid(unsafe_code)]

use super::{one_job, Case, Load, SUBMIT};

const FUNCTION: &[u8] = b"reverse";

// The submissions of normal and of high priority.
const NORMAL: u32 = 7;
const HIGH: u32 = 21;

// Connection 0 submits, the worker can do the function, and another connection does what the case says.
const WORKER: usize = 1;
const ANOTHER: usize = 2;

/// The cases, each with so many events: grabs in vain, or cycles that submit, grab and complete one job each.
///
/// Where some jobs stay and others come and go, two serials agree modulo 32 in 31 cycles of 32, and the archive's check
/// of the table takes a longer way. So the times of two archives in one case should be compared, not of two cases.
pub fn cases(events: usize) -> Vec<Case> {
    vec![
        unable(events),
        no_jobs(events),
        all_held(events),
        one_job(events),
        best_at(0, "32 queued, the best at place 0", events),
        best_at(16, "32 queued, the best at place 16", events),
        best_at(31, "32 queued, the best at place 31", events),
        rising(events),
        falling(events),
        best_for_another(events),
        each_better(events),
    ]
}

impl Load {
    /// A load whose worker can do the function.
    fn with_worker() -> Self {
        let mut load = Load::default();
        load.can_do(WORKER, FUNCTION);
        load
    }

    /// A new job of 32 bytes; the type of the submission says its priority.
    fn queue(&mut self, kind: u32, function: &[u8]) {
        self.step(SUBMIT, 0, kind, &[function, b"", &[b'w'; 32]]);
    }

    /// Jobs at the places 0 to 30 whose serials fall from 62 to 32. The worker holds 31 others first and completes them
    /// from the last place to the first; each new job takes the lowest free place, which is the one just left.
    fn queue_falling(&mut self) {
        for _ in 0..31 {
            self.queue(NORMAL, FUNCTION);
            self.grab(WORKER);
        }
        for serial in (1..=31).rev() {
            self.complete(WORKER, serial);
            self.queue(NORMAL, FUNCTION);
        }
    }

    /// One connection grabs in vain, again and again.
    fn in_vain(self, name: &'static str, events: usize, connection: usize) -> Case {
        self.case(name, events, |load, _| load.grab(connection))
    }

    /// A job is submitted, the best one grabbed and completed; the first that is completed has this serial, and each
    /// next one the serial after it.
    fn in_turn(self, name: &'static str, events: usize, kind: u32, first: u32) -> Case {
        self.case(name, events, |load, cycle| {
            load.queue(kind, FUNCTION);
            load.grab(WORKER);
            load.complete(WORKER, first + cycle);
        })
    }
}

/// A connection without abilities grabs while 32 jobs are queued that the worker could do.
fn unable(events: usize) -> Case {
    let mut load = Load::with_worker();
    (0..32).for_each(|_| load.queue(NORMAL, FUNCTION));
    load.in_vain("32 queued, the sender can do nothing", events, ANOTHER)
}

fn no_jobs(events: usize) -> Case {
    Load::with_worker().in_vain("no job at all", events, WORKER)
}

/// Another connection holds 32 jobs that the worker could do.
fn all_held(events: usize) -> Case {
    let mut load = Load::with_worker();
    load.can_do(ANOTHER, FUNCTION);
    (0..32).for_each(|_| load.queue(NORMAL, FUNCTION));
    (0..32).for_each(|_| load.grab(ANOTHER));
    load.in_vain("32 held by another, none queued", events, WORKER)
}

/// 31 jobs of normal priority wait at all places but one; a job of high priority comes there, is grabbed and completed.
fn best_at(place: u32, name: &'static str, events: usize) -> Case {
    let mut load = Load::with_worker();
    (0..32).for_each(|other| load.queue(if other == place { HIGH } else { NORMAL }, FUNCTION));
    load.grab(WORKER);
    load.complete(WORKER, place + 1);
    load.in_turn(name, events, HIGH, 33)
}

/// 31 jobs of one priority wait, a 32nd comes, and the oldest goes: each time one place further up.
fn rising(events: usize) -> Case {
    let mut load = Load::with_worker();
    (0..31).for_each(|_| load.queue(NORMAL, FUNCTION));
    load.in_turn("32 queued alike, the oldest moves up", events, NORMAL, 1)
}

/// The same, but each time one place further down, so that up to the oldest each job is better than all before it.
fn falling(events: usize) -> Case {
    let mut load = Load::with_worker();
    load.queue_falling();
    load.in_turn("32 queued alike, the oldest moves down", events, NORMAL, 32)
}

/// At place 0 waits a job of high priority that only another connection can do; the worker gets the oldest of the 31
/// others.
fn best_for_another(events: usize) -> Case {
    let mut load = Load::with_worker();
    load.can_do(ANOTHER, b"other");
    load.queue(HIGH, b"other");
    (0..31).for_each(|_| load.queue(NORMAL, FUNCTION));
    load.case("32 queued, the best is for another", events, |load, cycle| {
        load.grab(WORKER);
        load.complete(WORKER, cycle + 2);
        load.queue(NORMAL, FUNCTION);
    })
}

/// The 31 at the places 0 to 30 have falling serials, and a job of high priority comes to place 31, is grabbed and
/// completed: whoever walks up the places meets 32 jobs of which each is better than all before it.
fn each_better(events: usize) -> Case {
    let mut load = Load::with_worker();
    load.queue_falling();
    load.in_turn("32 queued, each better than all before it", events, HIGH, 63)
}
