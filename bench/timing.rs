//! The timing: both sides in one process, one after the other, by turns first.
use crate::comparing::{kinds, written};
use crate::{loops, proved};
use std::hint::black_box;

/// What is timed: a loop of each side that is given a number of rounds, and how many things a round does.
struct Measured {
    name: String,
    unit: &'static str,
    rounds: u32,
    each: u32,
    /// whether the time of no round at all is taken off: there a log is made and filled first
    prepared: bool,
    library: Box<dyn Fn(u32) -> u64>,
    twin: Box<dyn Fn(u32) -> u64>,
}

/// Times what has the word in its name.
pub fn time(repetitions: usize, word: &str) {
    println!("| What | Of each | Library, ns | Twin, ns | Ratio | Ratios from the first to the third quarter |");
    println!("|---|---|---|---|---|---|");
    for measured in all().iter().filter(|measured| measured.name.contains(word)) {
        measured.time(repetitions);
    }
}

impl Measured {
    fn time(&self, repetitions: usize) {
        assert_eq!((self.library)(self.rounds), (self.twin)(self.rounds), "{}: other sums", self.name);
        let (mut library, mut twin, mut ratios) = (Vec::new(), Vec::new(), Vec::new());
        for i in 0..repetitions {
            let (mine, other) = if i % 2 == 0 {
                let mine = self.nanoseconds(&self.library);
                (mine, self.nanoseconds(&self.twin))
            } else {
                let other = self.nanoseconds(&self.twin);
                (self.nanoseconds(&self.library), other)
            };
            library.push(mine);
            twin.push(other);
            ratios.push(mine / other);
        }
        let (mine, other) = (quarter(&mut library, 2), quarter(&mut twin, 2));
        println!(
            "| {} | {} | {mine:.1} | {other:.1} | {:.2} | {:.2} to {:.2} |",
            self.name,
            self.unit,
            mine / other,
            quarter(&mut ratios, 1),
            quarter(&mut ratios, 3)
        );
    }

    fn nanoseconds(&self, side: &dyn Fn(u32) -> u64) -> f64 {
        let whole = clocked(side, self.rounds);
        let before = if self.prepared { clocked(side, 0) } else { 0.0 };
        (whole - before) / f64::from(self.rounds) / f64::from(self.each)
    }
}

/// What a side takes, in nanoseconds of this thread's own processor time: others may run on the machine.
fn clocked(side: &dyn Fn(u32) -> u64, rounds: u32) -> f64 {
    let start = thread_time();
    black_box(side(black_box(rounds)));
    thread_time() - start
}

unsafe extern "C" {
    fn clock_gettime(clock: i32, time: *mut [i64; 2]) -> i32;
}

/// The number by which Linux knows that clock.
const THREAD_TIME: i32 = 3;

fn thread_time() -> f64 {
    let mut time = [0; 2];
    assert_eq!(unsafe { clock_gettime(THREAD_TIME, &mut time) }, 0, "no such clock");
    time[0] as f64 * 1e9 + time[1] as f64
}

/// The value behind so many quarters of them.
fn quarter(values: &mut [f64], quarters: usize) -> f64 {
    values.sort_by(f64::total_cmp);
    values[(values.len() - 1) * quarters / 4]
}

fn all() -> Vec<Measured> {
    let mut list = Vec::new();
    coding(&mut list);
    committing(&mut list);
    hearing(&mut list);
    growing(&mut list);
    reopening(&mut list);
    list
}

fn add(
    list: &mut Vec<Measured>,
    name: String,
    unit: &'static str,
    (rounds, each, prepared): (u32, u32, bool),
    library: impl Fn(u32) -> u64 + 'static,
    twin: impl Fn(u32) -> u64 + 'static,
) {
    list.push(Measured { name, unit, rounds, each, prepared, library: Box::new(library), twin: Box::new(twin) });
}

fn coding(list: &mut Vec<Measured>) {
    for (kind, what) in [(1, "Decisions of any sets"), (2, "Votes")] {
        add(
            list,
            format!("encode, {what}"),
            "record",
            (500_000, 1, false),
            move |rounds| proved::measured_encode(kind, rounds),
            move |rounds| loops::encode(kind, rounds),
        );
        let (bytes, same) = (written(kind, 1000), written(kind, 1000));
        add(
            list,
            format!("decode, {what}"),
            "record",
            (500, 1000, false),
            move |rounds| proved::decode(&bytes, rounds),
            move |rounds| loops::decode(&same, rounds),
        );
    }
}

fn committing(list: &mut Vec<Measured>) {
    for (stores, rounds) in [(1, 80_000), (4, 32_000), (15, 9600)] {
        add(
            list,
            format!("a whole commit, {stores} stores"),
            "transaction",
            (rounds, 1, false),
            move |rounds| proved::measured_commit(stores, rounds),
            move |rounds| loops::commit(stores, rounds),
        );
    }
}

fn hearing(list: &mut Vec<Measured>) {
    for (kept, count, what) in [(false, 1, "Prepare in InDoubt"), (true, 3, "any in Kept")] {
        let (some, same) = (kinds(1, count, 1000), kinds(1, count, 1000));
        add(
            list,
            format!("a participant receives, {what}"),
            "call",
            (1000, 1000, false),
            move |rounds| proved::participant_hears(kept, &some, rounds),
            move |rounds| loops::participant_hears(kept, &same, rounds),
        );
    }
    for (committing, count, what) in [(false, 1, "Prepared of 15 of 16 seats in DurableVoting"), (true, 4, "any in Committing, 16 seats")] {
        let (some, same) = (kinds(4, count, 1000), kinds(4, count, 1000));
        add(
            list,
            format!("the coordinator receives, {what}"),
            "call",
            (500, 1000, false),
            move |rounds| proved::coordinator_hears(committing, &some, rounds),
            move |rounds| loops::coordinator_hears(committing, &same, rounds),
        );
    }
}

fn growing(list: &mut Vec<Measured>) {
    for held in [0, 1000, 100_000] {
        add(
            list,
            format!("receive, vote, settle, receive, settle at a participant whose journal holds {held}"),
            "five calls",
            (50_000, 1, true),
            move |rounds| proved::measured_participant_steps(held, rounds),
            move |rounds| loops::participant_steps(held, rounds),
        );
        add(
            list,
            format!("open, ask, settle, settle at a coordinator whose journal holds {held}"),
            "four calls",
            (50_000, 1, true),
            move |rounds| proved::measured_coordinator_steps(held, rounds),
            move |rounds| loops::coordinator_steps(held, rounds),
        );
    }
}

fn reopening(list: &mut Vec<Measured>) {
    for (held, rounds) in [(0, 500_000), (8, 200_000), (32, 50_000)] {
        add(
            list,
            format!("restart of a participant over a tray that holds {held}"),
            "restart",
            (rounds, 1, false),
            move |rounds| proved::measured_participant_restarts(held, rounds),
            move |rounds| loops::participant_restarts(held, rounds),
        );
        add(
            list,
            format!("restart of a coordinator over a tray that holds {held}"),
            "restart",
            (rounds, 1, false),
            move |rounds| proved::measured_coordinator_restarts(held, rounds),
            move |rounds| loops::coordinator_restarts(held, rounds),
        );
    }
    for (held, rounds) in [(1000, 1000), (10_000, 100), (100_000, 10)] {
        add(
            list,
            format!("restart of a participant over a journal that holds {held}"),
            "restart",
            (rounds, 1, true),
            move |rounds| proved::measured_participant_restarts_journal(held, rounds),
            move |rounds| loops::participant_restarts_journal(held, rounds),
        );
        add(
            list,
            format!("restart of a coordinator over a journal that holds {held}"),
            "restart",
            (rounds, 1, true),
            move |rounds| proved::measured_coordinator_restarts_journal(held, rounds),
            move |rounds| loops::coordinator_restarts_journal(held, rounds),
        );
    }
}
