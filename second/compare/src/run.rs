//! A run: all numbers shared out among the cores, each one's files and script held on both sides.

use crate::calls::{self, Calls};
use crate::tally::Tally;
use crate::texts::{Program, ROOM};
use std::sync::atomic::{AtomicU64, Ordering::Relaxed};

/// What is held against the second program.
pub struct Proved {
    pub programs: [Program; 3],
    pub calls: Calls,
}

/// Something on which the two sides differ.
pub enum Difference {
    File(Program, Vec<u8>),
    Script(String),
}

impl Difference {
    /// How long it is to read.
    pub fn length(&self) -> usize {
        match self {
            Difference::File(_, file) => file.len(),
            Difference::Script(message) => message.len(),
        }
    }
}

/// Holds numbers 0 to `count` of a seed, on every core; a difference ends the run.
pub fn run(proved: &Proved, seed: u64, count: u64) -> (Tally, Vec<Difference>) {
    let cores = std::thread::available_parallelism().map_or(1, usize::from);
    let next = AtomicU64::new(0);
    let mut all = Tally::default();
    let mut differences = Vec::new();
    std::thread::scope(|scope| {
        let work = || work(proved, seed, count, &next);
        let workers: Vec<_> = (0..cores).map(|_| scope.spawn(work)).collect();
        for worker in workers {
            let (tally, difference) = worker.join().expect("a worker does not panic");
            all.join(&tally);
            differences.extend(difference);
        }
    });
    (all, differences)
}

/// Takes the next number until none is left.
fn work(proved: &Proved, seed: u64, count: u64, next: &AtomicU64) -> (Tally, Option<Difference>) {
    let mut tally = Tally::default();
    let mut room = vec![0; ROOM];
    loop {
        let index = next.fetch_add(1, Relaxed);
        if index >= count {
            return (tally, None);
        }
        if index % (count / 10).max(1) == 0 {
            eprintln!("{index} of {count}");
        }
        if let Err(difference) = hold(proved, seed, index, &mut room, &mut tally) {
            // No number is left for the other workers.
            next.store(count, Relaxed);
            return (tally, Some(difference));
        }
    }
}

/// Holds the files and the script of one number.
fn hold(
    proved: &Proved,
    seed: u64,
    index: u64,
    room: &mut [u8],
    tally: &mut Tally,
) -> Result<(), Difference> {
    for program in proved.programs {
        let file = (program.make)(seed, index);
        let Some(text) = program.agreed(&file, room) else {
            return Err(Difference::File(program, file));
        };
        tally.add_text(program.files, &text);
        tally.add(program.files, "bytes", 0, file.len() as u64);
        tally.add(program.files, program.parts, 0, (program.count)(&file, &text));
    }
    let script = calls::scripts::script(seed, index);
    calls::hold(script, &proved.calls, tally)
        .map_err(|what| Difference::Script(format!("script {index} of seed {seed}: {what}")))
}
