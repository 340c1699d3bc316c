//! The command: N files of each kind and N scripts of calls through the second program and the proved library.

use compare::calls;
use compare::run::{run, Difference, Proved};
use compare::shrink::shrink;
use compare::tally::Tally;
use compare::texts::{first_differing_lines, Program, AUDIT, DESK, ORDER, ROOM};
use std::process::ExitCode;

/// Where a difference is kept: as `.bin`, `.second.txt` and `.proved.txt`, or as `.calls.txt`.
const KEPT: &str = concat!(env!("CARGO_MANIFEST_DIR"), "/../difference");

fn main() -> ExitCode {
    let words: Vec<u64> = std::env::args().skip(1).map_while(|word| word.parse().ok()).collect();
    let [count, seed] = words[..] else {
        eprintln!("compare N SEED");
        return ExitCode::FAILURE;
    };
    let proved = Proved { programs: [DESK, ORDER, AUDIT], calls: calls::PROVED };
    let (tally, differences) = run(&proved, seed, count);
    let Some(smallest) = differences.into_iter().min_by_key(Difference::length) else {
        report(&tally, seed, count);
        return ExitCode::SUCCESS;
    };
    if let Err(error) = keep(smallest) {
        eprintln!("it could not be kept: {error}");
    }
    ExitCode::FAILURE
}

/// What was met, and that nothing differed.
fn report(tally: &Tally, seed: u64, count: u64) {
    let places = [DESK.files, ORDER.files, AUDIT.files, calls::PLACE];
    for place in places {
        println!("{}", tally.line(place));
    }
    println!("never met in files: {}", tally.never_met(&places[..3]));
    println!("never met at all: {}", tally.never_met(&places));
    let bytes: u64 = places.iter().map(|place| tally.amount(place, "bytes")).sum();
    println!(
        "{count} request files, {count} traces, {count} traces to check and {count} scripts \
         of calls from seed {seed}: no difference \
         ({} requests, {} events, {} events allowed, {bytes} bytes)",
        tally.amount(DESK.files, DESK.parts),
        tally.amount(ORDER.files, ORDER.parts),
        tally.amount(AUDIT.files, AUDIT.parts),
    );
}

/// Makes a difference small, says it and writes it down.
fn keep(difference: Difference) -> std::io::Result<()> {
    match difference {
        Difference::Script(message) => {
            eprintln!("{}", message.lines().take(3).collect::<Vec<_>>().join("\n"));
            eprintln!("kept as second/difference.calls.txt");
            std::fs::write(format!("{KEPT}.calls.txt"), message)
        }
        Difference::File(program, file) => keep_file(&program, file),
    }
}

fn keep_file(program: &Program, file: Vec<u8>) -> std::io::Result<()> {
    eprintln!("{}: one of {} bytes is printed differently", program.files, file.len());
    let mut room = vec![0; ROOM];
    let file = shrink(file, |file| program.agreed(file, &mut room).is_none());
    let (second, proved) = ((program.second)(&file), program.proved_text(&file));
    eprintln!("{}", first_differing_lines(second.as_bytes(), &proved));
    eprintln!("{} bytes kept as second/difference.bin, the texts beside it", file.len());
    std::fs::write(format!("{KEPT}.bin"), file)?;
    std::fs::write(format!("{KEPT}.second.txt"), second)?;
    std::fs::write(format!("{KEPT}.proved.txt"), proved)
}
