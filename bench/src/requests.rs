//! Each request kind and the mixed script: the proved desk beside the hand-written ones.

use bench::cases::{named, Case, KEYS};
use bench::measure::{row, time, Unit};
use bench::state::{Judge, State};
use bench::{by_value, in_place};
use saltlicker::raw;
use std::collections::BTreeMap;
use std::time::Duration;

/// A row for each case and each way by hand; the mixed script also one request a call.
pub fn rows() {
    for case in KEYS.map(named) {
        check(&case);
        rows_of(case.what, &case, case.count());
    }
    rows_of("mixed script, one request a call", &named("mixed"), 1);
}

fn rows_of(what: &str, case: &Case, a_call: usize) {
    let unit = (Unit::NsRequest, case.count());
    let proved = || rounds(case, a_call, raw::judge);
    row(what, "by value", unit, proved(), rounds(case, a_call, by_value::judge_all));
    row(what, "in place", unit, proved(), rounds(case, a_call, in_place::judge_all));
}

/// A round sets the desk up, then times the requests, so many a call.
fn rounds<'a>(
    case: &'a Case,
    a_call: usize,
    side: impl Judge + 'a,
) -> impl FnMut() -> Duration + 'a {
    let (mut state, mut answers) = (case.start.clone(), vec![0; case.count()]);
    move || {
        state.copy_from(&case.start);
        time(|| {
            for (words, said) in case.requests.chunks(3 * a_call).zip(answers.chunks_mut(a_call)) {
                state.judge(side, words, said);
            }
        })
    }
}

/// Answers, tables and desk after a case.
fn outcome(case: &Case, side: impl Judge) -> (Vec<u64>, State) {
    let (mut state, mut answers) = (case.start.clone(), vec![0; case.count()]);
    state.judge(side, &case.requests, &mut answers);
    (answers, state)
}

/// All sides leave the same, and the answers are those the case is for.
fn check(case: &Case) {
    let proved = outcome(case, raw::judge);
    let same = proved == outcome(case, by_value::judge_all)
        && proved == outcome(case, in_place::judge_all);
    assert!(same, "the sides differ: {}", case.what);
    let code = |answer: &u64| (answer >> 32) as u32;
    let meant = |answer: &u64| case.codes.contains(&code(answer));
    assert!(proved.0.iter().all(meant), "not the answers meant: {}", case.what);
}

/// How often each answer is given in the mixed script.
pub fn mix() -> String {
    let mut counts = BTreeMap::new();
    for answer in outcome(&named("mixed"), raw::judge).0 {
        // Only a wait has a value that tells answers of one code apart.
        let value = if answer >> 32 == 202 { answer as u32 } else { 0 };
        *counts.entry((answer >> 32, value)).or_insert(0) += 1;
    }
    let name = |code, value| match code {
        101 => "started".to_string(),
        102 => "granted".to_string(),
        103 => "touched".to_string(),
        104 => "released".to_string(),
        105 => "finished".to_string(),
        201 => "held".to_string(),
        202 => format!("wait {value}"),
        number => format!("refused {number}"),
    };
    let parts = counts.iter().map(|(&(code, value), n)| format!("{n} {}", name(code, value)));
    parts.collect::<Vec<_>>().join(", ")
}
