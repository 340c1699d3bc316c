//! The generator: the same files from a seed, and every answer and refusal reached.

use second::audit::request_for;
use second::desk::Answer;
use second::event::{each_event, read_event};
use second::gen::damage::spell;
use second::gen::{audit_file, desk_file, order_file, recast};
use second::programs::Work;
use second::{audit_text, desk_text, desk_trace, order_text};
use std::collections::{BTreeMap, BTreeSet};

/// Lines without their numbers, except those of waits and refusals.
fn kinds(texts: impl Iterator<Item = String>) -> BTreeSet<String> {
    let mut found = BTreeSet::new();
    for text in texts {
        for line in text.lines() {
            let words: Vec<&str> = line.split(' ').collect();
            match words[..] {
                ["refused", number, "at", _] => found.insert(format!("refused {number} at")),
                ["started" | "order", _] => found.insert(words[0].to_string()),
                [number] if number.parse::<u32>().is_ok() => found.insert("ticket".to_string()),
                _ => found.insert(line.to_string()),
            };
        }
    }
    found
}

fn set(words: &[&str]) -> BTreeSet<String> {
    words.iter().map(|word| word.to_string()).collect()
}

#[test]
fn a_seed_gives_the_same_files_and_another_gives_others() {
    for index in 0..50 {
        assert_eq!(desk_file(7, index), desk_file(7, index));
        assert_eq!(order_file(7, index), order_file(7, index));
        assert_eq!(audit_file(7, index), audit_file(7, index));
    }
    assert!((0..50).any(|index| desk_file(7, index) != desk_file(8, index)));
    assert!((0..50).any(|index| order_file(7, index) != order_file(7, index + 1)));
}

#[test]
fn request_files_reach_every_line() {
    // 1 and 6 cannot be reached: the tables fit, and a file is too short for 2,097,151 changes.
    let expected = set(&[
        "started",
        "granted",
        "held",
        "touched",
        "released",
        "finished",
        "wait 1",
        "wait 2",
        "refused 2",
        "refused 3",
        "refused 4",
        "refused 5",
        "refused 7",
        "refused 8",
        "refused 20 at",
        "refused 21 at",
        "refused 22 at",
        "refused 26 at",
        "refused 27 at",
        "order",
        "ticket",
    ]);
    assert_eq!(kinds((0..2_000).map(|index| desk_text(&desk_file(1, index)))), expected);
}

#[test]
fn traces_reach_every_line() {
    let expected = set(&[
        "refused 20 at",
        "refused 21 at",
        "refused 22 at",
        "refused 23 at",
        "refused 26 at",
        "refused 27 at",
        "refused 28 at",
        "order",
        "ticket",
    ]);
    assert_eq!(kinds((0..1_000).map(|index| order_text(&order_file(1, index)))), expected);
}

/// What the grants of a trace do, if it has an order or a ring: held against it without them.
fn grants_do(trace: &[u8]) -> Option<&'static str> {
    // As releases they count for nothing, and so do touches.
    let (text, touches) = (order_text(trace), order_text(&recast(trace, 2, 4)));
    let is_ring = |text: &str| text.starts_with("refused 28");
    if is_ring(&text) {
        let of_grants = is_ring(&order_text(&recast(trace, 3, 4)));
        return Some(match (of_grants, is_ring(&touches)) {
            (true, true) => "a ring of grants and one of touches",
            (true, false) => "a ring of grants alone",
            (false, true) => "a ring of touches alone",
            (false, false) => "a ring of grants and touches",
        });
    }
    let count = |text: &str| text.lines().count();
    match text.starts_with("order") {
        true if count(&text) > count(&touches) => Some("an order that lists who only locked"),
        true if text != touches => Some("an order with a before by a grant"),
        true => Some("an order as without grants"),
        false => None,
    }
}

/// How often grants do each thing in some traces.
fn tally(traces: impl Iterator<Item = Vec<u8>>) -> BTreeMap<&'static str, u32> {
    let mut counts = BTreeMap::new();
    for done in traces.filter_map(|trace| grants_do(&trace)) {
        *counts.entry(done).or_default() += 1;
    }
    counts
}

#[test]
fn traces_reach_all_that_grants_do() {
    let counts = tally((0..2_000).map(|index| order_file(1, index)));
    let floors = [
        ("a ring of grants alone", 20),
        ("a ring of touches alone", 20),
        ("a ring of grants and touches", 50),
        ("an order that lists who only locked", 300),
        ("an order with a before by a grant", 10),
        ("an order as without grants", 150),
    ];
    assert!(floors.iter().all(|(done, floor)| counts.get(done) > Some(floor)), "{counts:?}");
}

#[test]
fn request_files_reach_changes_that_only_locked() {
    let counts = tally((0..2_000).map(|index| desk_trace(&desk_file(1, index))));
    assert!(counts.get("an order that lists who only locked") > Some(&500), "{counts:?}");
    assert!(counts.keys().all(|done| done.starts_with("an order")), "{counts:?}");
}

#[test]
fn traces_to_check_reach_every_line() {
    let expected = set(&[
        "accepted",
        "refused 20 at",
        "refused 21 at",
        "refused 22 at",
        "refused 23 at",
        "refused 40 at",
    ]);
    assert_eq!(kinds((0..2_000).map(|index| audit_text(&audit_file(1, index)))), expected);
}

/// For a trace refused 40: the kind of that event, and what the desk says when asked for it.
fn denied(trace: &[u8]) -> Option<String> {
    let text = audit_text(trace);
    let offset: usize = text.strip_prefix("refused 40 at ")?.trim_end().parse().ok()?;
    let (_, length) = read_event(&trace[offset..]).ok()??;
    let mut work = Work::cleared(4_096);
    let mut last = None;
    each_event(&trace[..offset + length], |event| {
        let answer = request_for(&work.desk, event).map(|request| work.ask(request));
        last = Some(match answer {
            None => format!("{} no seat", event.kind()),
            // A ticket out of turn.
            Some(Answer::Started(_)) => "1 another ticket".to_string(),
            Some(answer) => format!("{} {answer:?}", event.kind()),
        });
        Ok(())
    })
    .ok()?;
    last
}

#[test]
fn traces_to_check_are_refused_in_every_way() {
    let mut counts: BTreeMap<String, u32> = BTreeMap::new();
    for reason in (0..4_000).filter_map(|index| denied(&audit_file(1, index))) {
        *counts.entry(reason).or_default() += 1;
    }
    let expected = set(&[
        "1 no seat",
        "1 another ticket",
        "2 no seat",
        "2 Held",
        "2 Wait(1)",
        "2 Wait(2)",
        "2 Refused(8)",
        "3 no seat",
        "3 Refused(7)",
        "3 Refused(8)",
        "4 no seat",
        "4 Refused(7)",
        "4 Refused(8)",
        "5 no seat",
    ]);
    assert!(counts.values().all(|&count| count >= 5), "{counts:?}");
    assert_eq!(counts.into_keys().collect::<BTreeSet<String>>(), expected);
}

#[test]
fn files_reach_their_limits() {
    let desk: BTreeSet<usize> = (0..2_000).map(|index| desk_file(1, index).len()).collect();
    let order: BTreeSet<usize> = (0..2_000).map(|index| order_file(1, index).len()).collect();
    assert!([0, 16_384, 16_385].iter().all(|length| desk.contains(length)));
    assert!([0, 65_536, 65_537].iter().all(|length| order.contains(length)));
    let audit: BTreeSet<usize> = (0..3_000).map(|index| audit_file(1, index).len()).collect();
    assert!([0, 65_536, 131_072, 196_608].iter().all(|&end| audit.range(end..end + 2).count() > 0));
}

#[test]
fn files_reach_the_limits_of_numbers() {
    for make in [desk_file, order_file, audit_file] {
        let files: Vec<Vec<u8>> = (0..2_000).map(|index| make(1, index)).collect();
        let has =
            |bytes: &[u8]| files.iter().any(|file| file.windows(bytes.len()).any(|w| w == bytes));
        for number in [16_383, 16_384, 65_535, 65_536, 2_097_150, 2_097_151, 2_097_152, 2_097_153] {
            assert!(has(&spell(number, 1)), "{number}");
        }
    }
    // Tickets past 65,536, and the eighth stop of a reader by the longest order's bytes.
    let longest = (0..3_000).map(|index| audit_file(1, index).len()).max();
    assert!(longest > Some(8 * 65_536));
}

#[test]
fn strange_spellings() {
    assert_eq!(spell(5, 1), [5]);
    assert_eq!(spell(5, 2), [0x85, 0]);
    assert_eq!(spell(0, 3), [0x80, 0x80, 0]);
    assert_eq!(spell(65_536, 1), [0x80, 0x80, 4]);
    assert_eq!(spell(2_097_151, 1), [0xFF, 0xFF, 0x7F]);
    assert_eq!(spell(2_097_152, 1), [0x80, 0x80, 0x80, 1]);
}
