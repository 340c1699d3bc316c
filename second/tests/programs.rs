//! The desk program and the audit program: the viaduct, their limits, faults with their offsets.

use second::{audit_text, desk_text, desk_trace, order_text};

fn lines(text: &str) -> Vec<&str> {
    assert!(text.ends_with('\n'));
    text.lines().collect()
}

const VIADUCT: [u8; 41] = [
    0x01, 0x00, 0x02, 0x00, 0x05, 0x03, 0x00, 0x05, 0x04, 0x00, 0x05, 0x01, 0x01, 0x02, 0x01, 0x05,
    0x03, 0x01, 0x05, 0x02, 0x01, 0x06, 0x02, 0x00, 0x06, 0x03, 0x00, 0x06, 0x04, 0x00, 0x06, 0x02,
    0x01, 0x06, 0x03, 0x01, 0x06, 0x05, 0x01, 0x05, 0x00,
];

#[test]
fn the_viaduct() {
    let expected = [
        "started 1",
        "granted",
        "touched",
        "released",
        "started 2",
        "granted",
        "touched",
        "wait 2",
        "granted",
        "touched",
        "released",
        "granted",
        "touched",
        "finished",
        "finished",
        "order 2",
        "1",
        "2",
    ];
    assert_eq!(lines(&desk_text(&VIADUCT)), expected);
}

#[test]
fn the_viaducts_trace() {
    let expected = [
        1, 1, 2, 1, 5, 3, 1, 5, 4, 1, 5, 1, 2, 2, 2, 5, 3, 2, 5, 2, 1, 6, 3, 1, 6, 4, 1, 6, 2, 2,
        6, 3, 2, 6, 5, 2, 5, 1,
    ];
    assert_eq!(desk_trace(&VIADUCT), expected);
    assert_eq!(order_text(&expected), "order 2\n1\n2\n");
    assert_eq!(audit_text(&expected), "accepted\n");
}

#[test]
fn the_viaduct_cut_anywhere() {
    let whole = desk_text(&VIADUCT);
    let ends = [0, 2, 5, 8, 11, 13, 16, 19, 22, 25, 28, 31, 34, 37, 39, 41];
    for cut in 0..VIADUCT.len() {
        let before = ends.iter().filter(|&&end| end <= cut).count() - 1;
        let text = desk_text(&VIADUCT[..cut]);
        let got = lines(&text);
        assert_eq!(got[..before], lines(&whole)[..before]);
        if !ends.contains(&cut) {
            let last = format!("refused 20 at {}", ends[before]);
            assert_eq!(got[before..], [last.as_str()]);
        }
    }
}

#[test]
fn an_empty_file() {
    assert_eq!(desk_text(&[]), "order 0\n");
    assert_eq!(desk_trace(&[]), []);
}

#[test]
fn a_surveyors_change_only_locks() {
    let text = desk_text(&[1, 0, 2, 0, 6, 5, 0]);
    assert_eq!(text, "started 1\ngranted\nfinished\norder 1\n1\n");
    // The surveyor at seat 1 keeps the lower road still; the editor at seat 0 takes it afterwards.
    let input = [1, 0, 1, 1, 2, 1, 6, 2, 0, 6, 5, 1, 2, 0, 6, 3, 0, 6, 5, 0];
    let expected = [
        "started 1",
        "started 2",
        "granted",
        "wait 1",
        "finished",
        "granted",
        "touched",
        "finished",
        "order 2",
        "2",
        "1",
    ];
    assert_eq!(lines(&desk_text(&input)), expected);
    // One who is told to wait, and never asks again, has no place.
    let waits = [1, 0, 1, 1, 2, 1, 6, 2, 0, 6, 5, 0];
    assert!(desk_text(&waits).ends_with("finished\norder 1\n2\n"));
}

#[test]
fn seat_31_and_32() {
    assert_eq!(desk_text(&[1, 31, 1, 32]), "started 1\nrefused 2\norder 0\n");
    // Any number there is reads as a seat.
    for seat in [[0xFF, 0xFF, 3], [0x80, 0x80, 4], [0xFF, 0xFF, 0x7F]] {
        let input = [&[1], &seat[..], &[2], &seat[..], &[5, 5], &seat[..]].concat();
        assert_eq!(desk_text(&input), "refused 2\nrefused 2\nrefused 2\norder 0\n");
    }
}

#[test]
fn record_255_and_256() {
    let text = desk_text(&[1, 0, 2, 0, 0xFF, 1, 2, 0, 0x80, 2, 3, 0, 0xFF, 1]);
    assert_eq!(text, "started 1\ngranted\nrefused 3\ntouched\norder 1\n1\n");
    // Past 4,095 too there is no fault 23 in a request file.
    for record in [&[0x80, 0x20][..], &[0xFF, 0xFF, 3], &[0x80, 0x80, 4], &[0xFF, 0xFF, 0x7F]] {
        let input = [&[1, 0, 2, 0], record, &[3, 0], record].concat();
        assert_eq!(desk_text(&input), "started 1\nrefused 3\nrefused 3\norder 0\n");
    }
}

#[test]
fn a_seat_past_its_limit_before_a_record_past_its_limit() {
    assert_eq!(desk_text(&[2, 32, 0x80, 2]), "refused 2\norder 0\n");
    assert_eq!(desk_text(&[2, 31, 0x80, 2]), "refused 3\norder 0\n");
    assert_eq!(desk_text(&[2, 31, 0xFF, 1]), "refused 5\norder 0\n");
}

#[test]
fn faults_after_good_requests() {
    let cases: [(&[u8], u32); 10] = [
        (&[1], 20),
        (&[1, 0x80], 20),
        (&[2, 0], 20),
        (&[2, 0, 0x80, 0x80], 20),
        (&[1, 0x80, 0], 21),
        (&[1, 0x80, 0x80, 0x80, 1], 21),
        (&[2, 0, 0x80, 0x80, 0x80], 21),
        (&[0], 22),
        (&[6, 1], 22),
        (&[255], 22),
    ];
    for (fault, number) in cases {
        let input = [&[1, 0, 2, 0, 5, 3, 0, 5][..], fault].concat();
        let expected = format!("started 1\ngranted\ntouched\nrefused {number} at 8\n");
        assert_eq!(desk_text(&input), expected);
        assert_eq!(desk_trace(&input), [1, 1, 2, 1, 5, 3, 1, 5]);
    }
}

#[test]
fn a_refused_request_does_not_end_the_file() {
    let text = desk_text(&[5, 0, 1, 0, 1, 0, 3, 0, 0, 2, 0, 0, 2, 0, 0, 4, 0, 0, 2, 0, 0]);
    let expected = [
        "refused 5",
        "started 1",
        "refused 4",
        "refused 7",
        "granted",
        "held",
        "released",
        "refused 8",
        "order 1",
        "1",
    ];
    assert_eq!(lines(&text), expected);
}

#[test]
fn a_file_of_16_384_bytes_and_one_more() {
    let mut input = [5, 0].repeat(8_192);
    assert_eq!(desk_text(&input), "refused 5\n".repeat(8_192) + "order 0\n");
    input.push(5);
    assert_eq!(desk_text(&input), "refused 26 at 0\n");
    assert_eq!(desk_trace(&input), []);
    assert_eq!(desk_text(&[0xFF; 16_385]), "refused 26 at 0\n");
}

#[test]
fn the_256th_change_is_ordered_and_the_257th_refused() {
    let expected = |changes: u32| -> String {
        (1..=changes).map(|ticket| format!("started {ticket}\nfinished\n")).collect()
    };
    assert_eq!(desk_text(&[1, 0, 5, 0].repeat(256)), expected(256) + "order 0\n");
    // Tickets to 127 take two bytes an event and the next 129 three: 127 * 4 + 129 * 6.
    let offset = 127 * 4 + 129 * 6;
    let refused = format!("refused 27 at {offset}\n");
    assert_eq!(desk_text(&[1, 0, 5, 0].repeat(257)), expected(257) + &refused);
    assert_eq!(order_text(&desk_trace(&[1, 0, 5, 0].repeat(257))), refused);
}

#[test]
fn a_finished_seat_is_in_no_wake_of_the_next() {
    // Seat 1 follows seat 0; seat 0 finishes and begins anew; its new records are not seat 1's wake.
    let input =
        [1, 0, 1, 1, 2, 0, 5, 4, 0, 5, 2, 1, 5, 5, 0, 1, 0, 2, 0, 6, 4, 0, 6, 2, 1, 6, 2, 1, 7];
    let expected = [
        "started 1",
        "started 2",
        "granted",
        "released",
        "granted",
        "finished",
        "started 3",
        "granted",
        "released",
        "wait 2",
        "granted",
        "order 3",
        "1",
        "2",
        "3",
    ];
    assert_eq!(lines(&desk_text(&input)), expected);
}

#[test]
fn the_audit_program_prints_one_line() {
    assert_eq!(audit_text(&[]), "accepted\n");
    assert_eq!(audit_text(&[1, 1, 2, 1, 5, 5, 1]), "accepted\n");
    assert_eq!(audit_text(&[1, 1, 2, 1]), "refused 20 at 2\n");
    assert_eq!(audit_text(&[1, 1, 2, 1, 0x80, 0]), "refused 21 at 2\n");
    assert_eq!(audit_text(&[1, 1, 0]), "refused 22 at 2\n");
    assert_eq!(audit_text(&[1, 1, 5, 0]), "refused 23 at 2\n");
    assert_eq!(audit_text(&[1, 1, 3, 1, 5]), "refused 40 at 2\n");
    assert_eq!(audit_text(&[1, 1, 1, 0xFF, 0xFF, 0x7F]), "refused 40 at 2\n");
    // A trace that is ordered need not be one of a desk.
    assert_eq!(order_text(&[3, 1, 5]), "order 1\n1\n");
    assert_eq!(audit_text(&[3, 1, 5]), "refused 40 at 0\n");
}

#[test]
fn the_audit_program_takes_a_trace_of_any_length() {
    let mut trace = [&[1, 1, 2, 1, 5][..], &[3, 1, 5].repeat(200_000)].concat();
    assert_eq!(audit_text(&trace), "accepted\n");
    trace.extend([3, 1, 6]);
    assert_eq!(audit_text(&trace), "refused 40 at 600005\n");
    assert_eq!(audit_text(&trace[..600_007]), "refused 20 at 600005\n");
}

#[test]
fn the_audit_program_accepts_what_the_desk_program_writes() {
    assert_eq!(audit_text(&desk_trace(&[1, 0, 5, 0].repeat(257))), "accepted\n");
    let crowd: Vec<u8> = (0..32).rev().flat_map(|seat| [1, seat, 2, seat, seat]).collect();
    assert_eq!(audit_text(&desk_trace(&crowd)), "accepted\n");
}
