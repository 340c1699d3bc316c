//! Slices of wrong length through the raw calls: refused by number, and nothing lent is changed.

use saltlicker::names::*;
use saltlicker::raw;

fn codes(answer: u64, number: u32) {
    assert_eq!((code(answer), value(answer)), (number, 0));
}

/// Whether nothing lent is changed, all words having been 7.
fn untouched(slices: &[&[u32]]) -> bool {
    slices.iter().all(|slice| slice.iter().all(|&word| word == 7))
}

#[test]
fn clear_wants_a_desk_of_its_length() {
    for words in [0, 1, DESK_WORDS - 1, DESK_WORDS + 1] {
        let (mut held, mut released, mut desk) = (vec![7; 4], vec![7; 4], vec![7; words]);
        codes(raw::clear(&mut held, &mut released, &mut desk), WRONG_LENGTH);
        assert!(untouched(&[&held, &released, &desk]));
    }
}

#[test]
fn clear_wants_equal_tables() {
    for (n, m) in [(0, 0), (1, 0), (0, 1), (3, 4), (4096, 4095), (4097, 4097)] {
        let (mut held, mut released, mut desk) = (vec![7; n], vec![7; m], [7; DESK_WORDS]);
        codes(raw::clear(&mut held, &mut released, &mut desk), 1);
        assert!(untouched(&[&held, &released]));
        assert_eq!(desk, [0; DESK_WORDS]);
    }
    for n in [1, 4096] {
        let (mut held, mut released, mut desk) = (vec![7; n], vec![7; n], [7; DESK_WORDS]);
        codes(raw::clear(&mut held, &mut released, &mut desk), CLEARED);
        assert!(held.iter().chain(&released).chain(&desk).all(|&word| word == 0));
    }
}

#[test]
fn judge_wants_three_words_to_an_answer() {
    for (desk_words, request_words, count) in [
        (DESK_WORDS, 1, 0),
        (DESK_WORDS, 0, 1),
        (DESK_WORDS, 2, 1),
        (DESK_WORDS, 4, 1),
        (DESK_WORDS, 3, 2),
        (DESK_WORDS, 6, 1),
        (DESK_WORDS - 1, 3, 1),
        (DESK_WORDS + 1, 3, 1),
        (0, 0, 0),
    ] {
        let (mut held, mut released, mut desk) = (vec![7; 4], vec![7; 4], vec![7; desk_words]);
        let (requests, mut answers) = (vec![1; request_words], vec![7; count]);
        let answer = raw::judge(&mut held, &mut released, &mut desk, &requests, &mut answers);
        codes(answer, WRONG_LENGTH);
        assert!(untouched(&[&held, &released, &desk]));
        assert!(answers.iter().all(|&answer| answer == 7));
    }
}

#[test]
fn judge_refuses_each_request_where_the_tables_are_wrong() {
    for (n, m) in [(0, 0), (0, 1), (3, 4), (4097, 4097)] {
        let (mut held, mut released, mut desk) = (vec![7; n], vec![7; m], [7; DESK_WORDS]);
        let mut answers = [7; 2];
        let requests = [BEGIN, 0, 0, LOCK, 40, 0];
        codes(raw::judge(&mut held, &mut released, &mut desk, &requests, &mut answers), JUDGED);
        answers.iter().for_each(|&answer| codes(answer, 1));
        assert!(untouched(&[&held, &released, &desk]));
    }
}

#[test]
fn judge_serves_no_requests_and_refuses_unknown_kinds() {
    let (mut held, mut released, mut desk) = (vec![7; 4], vec![7; 4], [7; DESK_WORDS]);
    codes(raw::judge(&mut held, &mut released, &mut desk, &[], &mut []), JUDGED);
    let mut answers = [7; 3];
    let requests = [0, 0, 0, 6, 0, 0, u32::MAX, 0, 0];
    codes(raw::judge(&mut held, &mut released, &mut desk, &requests, &mut answers), JUDGED);
    answers.iter().for_each(|&answer| codes(answer, UNKNOWN_KIND));
    assert!(untouched(&[&held, &released, &desk]));
}

#[test]
fn read_wants_three_words_for_the_event() {
    for words in [0, 2, 4] {
        let mut event = vec![7; words];
        codes(raw::read(&[1, 1], &mut event), WRONG_LENGTH);
        assert!(untouched(&[&event]));
    }
}

#[test]
fn order_wants_table_and_list_of_their_lengths() {
    for (words, places) in [(0, 256), (2047, 256), (2049, 256), (2048, 0), (2048, 255), (2048, 257)]
    {
        let (mut table, mut list) = (vec![7; words], vec![7; places]);
        codes(raw::order(&[3, 1, 5], &mut table, &mut list), 25);
        assert!(untouched(&[&table]) && list.iter().all(|&place| place == 7));
    }
}

#[test]
fn audit_wants_one_word_for_the_offset() {
    for words in [0, 2, 3] {
        for (n, m) in [(RECORDS, RECORDS), (4, 5)] {
            let (mut held, mut released, mut at) = (vec![7; n], vec![7; m], vec![7; words]);
            codes(raw::audit(&[1, 2], &mut held, &mut released, &mut at), WRONG_LENGTH);
            assert!(untouched(&[&held, &released]) && at.iter().all(|&word| word == 7));
        }
    }
}

#[test]
fn audit_wants_tables_for_every_record() {
    for (n, m) in [(0, 0), (4, 4), (4095, 4096), (4096, 4095), (4097, 4096), (4096, 4097)] {
        let (mut held, mut released, mut at) = (vec![7; n], vec![7; m], [7]);
        codes(raw::audit(&[1, 1, 9], &mut held, &mut released, &mut at), 1);
        assert!(untouched(&[&held, &released]));
        assert_eq!(at, [0]);
    }
}

#[test]
fn texts_take_what_fits() {
    let whole = b"order 0\n";
    for room in 0..12 {
        let mut out = vec![7; room];
        let length = raw::order_text(&[], &mut out);
        assert_eq!(length, room.min(whole.len()));
        assert_eq!(out[..length], whole[..length]);
        assert!(out[length..].iter().all(|&byte| byte == 7));
        assert_eq!(raw::desk_text(&[], &mut out), length);
        let accepted = b"accepted\n";
        let length = raw::audit_text(&[], &mut out);
        assert_eq!(length, room.min(accepted.len()));
        assert_eq!(out[..length], accepted[..length]);
    }
}
