//! The order: lists, the table of befores, and refusals 20 to 28 with their offsets.

use saltlicker::names::{LIST_PLACES, TABLE_WORDS};
use saltlicker::Request::{Begin, Finish, Lock, Touch};
use saltlicker::{append_event, order, order_and_befores, order_text, raw, Desk, Fault, Refusal};

const RING: [u8; 12] = [3, 1, 5, 3, 2, 5, 3, 2, 6, 3, 1, 6];

fn fault(number: u32, offset: usize) -> Fault {
    Fault { refusal: Refusal(number), offset }
}

#[test]
fn lists_go_by_befores_then_by_ticket() {
    assert_eq!(order(&[]).unwrap(), []);
    assert_eq!(order(&[1, 1, 4, 1, 5, 5, 1]).unwrap(), []);
    assert_eq!(order(&[1, 1, 2, 1, 5, 5, 1]).unwrap(), [1]);
    assert_eq!(order(&[3, 2, 5, 3, 1, 5]).unwrap(), [2, 1]);
    assert_eq!(order(&[3, 2, 5, 3, 1, 6]).unwrap(), [1, 2]);
    assert_eq!(order(&[3, 0x80, 2, 0, 3, 1, 0]).unwrap(), [256, 1]);
    assert_eq!(order_text(&[3, 2, 5, 3, 1, 5]), "order 2\n2\n1\n");
}

#[test]
fn the_table_has_the_pairs() {
    let (list, befores) = order_and_befores(&[3, 0x80, 2, 0, 3, 1, 0]);
    assert!(list.is_ok());
    assert!(befores.before(256, 1) && !befores.before(1, 256));
    assert_eq!(befores.words().iter().map(|word| word.count_ones()).sum::<u32>(), 1);
    assert_eq!(befores.words()[8 * 255], 1);
    for odd in [0, 257, u16::MAX] {
        assert!(!befores.before(odd, 1) && !befores.before(256, odd));
    }
}

/// A surveyor at seat 1 keeps the lower road still; an editor at seat 0 works on it afterwards.
fn surveyed() -> Vec<u8> {
    let (editor, surveyor, road) = (0, 1, 6);
    let replies = Desk::new(256).unwrap().ask_all(&[
        Begin { seat: editor },
        Begin { seat: surveyor },
        Lock { seat: surveyor, record: road },
        Finish { seat: surveyor },
        Lock { seat: editor, record: road },
        Touch { seat: editor, record: road },
        Finish { seat: editor },
    ]);
    let mut trace = Vec::new();
    for event in replies.into_iter().filter_map(|reply| reply.event) {
        append_event(&mut trace, event).unwrap();
    }
    trace
}

#[test]
fn a_change_that_only_locked_is_listed() {
    let (list, befores) = order_and_befores(&surveyed());
    assert_eq!(list.unwrap(), [2, 1]);
    assert!(befores.before(2, 1) && !befores.before(1, 2));
    assert_eq!(order_text(&surveyed()), "order 2\n2\n1\n");
}

#[test]
fn grants_close_a_ring() {
    let grants = [2, 1, 5, 2, 2, 5, 2, 2, 6, 2, 1, 6];
    let (list, befores) = order_and_befores(&grants);
    assert_eq!(list, Err(fault(28, 0)));
    assert!(befores.before(1, 2) && befores.before(2, 1));
    // A grant between two touches closes one too.
    assert_eq!(order(&[3, 1, 5, 2, 2, 5, 3, 1, 5]), Err(fault(28, 0)));
}

#[test]
fn a_ring_leaves_its_pairs_and_no_list() {
    let (list, befores) = order_and_befores(&RING);
    assert_eq!(list, Err(fault(28, 0)));
    assert!(befores.before(1, 2) && befores.before(2, 1) && !befores.before(1, 1));
    let (mut table, mut places) = ([7; TABLE_WORDS], [7; LIST_PLACES]);
    raw::order(&RING, &mut table, &mut places);
    assert_eq!((table[0], table[8], places), (0b10, 0b01, [0; LIST_PLACES]));
    assert_eq!(order_text(&RING), "refused 28 at 0\n");
}

#[test]
fn the_list_ends_in_zeros() {
    let (mut table, mut places) = ([7; TABLE_WORDS], [7; LIST_PLACES]);
    raw::order(&[3, 2, 5, 3, 1, 5], &mut table, &mut places);
    assert_eq!(places[..3], [2, 1, 0]);
    assert!(places[2..].iter().all(|&place| place == 0));
    assert_eq!(table.iter().map(|word| word.count_ones()).sum::<u32>(), 1);
}

#[test]
fn the_earliest_faulty_event_decides() {
    assert_eq!(order(&[3, 1, 5, 3]), Err(fault(20, 3)));
    assert_eq!(order(&[3, 1, 5, 1, 0x80, 0]), Err(fault(21, 3)));
    assert_eq!(order(&[3, 1, 5, 9]), Err(fault(22, 3)));
    assert_eq!(order(&[1, 0, 9]), Err(fault(23, 0)));
    assert_eq!(order(&[1, 1, 1, 0x81, 2, 9]), Err(fault(27, 2)));
    let ring_then_fault = [&RING[..], &[9]].concat();
    assert_eq!(order(&ring_then_fault), Err(fault(22, 12)));
    assert_eq!(order_text(&[3, 1, 5, 3]), "refused 20 at 3\n");
}

#[test]
fn a_refusal_leaves_table_and_list() {
    for trace in [vec![3, 1, 5, 3, 2, 5, 9], vec![1; 65_538]] {
        let (mut table, mut places) = ([7; TABLE_WORDS], [7; LIST_PLACES]);
        raw::order(&trace, &mut table, &mut places);
        assert_eq!((table, places), ([7; TABLE_WORDS], [7; LIST_PLACES]));
    }
}

#[test]
fn the_longest_trace_has_an_order_and_no_longer_one() {
    let longest = [1, 1].repeat(32_768);
    assert_eq!(order(&longest).unwrap(), []);
    assert_eq!(order(&[&longest[..], &[1, 1]].concat()), Err(fault(26, 0)));
    assert_eq!(fault(26, 0).to_string(), "refused 26 at 0: trace over 65,536 bytes");
}
