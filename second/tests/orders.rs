//! The order call: printed orders, table bits, refusals 25 to 28 and what they leave behind.

use second::order::order;
use second::{order_text, RefusalAt};

type Outcome = Result<usize, RefusalAt>;

/// The order call on a table and list that were full of ones.
fn call(trace: &[u8]) -> (Outcome, Vec<u32>, Vec<u16>) {
    let mut table = vec![u32::MAX; 2_048];
    let mut places = vec![u16::MAX; 256];
    let outcome = order(trace, &mut table, &mut places);
    (outcome, table, places)
}

/// A refusal that must leave table and list as they were.
fn untouched(trace: &[u8]) -> (u32, usize) {
    let (outcome, table, places) = call(trace);
    assert!(table.iter().all(|&word| word == u32::MAX));
    assert!(places.iter().all(|&place| place == u16::MAX));
    let refusal = outcome.unwrap_err();
    (refusal.number, refusal.offset)
}

fn bits(table: &[u32]) -> Vec<(u32, u32)> {
    let mut pairs = Vec::new();
    for i in 1..=256u32 {
        for j in 1..=256u32 {
            let word = table[(8 * (i - 1) + (j - 1) / 32) as usize];
            if (word >> ((j - 1) % 32)) & 1 == 1 {
                pairs.push((i, j));
            }
        }
    }
    pairs
}

#[test]
fn printed_orders() {
    assert_eq!(order_text(&[]), "order 0\n");
    assert_eq!(order_text(&[3, 2, 5, 3, 1, 5]), "order 2\n2\n1\n");
    assert_eq!(order_text(&[3, 1, 5, 3, 2, 5, 3, 2, 6, 3, 1, 6]), "refused 28 at 0\n");
}

#[test]
fn table_and_list_of_an_order() {
    let (outcome, table, places) = call(&[3, 2, 5, 3, 1, 5]);
    assert_eq!(outcome, Ok(2));
    assert_eq!(bits(&table), [(2, 1)]);
    assert_eq!(table[8], 1);
    assert_eq!(places[..3], [2, 1, 0]);
    assert!(places[2..].iter().all(|&place| place == 0));
}

#[test]
fn a_ring_leaves_the_pairs_and_an_empty_list() {
    let (outcome, table, places) = call(&[3, 1, 5, 3, 2, 5, 3, 2, 6, 3, 1, 6]);
    assert_eq!(outcome, Err(RefusalAt { number: 28, offset: 0 }));
    assert_eq!(bits(&table), [(1, 2), (2, 1)]);
    assert!(places.iter().all(|&place| place == 0));
}

#[test]
fn a_ring_in_one_record_and_a_ring_of_three() {
    assert_eq!(order_text(&[3, 1, 5, 3, 2, 5, 3, 1, 5]), "refused 28 at 0\n");
    let three = [3, 1, 1, 3, 2, 1, 3, 2, 2, 3, 3, 2, 3, 3, 3, 3, 1, 3];
    assert_eq!(order_text(&three), "refused 28 at 0\n");
    assert_eq!(order_text(&three[..15]), "order 3\n1\n2\n3\n");
}

#[test]
fn a_change_that_only_locked_is_listed() {
    assert_eq!(order_text(&[2, 9, 5]), "order 1\n9\n");
    assert_eq!(order_text(&[1, 9, 2, 9, 5, 4, 9, 5, 5, 9]), "order 1\n9\n");
    // Ticket 2 kept the record still, and 1 touched it afterwards.
    let (outcome, table, places) = call(&[2, 2, 5, 5, 2, 2, 1, 5, 3, 1, 5]);
    assert_eq!(outcome, Ok(2));
    assert_eq!(bits(&table), [(2, 1)]);
    assert_eq!(places[..3], [2, 1, 0]);
}

#[test]
fn started_released_and_finished_count_for_nothing() {
    let others = [1, 9, 4, 9, 5, 5, 9];
    assert_eq!(order_text(&others), "order 0\n");
    // Between the grants of two changes they give no befores either, whatever record is released.
    let (outcome, table, _) = call(&[1, 2, 4, 2, 7, 2, 1, 7, 4, 1, 5, 2, 2, 5, 5, 1, 4, 2, 7]);
    assert_eq!(outcome, Ok(2));
    assert_eq!(bits(&table), []);
}

#[test]
fn a_grant_and_a_touch_give_a_before_either_way() {
    for (first, second) in [(2, 2), (2, 3), (3, 2), (3, 3)] {
        let (outcome, table, places) = call(&[first, 2, 5, second, 1, 5]);
        assert_eq!(outcome, Ok(2));
        assert_eq!(bits(&table), [(2, 1)]);
        assert_eq!(places[..3], [2, 1, 0]);
        // Of different records they give none.
        assert_eq!(bits(&call(&[first, 2, 5, second, 1, 6]).1), []);
    }
}

#[test]
fn a_ring_of_grants_alone_and_rings_of_grants_and_touches() {
    // The printed ring, with each of its four touches a touch or a grant.
    for kinds in 0..16u8 {
        let kind = |place: u8| 2 + (kinds >> place & 1);
        let trace = [kind(0), 1, 5, kind(1), 2, 5, kind(2), 2, 6, kind(3), 1, 6];
        let (outcome, table, places) = call(&trace);
        assert_eq!(outcome, Err(RefusalAt { number: 28, offset: 0 }));
        assert_eq!(bits(&table), [(1, 2), (2, 1)]);
        assert!(places.iter().all(|&place| place == 0));
    }
    // A grant between two touches, and a touch between two grants.
    assert_eq!(order_text(&[3, 1, 5, 2, 2, 5, 3, 1, 5]), "refused 28 at 0\n");
    assert_eq!(order_text(&[2, 1, 5, 3, 2, 5, 2, 1, 5]), "refused 28 at 0\n");
    // A release in place of the grant leaves the ring open.
    assert_eq!(order_text(&[3, 1, 5, 4, 2, 5, 3, 1, 5]), "order 1\n1\n");
}

#[test]
fn one_change_alone_is_no_before() {
    for kinds in [[2, 2], [2, 3], [3, 2], [3, 3]] {
        let (outcome, table, _) = call(&[kinds[0], 4, 5, kinds[1], 4, 5]);
        assert_eq!(outcome, Ok(1));
        assert_eq!(bits(&table), []);
    }
}

#[test]
fn at_each_place_the_lowest_that_may_stand() {
    // 3 comes before 1; 2 stands alone; so 2, 3, 1.
    assert_eq!(order_text(&[3, 3, 5, 3, 1, 5, 3, 2, 9]), "order 3\n2\n3\n1\n");
}

#[test]
fn the_highest_tickets_in_the_table() {
    // 256 is 80 02 and 255 is FF 01.
    let (outcome, table, places) = call(&[3, 0x80, 2, 5, 3, 0xFF, 1, 5]);
    assert_eq!(outcome, Ok(2));
    assert_eq!(bits(&table), [(256, 255)]);
    assert_eq!(table[2_047], 1 << 30);
    assert_eq!(places[..3], [256, 255, 0]);
}

#[test]
fn ticket_257_in_any_event_that_reads() {
    for event in
        [&[1, 0x81, 2][..], &[2, 0x81, 2, 0], &[3, 0x81, 2, 0], &[4, 0x81, 2, 0], &[5, 0x81, 2]]
    {
        let trace = [&[3, 1, 5][..], event, &[0]].concat();
        assert_eq!(untouched(&trace), (27, 3));
    }
    for highest in [[0xFF, 0xFF, 3], [0x80, 0x80, 4], [0xFF, 0xFF, 0x7F]] {
        assert_eq!(untouched(&[&[3, 1, 5, 1], &highest[..]].concat()), (27, 3));
        assert_eq!(untouched(&[&[3, 1, 5, 3], &highest[..], &[5]].concat()), (27, 3));
    }
    // The event must read: a fault in its record comes first.
    assert_eq!(untouched(&[3, 0x81, 2]), (20, 0));
    assert_eq!(untouched(&[3, 0x81, 2, 0x80, 0]), (21, 0));
    assert_eq!(untouched(&[3, 0x81, 2, 0x80, 0x20]), (23, 0));
    assert_eq!(untouched(&[3, 0x80, 0x80, 4, 0x80, 0x80, 4]), (23, 0));
}

#[test]
fn the_earliest_faulty_event_decides() {
    let ring = [3, 1, 5, 3, 2, 5, 3, 1, 5];
    let with = |more: &[u8]| [&ring[..], more].concat();
    assert_eq!(untouched(&with(&[3, 1])), (20, 9));
    assert_eq!(untouched(&with(&[3, 0x80, 0])), (21, 9));
    assert_eq!(untouched(&with(&[6])), (22, 9));
    assert_eq!(untouched(&with(&[1, 0])), (23, 9));
    assert_eq!(untouched(&with(&[1, 0x81, 2, 6])), (27, 9));
    assert_eq!(untouched(&with(&[6, 1, 0x81, 2])), (22, 9));
}

#[test]
fn wrong_lengths_before_all_else() {
    let long = vec![0; 65_537];
    for (words, count) in [(2_047, 256), (2_049, 256), (2_048, 255), (2_048, 257), (0, 0)] {
        for trace in [&[][..], &[6], &long] {
            let mut table = vec![5; words];
            let mut places = vec![5; count];
            let outcome = order(trace, &mut table, &mut places);
            assert_eq!(outcome, Err(RefusalAt { number: 25, offset: 0 }));
            assert_eq!((table, places), (vec![5; words], vec![5; count]));
        }
    }
    assert_eq!(untouched(&long), (26, 0));
}

#[test]
fn a_trace_of_65_536_bytes_and_one_more() {
    let mut trace = [1, 1].repeat(32_768);
    assert_eq!(order_text(&trace), "order 0\n");
    trace.push(1);
    assert_eq!(untouched(&trace), (26, 0));
    assert_eq!(order_text(&trace), "refused 26 at 0\n");
}

#[test]
fn all_256_changes_backwards() {
    let trace: Vec<u8> = (1..=256)
        .rev()
        .flat_map(|ticket| {
            let mut event = vec![3];
            event.extend(second::number::write_number(ticket));
            event.push(0);
            event
        })
        .collect();
    let expected: String = (1..=256).rev().map(|ticket| format!("{ticket}\n")).collect();
    assert_eq!(order_text(&trace), format!("order 256\n{expected}"));
}
