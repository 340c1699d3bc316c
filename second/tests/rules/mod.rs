//! The two basic altruistic rules on the history of some changes: no tables, no seats, no wakes.

use std::collections::BTreeMap;

/// A change: whether it is live, and when each record was granted to it and released by it.
#[derive(Clone, Default)]
pub struct Change {
    pub live: bool,
    pub granted: BTreeMap<u32, usize>,
    pub released: BTreeMap<u32, usize>,
}

impl Change {
    /// Whether it had released a record before a moment.
    fn released_before(&self, record: u32, moment: usize) -> bool {
        self.released.get(&record).is_some_and(|&released| released < moment)
    }

    /// Whether it has been granted a record that the other had released before.
    pub fn in_wake_of(&self, other: &Change) -> bool {
        self.granted.iter().any(|(&record, &moment)| other.released_before(record, moment))
    }
}

/// All changes since the tables were cleared, in the order of their tickets.
#[derive(Clone, Default)]
pub struct Changes {
    pub all: Vec<Change>,
    moment: usize,
}

impl Changes {
    pub fn start(&mut self) {
        self.all.push(Change { live: true, ..Change::default() });
    }

    pub fn grant(&mut self, change: usize, record: u32) {
        self.moment += 1;
        self.all[change].granted.insert(record, self.moment);
    }

    pub fn release(&mut self, change: usize, record: u32) {
        self.moment += 1;
        self.all[change].released.insert(record, self.moment);
    }

    pub fn finish(&mut self, change: usize) {
        self.all[change].live = false;
    }

    /// Every two different changes with the first one live.
    fn pairs(&self) -> impl Iterator<Item = (&Change, &Change)> {
        let live = self.all.iter().enumerate().filter(|(_, change)| change.live);
        live.flat_map(move |(i, a)| {
            let others = self.all.iter().enumerate().filter(move |&(j, _)| j != i);
            others.map(move |(_, b)| (a, b))
        })
    }

    /// Two live changes hold a record only if one released it before the other's grant.
    fn rule_one(&self) -> bool {
        self.pairs().filter(|(_, b)| b.live).all(|(a, b)| {
            a.granted.iter().all(|(&record, &to_a)| match b.granted.get(&record) {
                None => true,
                Some(&to_b) => a.released_before(record, to_b) || b.released_before(record, to_a),
            })
        })
    }

    /// A change in the wake of a live one has had only records released before each grant.
    fn rule_two(&self) -> bool {
        self.pairs().filter(|(a, b)| b.in_wake_of(a)).all(|(a, b)| {
            b.granted.iter().all(|(&record, &moment)| a.released_before(record, moment))
        })
    }

    /// Whether both rules would hold after a grant.
    pub fn allow_grant(&self, change: usize, record: u32) -> bool {
        let mut after = self.clone();
        after.grant(change, record);
        after.rule_one() && after.rule_two()
    }
}
