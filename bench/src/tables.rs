//! The rules that read and write the tables, by hand, for both ways of keeping the desk record.

use crate::desk::{Answer, Refusal, Seat};

/// Tables are equal in length, not empty and not over 4,096.
pub fn fit(held: &[u32], released: &[u32]) -> bool {
    held.len() == released.len() && (1..=4_096).contains(&held.len())
}

fn has(word: u32, s: u32) -> bool {
    word >> s & 1 == 1
}

/// LOCK by seat s; the seat changes with its first lock.
pub fn lock(held: &mut [u32], released: &[u32], seat: &mut Seat, s: u32, record: u32) -> Answer {
    let (Some(h), Some(&r)) = (held.get_mut(record as usize), released.get(record as usize)) else {
        return Answer::Refused(Refusal::NoRecord);
    };
    if !seat.live {
        return Answer::Refused(Refusal::SeatFree);
    }
    if has(*h, s) {
        return if has(r, s) { Answer::Refused(Refusal::GivenUp) } else { Answer::Held };
    }
    if *h & !r != 0 {
        return Answer::WaitHeld;
    }
    if seat.locked && seat.wake != r {
        return Answer::WaitWake;
    }
    *h |= 1 << s;
    if !seat.locked {
        seat.wake = r;
        seat.locked = true;
    }
    Answer::Granted
}

/// TOUCH by seat s.
pub fn touch(held: &[u32], released: &[u32], live: bool, s: u32, record: u32) -> Answer {
    let (Some(&h), Some(&r)) = (held.get(record as usize), released.get(record as usize)) else {
        return Answer::Refused(Refusal::NoRecord);
    };
    may_work(h, r, live, s).map_or_else(Answer::Refused, |()| Answer::Touched)
}

/// RELEASE by seat s.
pub fn release(held: &[u32], released: &mut [u32], live: bool, s: u32, record: u32) -> Answer {
    let (Some(&h), Some(r)) = (held.get(record as usize), released.get_mut(record as usize)) else {
        return Answer::Refused(Refusal::NoRecord);
    };
    if let Err(why) = may_work(h, *r, live, s) {
        return Answer::Refused(why);
    }
    *r |= 1 << s;
    Answer::Released
}

fn may_work(h: u32, r: u32, live: bool, s: u32) -> Result<(), Refusal> {
    if !live {
        Err(Refusal::SeatFree)
    } else if !has(h, s) {
        Err(Refusal::NotHeld)
    } else if has(r, s) {
        Err(Refusal::GivenUp)
    } else {
        Ok(())
    }
}

/// Clears seat s's bit in every word, and stores every word, also those without the bit, which the proved pass leaves alone:
/// beside it the rows of FINISH show what that costs or saves.
pub fn leave(table: &mut [u32], s: u32) {
    for word in table {
        *word &= !(1 << s);
    }
}
