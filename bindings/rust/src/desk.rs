//! The desk: two tables and a record of seats, asked one request or many at a time.

use crate::names::{code, CLEARED, DESK_WORDS, RECORDS, SEATS};
use crate::{raw, Answer, Event, Refusal, Request};

/// A desk with tables of its own. Whatever words it is made of, a request is answered, or refused by number.
#[derive(Clone, Debug, PartialEq, Eq)]
pub struct Desk {
    held: Vec<u32>,
    released: Vec<u32>,
    words: [u32; DESK_WORDS],
}

/// What the desk says to a request, and the event to put in the trace for it.
#[must_use]
#[derive(Clone, Copy, Debug, PartialEq, Eq)]
pub struct Reply {
    pub answer: Answer,
    pub event: Option<Event>,
}

impl Desk {
    /// A cleared desk for records 0 to `records` - 1; refused 1 unless there are 1 to 4,096.
    pub fn new(records: usize) -> Result<Desk, Refusal> {
        // One word over the limit is refused as any more are, and can always be had.
        let n = records.min(RECORDS + 1);
        let mut desk = Desk::from_parts(vec![0; n], vec![0; n], [0; DESK_WORDS]);
        match code(raw::clear(&mut desk.held, &mut desk.released, &mut desk.words)) {
            CLEARED => Ok(desk),
            number => Err(Refusal(number)),
        }
    }

    /// A desk of stored parts, taken as they stand. The demands hold if they are the latest parts of one desk.
    pub fn from_parts(held: Vec<u32>, released: Vec<u32>, words: [u32; DESK_WORDS]) -> Desk {
        Desk { held, released, words }
    }

    /// The parts to store: held, released and the desk words.
    pub fn into_parts(self) -> (Vec<u32>, Vec<u32>, [u32; DESK_WORDS]) {
        (self.held, self.released, self.words)
    }

    /// Word a belongs to record a; bit s is set if seat s holds it.
    pub fn held(&self) -> &[u32] {
        &self.held
    }

    /// Word a belongs to record a; bit s is set if seat s has released it.
    pub fn released(&self) -> &[u32] {
        &self.released
    }

    /// The seats and the number begun, laid out as `SALTLICKER_DESK_WORDS` in the header says.
    pub fn words(&self) -> &[u32; DESK_WORDS] {
        &self.words
    }

    /// Judges one request.
    pub fn ask(&mut self, request: Request) -> Reply {
        let mut tickets = self.tickets();
        let mut answers = [0];
        self.judge(&request.words(), &mut answers);
        reply(&mut tickets, request, answers[0])
    }

    /// Judges requests one after the other in one call, each on what the one before left.
    pub fn ask_all(&mut self, requests: &[Request]) -> Vec<Reply> {
        let mut tickets = self.tickets();
        let words: Vec<u32> = requests.iter().flat_map(|request| request.words()).collect();
        let mut answers = vec![0; requests.len()];
        self.judge(&words, &mut answers);
        let asked = requests.iter().zip(answers);
        asked.map(|(&request, answer)| reply(&mut tickets, request, answer)).collect()
    }

    fn judge(&mut self, requests: &[u32], answers: &mut [u64]) {
        raw::judge(&mut self.held, &mut self.released, &mut self.words, requests, answers);
    }

    fn tickets(&self) -> [u32; SEATS] {
        std::array::from_fn(|seat| self.words[2 * seat])
    }
}

fn reply(tickets: &mut [u32; SEATS], request: Request, answer: u64) -> Reply {
    let answer = Answer::of(answer);
    let own = tickets.get_mut(request.seat() as usize);
    Reply { answer, event: own.and_then(|own| event(request, answer, own)) }
}

fn event(request: Request, answer: Answer, own: &mut u32) -> Option<Event> {
    // The seat's ticket is the one from before the request, since FINISH takes it away; a BEGIN's is in its answer.
    if let Answer::Started { ticket } = answer {
        *own = ticket;
    }
    let ticket = *own;
    match (answer, request) {
        (Answer::Started { .. }, _) => Some(Event::Started { ticket }),
        (Answer::Granted, Request::Lock { record, .. }) => Some(Event::Granted { ticket, record }),
        (Answer::Touched, Request::Touch { record, .. }) => Some(Event::Touched { ticket, record }),
        (Answer::Released, Request::Release { record, .. }) => {
            Some(Event::Released { ticket, record })
        }
        (Answer::Finished, _) => Some(Event::Finished { ticket }),
        _ => None,
    }
}
