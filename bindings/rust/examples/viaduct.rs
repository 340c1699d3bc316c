//! The viaduct, request by request: prints what the desk program prints of it.

use saltlicker::Request::{Begin, Finish, Lock, Release, Touch};
use saltlicker::{append_event, order, Desk};

const SWEEP: u32 = 0;
const EDITOR: u32 = 1;
const DECK: u32 = 5;
const ROAD: u32 = 6;

fn main() -> Result<(), Box<dyn std::error::Error>> {
    let mut desk = Desk::new(256)?;
    let mut trace = Vec::new();
    let requests = [
        Begin { seat: SWEEP },
        Lock { seat: SWEEP, record: DECK },
        Touch { seat: SWEEP, record: DECK },
        Release { seat: SWEEP, record: DECK },
        Begin { seat: EDITOR },
        Lock { seat: EDITOR, record: DECK },
        Touch { seat: EDITOR, record: DECK },
        Lock { seat: EDITOR, record: ROAD },
        Lock { seat: SWEEP, record: ROAD },
        Touch { seat: SWEEP, record: ROAD },
        Release { seat: SWEEP, record: ROAD },
        Lock { seat: EDITOR, record: ROAD },
        Touch { seat: EDITOR, record: ROAD },
        Finish { seat: EDITOR },
        Finish { seat: SWEEP },
    ];
    for request in requests {
        let reply = desk.ask(request);
        println!("{}", reply.answer);
        if let Some(event) = reply.event {
            append_event(&mut trace, event)?;
        }
    }
    let tickets = order(&trace)?;
    println!("order {}", tickets.len());
    for ticket in tickets {
        println!("{ticket}");
    }
    Ok(())
}
