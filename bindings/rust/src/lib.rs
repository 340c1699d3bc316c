//! Saltlicker's proved lock desk: ask a [`Desk`], keep the events of its replies as a trace, work out its [`order`]; [`audit`]
//! a trace that another desk wrote.
//!
//! The viaduct: a sweep at seat 0 passes the deck (record 5); an editor who takes the deck in its wake must wait for the lower
//! road (record 6) until the sweep has passed that too.
//!
//! ```
//! use saltlicker::Request::{Begin, Finish, Lock, Release, Touch};
//! use saltlicker::{append_event, order, Answer, Desk};
//!
//! let (sweep, editor, deck, road) = (0, 1, 5, 6);
//! let mut desk = Desk::new(256)?;
//! let mut trace = Vec::new();
//! let mut ask = |request| {
//!     let reply = desk.ask(request);
//!     if let Some(event) = reply.event {
//!         append_event(&mut trace, event).expect("the events of a cleared desk can be written");
//!     }
//!     reply.answer
//! };
//!
//! assert_eq!(ask(Begin { seat: sweep }), Answer::Started { ticket: 1 });
//! assert_eq!(ask(Lock { seat: sweep, record: deck }), Answer::Granted);
//! assert_eq!(ask(Touch { seat: sweep, record: deck }), Answer::Touched);
//! assert_eq!(ask(Release { seat: sweep, record: deck }), Answer::Released);
//!
//! assert_eq!(ask(Begin { seat: editor }), Answer::Started { ticket: 2 });
//! assert_eq!(ask(Lock { seat: editor, record: deck }), Answer::Granted);
//! assert_eq!(ask(Touch { seat: editor, record: deck }), Answer::Touched);
//! assert_eq!(ask(Lock { seat: editor, record: road }), Answer::Wait(2));
//!
//! assert_eq!(ask(Lock { seat: sweep, record: road }), Answer::Granted);
//! assert_eq!(ask(Touch { seat: sweep, record: road }), Answer::Touched);
//! assert_eq!(ask(Release { seat: sweep, record: road }), Answer::Released);
//!
//! assert_eq!(ask(Lock { seat: editor, record: road }), Answer::Granted);
//! assert_eq!(ask(Touch { seat: editor, record: road }), Answer::Touched);
//! assert_eq!(ask(Finish { seat: editor }), Answer::Finished);
//! assert_eq!(ask(Finish { seat: sweep }), Answer::Finished);
//! assert_eq!(order(&trace)?, [1, 2]);
//! # Ok::<_, Box<dyn std::error::Error>>(())
//! ```

mod audit;
mod desk;
pub mod names;
mod order;
pub mod raw;
mod refusal;
mod request;
mod text;
mod trace;

pub use audit::{audit, audit_and_tables, Tables};
pub use desk::{Desk, Reply};
pub use order::{order, order_and_befores, Befores};
pub use refusal::{Fault, Refusal};
pub use request::{Answer, Request};
pub use text::{audit_text, desk_text, order_text};
pub use trace::{append_event, events, read_event, write_event, Event, Events};
