//! Bounded queues for any number of threads that push and pop: first in, first out.
//!
//! [`channel::bounded`] makes a channel, as crossbeam-channel does: `send` and `recv` sleep while it is full, or empty, and its ends
//! disconnect. A [`Queue`] passes values of any type that may go to another thread, which any thread pushes and pops, and is closed.
//! These take memory as they are made, for a value above 24 bytes, and to sleep. In [`seats`] a thread has a seat of its own, by which it
//! passes numbers.
//!
//! ```
//! let (sender, receiver) = msq::channel::bounded(16);
//! sender.send("a value").unwrap();
//! assert_eq!(receiver.recv(), Ok("a value"));
//! ```
#![warn(missing_docs, missing_debug_implementations)]

use std::fmt;

pub mod channel;
mod queues;
mod raw;
pub mod seats;
mod step;
mod values;
mod waits;

pub use queues::{Missed, PushError, Queue};

/// Which queue.
#[derive(Clone, Copy, Debug, PartialEq, Eq)]
#[repr(u32)]
pub enum Kind {
    /// A thread that stops keeps no other from going on; in a [`Queue`] or a channel that holds while a seat is free.
    NonBlocking = 0,
    /// A thread that stops within a call may keep others from pushing, or from popping.
    TwoLock = 1,
    /// The fastest; a thread that stops within a push may keep others from popping. It has 32,767 seats at most, and
    /// room for just as many values as it is made for.
    Ring = 2,
}

/// A word whose count is at its limit.
#[derive(Clone, Copy, Debug, PartialEq, Eq)]
pub enum WornWord {
    /// No node is taken from the free list any more: of a push.
    Free,
    /// The node was set aside: push again, by another one.
    Next,
    /// Of the non-blocking queue: no push or shut comes any more, and no pop of the last value. Of the ring: no push.
    Tail,
    /// No pop comes any more: of the two-lock queue.
    Head,
}

/// Why a call is refused; the values in the queue are then as before.
#[derive(Clone, Copy, Debug, PartialEq, Eq)]
pub enum Refusal {
    /// A push: all nodes were in use, or the ring was full.
    NoNode,
    /// The count of this word is at its limit.
    WornOut(WornWord),
    /// Others were in the way in each of the turns, or had all seats: call again.
    Busy,
    /// No memory.
    Memory,
    /// A number is out of its range.
    BadSize,
    /// A queue or a channel was to have room for no value: there is none at which a send waits for its receive.
    ZeroCapacity,
    /// A push or a shut: the queue is shut. A pop: it is shut and empty.
    Closed,
}

// Each refusal, the code that include/msq_codes.h has for it, and what it says.
const REFUSALS: [(Refusal, u32, &str); 10] = [
    (Refusal::NoNode, 1, "all nodes were in use"),
    (Refusal::WornOut(WornWord::Free), 2, "the count of the free list is at its limit"),
    (Refusal::WornOut(WornWord::Next), 37, "the count of a node is at its limit"),
    (Refusal::WornOut(WornWord::Tail), 38, "the count of the tail is at its limit"),
    (Refusal::WornOut(WornWord::Head), 39, "the count of the head is at its limit"),
    (Refusal::Busy, 3, "others were in the way"),
    (Refusal::Memory, 4, "no memory"),
    (Refusal::BadSize, 5, "a number is out of its range"),
    (Refusal::ZeroCapacity, 5, "there is no queue without room: no send waits for its receive"),
    (Refusal::Closed, 16, "the queue is shut"),
];

impl fmt::Display for Refusal {
    fn fmt(&self, f: &mut fmt::Formatter<'_>) -> fmt::Result {
        let found = REFUSALS.iter().find(|it| it.0 == *self);
        f.write_str(found.map_or("", |it| it.2))
    }
}

impl std::error::Error for Refusal {}

// The answer of a code. No other code comes: each seat is full, and does what its role lets it.
fn answer(code: u32) -> Result<(), Refusal> {
    if code == raw::OK {
        return Ok(());
    }
    let found = REFUSALS.iter().find(|it| it.1 == code);
    Err(found.unwrap_or_else(|| unreachable!("libmsq answered {code}")).0)
}
