//! For experts: seats of a thread's own, by which it passes numbers below 2^48: a [`Giver`] pushes, a [`Taker`] pops. None of their calls
//! waits, and the last of them that goes doesn't end the queue: [`Giver::try_shut`] does. Memory is taken where a queue is made.
//!
//! ```
//! use msq::{seats, Refusal};
//! let (mut givers, mut takers) = seats::queue(msq::Kind::NonBlocking, 64, 1, 1).unwrap();
//! let (giver, taker) = (&mut givers[0], &mut takers[0]);
//! giver.try_push(42, 8).unwrap();
//! assert_eq!(giver.try_push(1 << 48, 8), Err(Refusal::BadSize));
//! assert_eq!(taker.try_pop(8), Ok(Some(seats::Value { body: 42, from: 1 })));
//! assert_eq!(taker.try_pop(8), Ok(None));
//! giver.try_shut(8).unwrap();
//! assert_eq!(giver.try_push(42, 8), Err(Refusal::Closed));
//! assert_eq!(taker.try_pop(8), Err(Refusal::Closed));
//! ```
use crate::{answer, raw, Kind, Refusal};

/// A number that was popped, and that of the seat that pushed it, from 1 on: givers first.
#[derive(Clone, Copy, Debug, Default, PartialEq, Eq)]
#[repr(C)]
pub struct Value {
    /// The number.
    pub body: u64,
    /// Who pushed it.
    pub from: u16,
}

/// A seat that pushes: one thread's at a time, which may give it to another.
#[derive(Debug)]
pub struct Giver(raw::Seat);

/// A seat that pops, in the same way.
#[derive(Debug)]
pub struct Taker(raw::Seat);

/// The seats of a queue: those that push, and those that pop.
pub type Seats = (Vec<Giver>, Vec<Taker>);

/// A queue with so many nodes, from 2 on, and so many seats that push and that pop. There is room for one value less than
/// there are nodes, less a node that each seat may keep; of a ring for as many values as nodes at least. The fewer nodes, the
/// longer it lasts: see docs/QUEUES.md.
pub fn queue(kind: Kind, nodes: u32, givers: u16, takers: u16) -> Result<Seats, Refusal> {
    queue_with_limit(kind, nodes, raw::MOST_COUNT, givers, takers)
}

/// As [`queue`], with a limit of its counts, from 1 to 2^62 - 1: for tests, as a smaller one only wears out sooner. One above the
/// greatest count that so many nodes leave room for is lowered to that. At an even limit a worn queue may be refused `NoNode`
/// for good.
pub fn queue_with_limit(kind: Kind, nodes: u32, limit: u64, givers: u16, takers: u16) -> Result<Seats, Refusal> {
    let givers = usize::from(givers);
    let mut roles = vec![raw::GIVER; givers];
    roles.resize(givers + usize::from(takers), raw::TAKER);
    let mut made = raw::seats(kind, nodes, limit, &roles)?.into_iter();
    let givers = made.by_ref().take(givers).map(Giver).collect();
    Ok((givers, made.map(Taker).collect()))
}

impl Giver {
    /// Pushes a number, in so many turns at most, 1 or more. `BadSize` of one from 2^48 on.
    pub fn try_push(&mut self, body: u64, turns: u32) -> Result<(), Refusal> {
        // SAFETY: the seat is full, and borrowed for this call alone.
        answer(unsafe { raw::msq_try_push(&mut self.0, body, turns) })
    }

    /// Shuts the queue, in so many turns at most, 1 or more: no push comes after it, and what is in it stays to be popped.
    /// `Closed` where it was shut before.
    pub fn try_shut(&mut self, turns: u32) -> Result<(), Refusal> {
        // SAFETY: as for a push.
        answer(unsafe { raw::msq_try_shut(&mut self.0, turns) })
    }
}

impl Taker {
    /// Pops the value at the front, in so many turns at most, 1 or more; none where the queue was empty.
    pub fn try_pop(&mut self, turns: u32) -> Result<Option<Value>, Refusal> {
        let mut value = Value::default();
        // SAFETY: the seat is full, and borrowed for this call alone.
        match unsafe { raw::msq_try_pop(&mut self.0, turns, &mut value) } {
            raw::EMPTY => Ok(None),
            code => answer(code).map(|()| Some(value)),
        }
    }
}
