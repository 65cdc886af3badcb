//! A queue of values of any type, which any thread calls.
use crate::raw::MOST_COUNT;
use crate::step::{calls_for, Task};
use crate::values::{looks, Values};
use crate::waits::Until;
use crate::{Kind, Refusal};
use std::fmt;
use std::time::Duration;

/// A queue of values of any type that may go to another thread, with room for exactly as many as are asked for, shared by reference or
/// in an `Arc`. Any thread pushes, pops and closes it. Values up to 24 bytes lie in it, and a larger one is in a box; those of one
/// thread come in its order, each once, and what is left is dropped with the queue.
///
/// ```
/// let queue = msq::Queue::new(8).unwrap();
/// std::thread::scope(|scope| {
///     scope.spawn(|| {
///         (1..=100).for_each(|number| queue.push(number).unwrap());
///         queue.close();
///     });
///     assert_eq!(queue.pop(), Ok(1));
///     assert!(queue.iter().eq(2..=100));
/// });
/// ```
///
/// Why a call wasn't done it tells by a [`Missed`]; a value that wasn't pushed comes back:
///
/// ```
/// use msq::{Missed, PushError};
/// use std::time::Duration;
/// let (queue, time) = (msq::Queue::new(1).unwrap(), Duration::from_millis(1));
/// queue.push("one").unwrap();
/// assert!(queue.is_full() && queue.len() == queue.capacity());
/// assert_eq!(queue.try_push("two"), Err(PushError { why: Missed::Full, value: "two" }));
/// assert_eq!(queue.push_timeout("two", time).unwrap_err().why, Missed::TimedOut);
/// assert!(queue.try_iter().eq(["one"]) && queue.is_empty());
/// assert_eq!(queue.try_pop(), Err(Missed::Empty));
/// assert_eq!(queue.pop_timeout(time), Err(Missed::TimedOut));
/// queue.close();
/// assert_eq!(queue.pop(), Err(Missed::Closed));
/// ```
pub struct Queue<T> {
    pub(crate) values: Values<T>,
}

/// Why a push or a pop wasn't done.
#[derive(Clone, Copy, Debug, PartialEq, Eq)]
pub enum Missed {
    /// A try of a push: the queue is full.
    Full,
    /// A try of a pop: the queue is empty.
    Empty,
    /// A try: others were in the way, or as many calls were under way as may be.
    Busy,
    /// The time was over.
    TimedOut,
    /// The queue is closed; of a pop, and empty.
    Closed,
    /// The queue is worn out.
    Worn,
}

impl fmt::Display for Missed {
    fn fmt(&self, f: &mut fmt::Formatter<'_>) -> fmt::Result {
        f.write_str(match self {
            Missed::Full => "the queue is full",
            Missed::Empty => "the queue is empty",
            Missed::Busy => "others were in the way",
            Missed::TimedOut => "the time is over",
            Missed::Closed => "the queue is closed",
            Missed::Worn => "the queue is worn out",
        })
    }
}

impl std::error::Error for Missed {}

/// A value that wasn't pushed, and why.
#[derive(Clone, Copy, PartialEq, Eq)]
pub struct PushError<T> {
    /// Why.
    pub why: Missed,
    /// The value.
    pub value: T,
}

impl<T> fmt::Debug for PushError<T> {
    fn fmt(&self, f: &mut fmt::Formatter<'_>) -> fmt::Result {
        write!(f, "PushError({:?}, ..)", self.why)
    }
}

impl<T> fmt::Display for PushError<T> {
    fn fmt(&self, f: &mut fmt::Formatter<'_>) -> fmt::Result {
        self.why.fmt(f)
    }
}

impl<T> std::error::Error for PushError<T> {}

impl<T: Send> Queue<T> {
    /// A ring with room for exactly so many values, 1 or more, and calls as of [`bounded`](crate::channel::bounded). Refused
    /// `ZeroCapacity`, `BadSize` or `Memory`.
    pub fn new(capacity: usize) -> Result<Queue<T>, Refusal> {
        Queue::of(Kind::Ring, capacity, calls_for(capacity))
    }

    /// A queue of this kind, with so many calls, 1 to 32,767, as of [`bounded_of`](crate::channel::bounded_of).
    pub fn of(kind: Kind, capacity: usize, calls: u16) -> Result<Queue<T>, Refusal> {
        Ok(Queue { values: Values::new(kind, capacity, calls, MOST_COUNT)? })
    }
}

impl<T> Queue<T> {
    /// Pushes a value, and sleeps while the queue is full. `Closed` or `Worn`.
    pub fn push(&self, value: T) -> Result<(), PushError<T>> {
        self.values.push(value, Until::Ever)
    }

    /// Pushes a value, and waits for nothing. `Full`, `Busy`, `Closed` or `Worn`.
    pub fn try_push(&self, value: T) -> Result<(), PushError<T>> {
        self.values.push(value, Until::Now)
    }

    /// Pushes a value, and sleeps while the queue is full, for this time at most. `TimedOut`, `Closed` or `Worn`.
    pub fn push_timeout(&self, value: T, time: Duration) -> Result<(), PushError<T>> {
        self.values.push(value, Until::after(time))
    }

    /// Pops the value at the front, and sleeps while the queue is empty. `Closed` or `Worn`.
    pub fn pop(&self) -> Result<T, Missed> {
        self.values.pop(Until::Ever)
    }

    /// Pops the value at the front, and waits for nothing. `Empty`, `Busy`, `Closed` or `Worn`.
    pub fn try_pop(&self) -> Result<T, Missed> {
        self.values.pop(Until::Now)
    }

    /// Pops the value at the front, and sleeps while the queue is empty, for this time at most. `TimedOut`, `Closed` or `Worn`.
    pub fn pop_timeout(&self, time: Duration) -> Result<T, Missed> {
        self.values.pop(Until::after(time))
    }

    /// Closes the queue: no push comes after it, and what is in it stays to be popped. All that sleep are told.
    pub fn close(&self) {
        self.values.end(Task::Shut);
    }

    /// The values that come, which sleeps while there is none, until the queue is closed and empty, or worn, as `pop` then tells.
    pub fn iter(&self) -> impl Iterator<Item = T> + '_ {
        std::iter::from_fn(|| self.pop().ok())
    }

    /// The values that are there, until the queue is found empty; it tries again while others are in the way.
    pub fn try_iter(&self) -> impl Iterator<Item = T> + '_ {
        std::iter::from_fn(|| self.values.pop_now().ok())
    }
}

looks!(Queue, "queue", values);

impl<T> fmt::Debug for Queue<T> {
    fn fmt(&self, f: &mut fmt::Formatter<'_>) -> fmt::Result {
        f.debug_struct("Queue").field("capacity", &self.capacity()).finish_non_exhaustive()
    }
}
