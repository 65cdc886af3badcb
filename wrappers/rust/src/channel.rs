//! Channels with a bound, as crossbeam-channel has them: [`bounded`] makes one, and clones of its ends are for any threads.
//!
//! ```
//! use msq::channel;
//!
//! let (sender, receiver) = channel::bounded(16);
//! for name in ["one", "two"] {
//!     let sender = sender.clone();
//!     std::thread::spawn(move || sender.send(name.to_string()).unwrap());
//! }
//! drop(sender); // the last one that goes disconnects the channel, and the loop ends
//! let mut names: Vec<String> = receiver.iter().collect();
//! names.sort();
//! assert_eq!(names, ["one", "two"]);
//! ```
//!
//! Values up to 24 bytes lie in the channel, and a larger one is in a box. Those of one thread come in its order, each once, and what is
//! left is dropped with the last receiver: where a drop panics, the others are dropped too, and then the panic goes on. How long a
//! channel lasts docs/QUEUES.md says of its queue, a ring for good; one that is worn out tells `Worn`, and what is left of it is
//! dropped with the last end.
use crate::raw::MOST_COUNT;
use crate::step::{calls_for, Task};
use crate::values::{looks, Pop, Push, Values};
use crate::waits::Until;
use crate::{Kind, Missed, Refusal};
use std::fmt;
use std::future::Future;
use std::iter::FusedIterator;
use std::pin::Pin;
use std::sync::atomic::{AtomicUsize, Ordering::SeqCst};
use std::sync::Arc;
use std::task::{Context, Poll};
use std::time::{Duration, Instant};

mod errors;
mod select;
#[cfg(test)]
mod tests;

pub use errors::*;
pub use select::Select;

// What the ends of a channel share, and how many there are of each.
struct Shared<T> {
    values: Values<T>,
    senders: AtomicUsize,
    receivers: AtomicUsize,
}

/// The ends of a new channel.
pub type Ends<T> = (Sender<T>, Receiver<T>);

/// A channel with room for exactly `capacity` values, over a ring; one call more than that, 16 at most, may be under way at one
/// moment beside those that sleep, and those of the first threads, which as [`bounded_of`] says have handles of their own.
///
/// Panics where `capacity` is 0, or from 2^32 on, or there is no memory; [`try_bounded`] tells these.
///
/// ```
/// let (sender, receiver) = msq::channel::bounded(1);
/// sender.send(1).unwrap();
/// assert!(sender.try_send(2).unwrap_err().is_full());
/// assert_eq!(receiver.recv(), Ok(1));
/// ```
pub fn bounded<T: core::marker::Send>(capacity: usize) -> Ends<T> {
    try_bounded(capacity).unwrap_or_else(|refusal| panic!("a channel for {capacity} values: {refusal}"))
}

/// The same; refused `ZeroCapacity`, `BadSize` or `Memory`.
pub fn try_bounded<T: core::marker::Send>(capacity: usize) -> Result<Ends<T>, Refusal> {
    bounded_of(Kind::Ring, capacity, calls_for(capacity))
}

/// The same over a queue of this kind, of which so many calls, 1 to 32,767, may be under way at one moment beside those that sleep:
/// further ones wait for these, and a try is told `Busy`. Beside these the first threads that live, as many, up to 64 and half of the
/// room, each have a handle of their own. A ring takes the least time, and of a ring a thread that stops in a push holds up those that
/// pop. Over the non-blocking queue it holds up nobody, and over a two-lock queue those that push, or that pop.
pub fn bounded_of<T: core::marker::Send>(kind: Kind, capacity: usize, calls: u16) -> Result<Ends<T>, Refusal> {
    Ok(ends_of(Values::new(kind, capacity, calls, MOST_COUNT)?))
}

fn ends_of<T>(values: Values<T>) -> Ends<T> {
    let shared = Arc::new(Shared { values, senders: AtomicUsize::new(1), receivers: AtomicUsize::new(1) });
    let sender = Sender { shared: Arc::clone(&shared) };
    (sender, Receiver { shared })
}

/// The sending end of a channel. A clone is a further one, and the last one that is dropped disconnects the channel.
///
/// ```
/// use msq::channel::{bounded, SendError, SendTimeoutError, TrySendError};
/// use std::time::{Duration, Instant};
/// let (sender, receiver) = bounded(1);
/// assert_eq!(sender.send(1), Ok(()));
/// assert_eq!(sender.try_send(2), Err(TrySendError::Full(2)));
/// let late = Err(SendTimeoutError::Timeout(2));
/// assert_eq!(sender.send_timeout(2, Duration::from_millis(1)), late);
/// assert_eq!(sender.send_deadline(2, Instant::now()), late);
/// drop(receiver);
/// assert_eq!(sender.send(2), Err(SendError::Disconnected(2)));
/// ```
///
/// Threads may share an end by reference. What can't go to another thread can't be sent:
///
/// ```compile_fail
/// let (sender, receiver) = msq::channel::bounded(1);
/// sender.send(std::rc::Rc::new(1)).unwrap();
/// ```
pub struct Sender<T> {
    shared: Arc<Shared<T>>,
}

/// The receiving end of a channel. A clone is a further one: each value comes to one of them. With the last one that is dropped
/// sends end, and what is in the channel is dropped.
///
/// ```
/// use msq::channel::{bounded, RecvError, RecvTimeoutError, TryRecvError};
/// use std::time::{Duration, Instant};
/// let (sender, receiver) = bounded(8);
/// std::thread::scope(|scope| {
///     scope.spawn(|| (1..=9).for_each(|number| sender.send(number).unwrap()));
///     assert_eq!(receiver.recv(), Ok(1));
///     assert_eq!(receiver.recv_timeout(Duration::from_secs(9)), Ok(2));
///     assert_eq!(receiver.recv_deadline(Instant::now() + Duration::from_secs(9)), Ok(3));
///     assert!(receiver.iter().take(4).eq(4..=7));
/// });
/// assert_eq!(receiver.try_recv(), Ok(8));
/// assert!(receiver.try_iter().eq([9]));
/// assert_eq!(receiver.try_recv(), Err(TryRecvError::Empty));
/// let late = Err(RecvTimeoutError::Timeout);
/// assert_eq!(receiver.recv_timeout(Duration::from_millis(1)), late);
/// drop(sender);
/// assert_eq!(receiver.recv(), Err(RecvError::Disconnected));
/// ```
pub struct Receiver<T> {
    shared: Arc<Shared<T>>,
}

impl<T> Sender<T> {
    /// Sends a value, and sleeps while the channel is full.
    pub fn send(&self, value: T) -> Result<(), SendError<T>> {
        self.shared.values.push(value, Until::Ever).map_err(SendError::of)
    }

    /// Sends a value unless the channel is full, and waits for nothing.
    pub fn try_send(&self, value: T) -> Result<(), TrySendError<T>> {
        self.shared.values.push(value, Until::Now).map_err(TrySendError::of)
    }

    /// Sends a value, and sleeps while the channel is full, for this time at most.
    pub fn send_timeout(&self, value: T, time: Duration) -> Result<(), SendTimeoutError<T>> {
        self.shared.values.push(value, Until::after(time)).map_err(SendTimeoutError::of)
    }

    /// Sends a value, and sleeps while the channel is full, until this moment at most.
    pub fn send_deadline(&self, value: T, until: Instant) -> Result<(), SendTimeoutError<T>> {
        self.shared.values.push(value, Until::Then(until)).map_err(SendTimeoutError::of)
    }

    /// Sends a value once there is room for it, as a future. One that is dropped before it is ready drops its value.
    pub fn send_async(&self, value: T) -> Send<'_, T> {
        Send(self.shared.values.ask_push(value))
    }
}

impl<T> Receiver<T> {
    /// Receives the value at the front, and sleeps while the channel is empty.
    pub fn recv(&self) -> Result<T, RecvError> {
        self.shared.values.pop(Until::Ever).map_err(RecvError::of)
    }

    /// Receives the value at the front, unless the channel is empty, and waits for nothing.
    pub fn try_recv(&self) -> Result<T, TryRecvError> {
        self.shared.values.pop(Until::Now).map_err(TryRecvError::of)
    }

    /// Receives the value at the front, and sleeps while the channel is empty, for this time at most.
    pub fn recv_timeout(&self, time: Duration) -> Result<T, RecvTimeoutError> {
        self.shared.values.pop(Until::after(time)).map_err(RecvTimeoutError::of)
    }

    /// Receives the value at the front, and sleeps while the channel is empty, until this moment at most.
    pub fn recv_deadline(&self, until: Instant) -> Result<T, RecvTimeoutError> {
        self.shared.values.pop(Until::Then(until)).map_err(RecvTimeoutError::of)
    }

    /// Receives the value at the front once there is one, as a future. One that is dropped before it is ready hands on what it may have
    /// been woken for.
    pub fn recv_async(&self) -> Recv<'_, T> {
        Recv(self.shared.values.ask_pop())
    }

    /// The values that come, which sleeps while there is none, until all senders are gone, or the channel is worn, as `recv` then tells.
    pub fn iter(&self) -> Iter<'_, T> {
        Iter(self)
    }

    /// The values that are there, until the channel is found empty; it tries again while others are in the way.
    pub fn try_iter(&self) -> impl Iterator<Item = T> + '_ {
        std::iter::from_fn(|| self.shared.values.pop_now().ok())
    }
}

// What both ends tell of the channel.
macro_rules! ends {
    ($end:ident, $count:ident, $task:expr, $last:expr) => {
        looks!($end, "channel", shared.values);

        impl<T> $end<T> {
            /// Whether both are ends of one channel.
            pub fn same_channel(&self, other: &$end<T>) -> bool {
                Arc::ptr_eq(&self.shared, &other.shared)
            }
        }

        impl<T> Clone for $end<T> {
            fn clone(&self) -> $end<T> {
                self.shared.$count.fetch_add(1, SeqCst);
                $end { shared: Arc::clone(&self.shared) }
            }
        }

        impl<T> Drop for $end<T> {
            fn drop(&mut self) {
                if self.shared.$count.fetch_sub(1, SeqCst) == 1 {
                    self.shared.values.end($task);
                    $last(&self.shared.values);
                }
            }
        }
    };
}

// (what no receiver takes any more goes with the last one)
ends!(Sender, senders, Task::EndSender, |_| Missed::Closed);
ends!(Receiver, receivers, Task::EndReceiver, Values::drain);

/// The values that come to a [`Receiver`], until all senders are gone.
pub struct Iter<'a, T>(&'a Receiver<T>);

/// The values that come to a [`Receiver`] that is then no more, until all senders are gone.
pub struct IntoIter<T>(Receiver<T>);

macro_rules! iterators {
    ($($name:ident $(<$life:lifetime>)?),*) => {
        $(impl<T> Iterator for $name<$($life,)? T> {
            type Item = T;

            fn next(&mut self) -> Option<T> {
                self.0.recv().ok()
            }
        }

        impl<T> FusedIterator for $name<$($life,)? T> {})*
    };
}

iterators!(Iter<'_>, IntoIter);

impl<T> IntoIterator for Receiver<T> {
    type Item = T;
    type IntoIter = IntoIter<T>;

    fn into_iter(self) -> IntoIter<T> {
        IntoIter(self)
    }
}

impl<'a, T> IntoIterator for &'a Receiver<T> {
    type Item = T;
    type IntoIter = Iter<'a, T>;

    fn into_iter(self) -> Iter<'a, T> {
        self.iter()
    }
}

/// A value that is sent once there is room for it: [`Sender::send_async`](Sender::send_async).
pub struct Send<'a, T>(Push<'a, T>);

/// A value to come: [`Receiver::recv_async`](Receiver::recv_async).
pub struct Recv<'a, T>(Pop<'a, T>);

impl<T> Future for Send<'_, T> {
    type Output = Result<(), SendError<T>>;

    fn poll(mut self: Pin<&mut Self>, context: &mut Context<'_>) -> Poll<Self::Output> {
        self.0.poll(context).map_err(SendError::of)
    }
}

impl<T> Future for Recv<'_, T> {
    type Output = Result<T, RecvError>;

    fn poll(mut self: Pin<&mut Self>, context: &mut Context<'_>) -> Poll<Self::Output> {
        self.0.poll(context).map_err(RecvError::of)
    }
}

macro_rules! debug {
    ($($name:ident $(<$life:lifetime>)?),*) => {
        $(impl<T> fmt::Debug for $name<$($life,)? T> {
            fn fmt(&self, f: &mut fmt::Formatter<'_>) -> fmt::Result {
                f.pad(concat!(stringify!($name), " { .. }"))
            }
        })*
    };
}

debug!(Sender, Receiver, Iter<'_>, IntoIter, Send<'_>, Recv<'_>);
