//! Values of any type through a plain queue, or a plain ring: each lies in a slot, found by its flag from that of its node on, or of its
//! seat's last one, whose number goes through the queue of numbers; and through queues of the standard library and of crossbeam.
use crate::arena::{Algorithm, Refusal, Seat};
use crate::ring::{self, Ring, RingSeat};
use crate::seats::{End, ROOM};
use std::cell::UnsafeCell;
use std::collections::VecDeque;
use std::hint::black_box;
use std::sync::Mutex;
use std::sync::atomic::{AtomicU64, Ordering::SeqCst};
use std::sync::mpsc::{Receiver, Sender, SyncSender};

/// What goes through, made of a number.
pub trait Value: Send {
    fn made(body: u64) -> Self;
}

impl Value for u64 {
    fn made(body: u64) -> u64 {
        black_box(body)
    }
}

impl Value for [u64; 3] {
    fn made(body: u64) -> [u64; 3] {
        black_box([body, body + 1, body + 2])
    }
}

/// A queue of values; slot k is that of the node k + 1.
pub struct Values<Q, T> {
    queue: Q,
    flags: Vec<AtomicU64>,
    slots: Vec<UnsafeCell<Option<T>>>,
}

// A slot is read and written by the one that has its flag, or the node that tells of it.
unsafe impl<Q: Sync, T: Send> Sync for Values<Q, T> {}

pub struct Handle<'a, Q, T> {
    of: &'a Values<Q, T>,
    seat: Seat,
    turns: u32,
}

impl<Q, T> Values<Q, T> {
    pub fn new(queue: Q, nodes: u64) -> Values<Q, T> {
        let flags = (0..nodes).map(|_| AtomicU64::new(0)).collect();
        Values { queue, flags, slots: (0..nodes).map(|_| UnsafeCell::new(None)).collect() }
    }

    pub fn handle(&self, number: usize, keeps: bool) -> Handle<'_, Q, T> {
        let seat = Seat { number: number as u64 + 1, keeps, ..Seat::default() };
        Handle { of: self, seat, turns: black_box(8) }
    }

    // The number of a slot that is this seat's from now on.
    fn gets(&self, near: u64) -> Option<u64> {
        let length = self.flags.len() as u64;
        (0..length)
            .map(|step| (near + step) % length)
            .find(|&slot| self.flags[slot as usize].compare_exchange(0, 1, SeqCst, SeqCst).is_ok())
    }
}

impl<Q: Algorithm, T> Handle<'_, Q, T> {
    #[inline(never)]
    pub fn try_push(&mut self, value: T) -> Result<(), (Refusal, T)> {
        let it = self.of;
        let (held, spent) = match self.seat.pocket {
            Some(held) => (held, 0),
            None => match it.queue.arena().take(&mut self.seat, self.turns) {
                Ok(held) => (held, self.seat.failed),
                Err(refusal) => return Err((refusal, value)),
            },
        };
        let Some(slot) = it.gets(held.node - 1) else {
            return Err((Refusal::Busy, value));
        };
        let place = it.slots[slot as usize].get();
        // The slot is this seat's.
        unsafe { *place = Some(value) };
        match it.queue.put(&mut self.seat, held, slot, spent, self.turns) {
            Ok(()) => Ok(()),
            Err(refusal) => {
                let back = unsafe { (*place).take() }.unwrap();
                it.flags[slot as usize].store(0, SeqCst);
                Err((refusal, back))
            }
        }
    }

    #[inline(never)]
    pub fn try_pop(&mut self) -> Result<Option<T>, Refusal> {
        let it = self.of;
        let Some((_, slot)) = it.queue.try_pop(&mut self.seat, self.turns)? else {
            return Ok(None);
        };
        // The slot is this seat's, which took its number.
        let value = unsafe { (*it.slots[slot as usize].get()).take() }.unwrap();
        it.flags[slot as usize].store(0, SeqCst);
        Ok(Some(value))
    }
}

impl<Q: Algorithm + Sync, T: Value> End for Handle<'_, Q, T> {
    #[inline(always)]
    fn push(&mut self, body: u64) -> bool {
        !matches!(self.try_push(T::made(body)), Err((Refusal::Busy | Refusal::NoNode, _)))
    }

    #[inline(always)]
    fn pop(&mut self) -> bool {
        !matches!(black_box(self.try_pop()), Ok(None) | Err(Refusal::Busy))
    }
}

/// A ring of values, with a slot for each of the ring's.
pub struct RingValues<T> {
    ring: Ring,
    flags: Vec<AtomicU64>,
    slots: Vec<UnsafeCell<Option<T>>>,
}

// A slot is read and written by the one that has its flag, or the place that tells of it.
unsafe impl<T: Send> Sync for RingValues<T> {}

pub struct RingHandle<'a, T> {
    of: &'a RingValues<T>,
    seat: RingSeat<'a>,
    near: u64,
    turns: u32,
}

impl<T> RingValues<T> {
    pub fn measured(seats: usize) -> RingValues<T> {
        let ring = Ring::measured(seats, ROOM);
        let flags = (0..ring.slots()).map(|_| AtomicU64::new(0)).collect();
        let slots = (0..ring.slots()).map(|_| UnsafeCell::new(None)).collect();
        RingValues { ring, flags, slots }
    }

    pub fn handles(&self) -> Vec<RingHandle<'_, T>> {
        let numbered = self.ring.seats().enumerate();
        numbered.map(|(number, seat)| RingHandle { of: self, seat, near: 64 * number as u64, turns: black_box(8) }).collect()
    }
}

impl<T> RingHandle<'_, T> {
    // The number of a slot that is this seat's from now on.
    fn gets(&mut self) -> Option<u64> {
        let last = self.of.ring.slots() - 1;
        let found = (0..u64::from(self.turns))
            .map(|step| (self.near + step) & last)
            .find(|&slot| self.of.flags[slot as usize].compare_exchange(0, 1, SeqCst, SeqCst).is_ok())?;
        self.near = found + 1;
        Some(found)
    }

    #[inline(never)]
    pub fn try_push(&mut self, value: T) -> Result<(), (ring::Refusal, T)> {
        let it = self.of;
        let Some(slot) = self.gets() else {
            return Err((ring::Refusal::Busy, value));
        };
        let place = it.slots[slot as usize].get();
        // The slot is this seat's.
        unsafe { *place = Some(value) };
        match it.ring.push(&mut self.seat, slot) {
            Ok(()) => Ok(()),
            Err(refusal) => {
                let back = unsafe { (*place).take() }.unwrap();
                it.flags[slot as usize].store(0, SeqCst);
                Err((refusal, back))
            }
        }
    }

    #[inline(never)]
    pub fn try_pop(&mut self) -> Result<Option<T>, ring::Refusal> {
        let it = self.of;
        let Some((_, slot)) = it.ring.pop(&mut self.seat)? else {
            return Ok(None);
        };
        // The slot is this seat's, which took its number.
        let value = unsafe { (*it.slots[slot as usize].get()).take() }.unwrap();
        it.flags[slot as usize].store(0, SeqCst);
        Ok(Some(value))
    }
}

impl<T: Value> End for RingHandle<'_, T> {
    #[inline(always)]
    fn push(&mut self, body: u64) -> bool {
        !matches!(self.try_push(T::made(body)), Err((ring::Refusal::Busy | ring::Refusal::Full, _)))
    }

    #[inline(always)]
    fn pop(&mut self) -> bool {
        !matches!(black_box(self.try_pop()), Ok(None) | Err(ring::Refusal::Busy))
    }
}

/// A `VecDeque` of values behind one lock.
pub struct Deque<T>(pub Mutex<VecDeque<T>>);

impl<T: Value> End for &Deque<T> {
    #[inline(never)]
    fn push(&mut self, body: u64) -> bool {
        let value = T::made(body);
        let mut values = self.0.lock().unwrap();
        let has_room = values.len() < ROOM;
        if has_room {
            values.push_back(value);
        }
        has_room
    }

    #[inline(never)]
    fn pop(&mut self) -> bool {
        black_box(self.0.lock().unwrap().pop_front()).is_some()
    }
}

/// An end of a channel of the standard library; one thread alone has the receiver.
pub struct ChannelEnd<S, T> {
    pub sender: S,
    pub receiver: Option<Receiver<T>>,
}

impl<S, T> ChannelEnd<S, T> {
    #[inline(always)]
    fn receives(&self) -> bool {
        self.receiver.as_ref().is_some_and(|receiver| black_box(receiver.try_recv()).is_ok())
    }
}

impl<T: Value> End for ChannelEnd<Sender<T>, T> {
    #[inline(never)]
    fn push(&mut self, body: u64) -> bool {
        self.sender.send(T::made(body)).is_ok()
    }

    #[inline(never)]
    fn pop(&mut self) -> bool {
        self.receives()
    }
}

impl<T: Value> End for ChannelEnd<SyncSender<T>, T> {
    #[inline(never)]
    fn push(&mut self, body: u64) -> bool {
        self.sender.try_send(T::made(body)).is_ok()
    }

    #[inline(never)]
    fn pop(&mut self) -> bool {
        self.receives()
    }
}

#[cfg(crossbeam)]
mod crossbeam {
    use super::{End, Value};
    use crossbeam_queue::{ArrayQueue, SegQueue};
    use std::hint::black_box;

    impl<T: Value> End for &ArrayQueue<T> {
        #[inline(never)]
        fn push(&mut self, body: u64) -> bool {
            ArrayQueue::push(self, T::made(body)).is_ok()
        }

        #[inline(never)]
        fn pop(&mut self) -> bool {
            black_box(ArrayQueue::pop(self)).is_some()
        }
    }

    impl<T: Value> End for &SegQueue<T> {
        #[inline(never)]
        fn push(&mut self, body: u64) -> bool {
            SegQueue::push(self, T::made(body));
            true
        }

        #[inline(never)]
        fn pop(&mut self) -> bool {
            black_box(SegQueue::pop(self)).is_some()
        }
    }
}
