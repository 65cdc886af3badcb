//! The ring of the crate `ring_queue`, written plainly.
use crate::seats::End;
use std::hint::{black_box, spin_loop};
use std::sync::atomic::AtomicU64;
use std::sync::atomic::Ordering::SeqCst;

const TAIL: usize = 0;
const HEAD: usize = 16;
const SLOTS: usize = 32;
const SHUT: u64 = 1 << 62;
const PARITY: u64 = 1 << 63;
const PAUSES: u32 = 64;
const TURNS: u32 = 8;

pub struct Ring {
    words: Vec<AtomicU64>,
    slots: u64,
    most: u64,
    limit: u64,
    seats: u64,
}

/// What a call comes to that is not done.
#[derive(Clone, Copy, PartialEq, Eq)]
pub enum Refusal {
    Full,
    Worn,
    Busy,
    Closed,
}

/// A seat of a ring.
pub struct RingSeat<'a> {
    ring: &'a Ring,
    number: u64,
    head: u64,
    tail: u64,
    turns: u32,
}

impl Ring {
    pub fn measured(seats: usize, room: usize) -> Ring {
        let (most, seats) = (black_box(room as u64), seats as u64);
        let slots = most.next_power_of_two();
        let words: Vec<_> = (0..SLOTS + 2 * slots as usize).map(|_| AtomicU64::new(0)).collect();
        words[TAIL].store(slots, SeqCst);
        words[HEAD].store(slots, SeqCst);
        Ring { words, slots, most, limit: SHUT - 1, seats }
    }

    pub fn slots(&self) -> u64 {
        self.slots
    }

    pub fn seats(&self) -> impl Iterator<Item = RingSeat<'_>> {
        (1..=self.seats).map(|number| RingSeat {
            ring: self,
            number,
            head: self.slots,
            tail: self.slots,
            turns: black_box(TURNS),
        })
    }

    fn slot(&self, place: u64) -> &AtomicU64 {
        &self.words[SLOTS + 2 * (place & (self.slots - 1)) as usize]
    }

    fn parity(&self, place: u64) -> u64 {
        if place & self.slots == 0 { 0 } else { 1 }
    }

    fn fill(&self, place: u64, payload: u64) {
        self.slot(place).store(self.parity(place) * PARITY + payload, SeqCst);
    }

    #[inline(always)]
    pub fn push(&self, seat: &mut RingSeat, body: u64) -> Result<(), Refusal> {
        for _ in 0..u64::from(seat.turns) + 1 {
            if seat.tail >= seat.head + self.most || seat.tail >= self.limit {
                self.look_for_room(seat)?;
            }
            let tail = seat.tail;
            match self.words[TAIL].compare_exchange(tail, tail + 1, SeqCst, SeqCst) {
                Ok(_) => {
                    seat.tail = tail + 1;
                    self.fill(tail, (seat.number << 48) + body);
                    return Ok(());
                }
                Err(found) => {
                    seat.tail = found % SHUT;
                    if found >= SHUT {
                        return Err(Refusal::Closed);
                    }
                }
            }
        }
        Err(Refusal::Busy)
    }

    #[cold]
    #[inline(never)]
    fn look_for_room(&self, seat: &mut RingSeat) -> Result<(), Refusal> {
        let tail = self.words[TAIL].load(SeqCst);
        seat.tail = tail % SHUT;
        if tail >= SHUT {
            return Err(Refusal::Closed);
        } else if tail >= self.limit {
            return Err(Refusal::Worn);
        } else if tail < seat.head + self.most {
            return Ok(());
        }
        seat.head = self.words[HEAD].load(SeqCst);
        if self.most <= tail.saturating_sub(seat.head) { Err(Refusal::Full) } else { Ok(()) }
    }

    fn front(&self, seat: &RingSeat) -> Option<u64> {
        let word = self.slot(seat.head).load(SeqCst);
        (word >> 63 == self.parity(seat.head)).then_some(word)
    }

    fn front_twice(&self, seat: &RingSeat) -> Option<u64> {
        self.front(seat).or_else(|| self.late_front(seat))
    }

    #[cold]
    #[inline(never)]
    fn late_front(&self, seat: &RingSeat) -> Option<u64> {
        (0..PAUSES).for_each(|_| spin_loop());
        self.front(seat)
    }

    #[inline(always)]
    pub fn pop(&self, seat: &mut RingSeat) -> Result<Option<(u64, u64)>, Refusal> {
        for _ in 0..seat.turns {
            let Some(word) = self.front_twice(seat) else {
                let tail = self.words[TAIL].load(SeqCst);
                if tail == seat.head {
                    return Ok(None);
                } else if tail >= SHUT && tail - SHUT == seat.head {
                    return Err(Refusal::Closed);
                }
                seat.head = self.words[HEAD].load(SeqCst);
                continue;
            };
            let (head, payload) = (seat.head, word % PARITY);
            match self.words[HEAD].compare_exchange(head, head + 1, SeqCst, SeqCst) {
                Ok(_) => {
                    seat.head = head + 1;
                    return Ok(Some((payload >> 48, payload % (1 << 48))));
                }
                Err(found) => seat.head = found,
            }
        }
        Err(Refusal::Busy)
    }

    #[inline(never)]
    fn try_push(&self, seat: &mut RingSeat, body: u64) -> Result<(), Refusal> {
        self.push(seat, body)
    }

    #[inline(never)]
    fn try_pop(&self, seat: &mut RingSeat) -> Result<Option<(u64, u64)>, Refusal> {
        self.pop(seat)
    }
}

impl End for RingSeat<'_> {
    #[inline(always)]
    fn push(&mut self, body: u64) -> bool {
        !matches!(self.ring.try_push(self, body), Err(Refusal::Busy | Refusal::Full))
    }

    #[inline(always)]
    fn pop(&mut self) -> bool {
        !matches!(self.ring.try_pop(self), Ok(None) | Err(Refusal::Busy))
    }
}
