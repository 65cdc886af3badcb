//! How a thread waits: until when, what wakes it, and what it does while others are in its way; and the number that it has.
use std::hint;
use std::sync::atomic::AtomicU64;
use std::sync::atomic::Ordering::{Acquire, Relaxed, Release};
use std::sync::Arc;
use std::task::{Wake, Waker};
use std::thread::{self, Thread};
use std::time::{Duration, Instant};

/// How long a call waits.
#[derive(Clone, Copy)]
pub enum Until {
    Now,
    Then(Instant),
    Ever,
}

impl Until {
    /// So long from now; a moment that no clock reaches is never.
    pub fn after(time: Duration) -> Until {
        Instant::now().checked_add(time).map_or(Until::Ever, Until::Then)
    }

    pub fn is_now(self) -> bool {
        matches!(self, Until::Now)
    }

    pub fn is_past(self) -> bool {
        match self {
            Until::Now => true,
            Until::Then(then) => then <= Instant::now(),
            Until::Ever => false,
        }
    }

    /// Parks this thread, until it is woken or then.
    pub fn park(self) {
        match self {
            Until::Now => {}
            Until::Then(then) => thread::park_timeout(then.saturating_duration_since(Instant::now())),
            Until::Ever => thread::park(),
        }
    }
}

struct Unparks(Thread);

impl Wake for Unparks {
    fn wake(self: Arc<Self>) {
        self.0.unpark();
    }
}

/// What wakes this thread where it parks.
pub fn thread_waker() -> Waker {
    Waker::from(Arc::new(Unparks(thread::current())))
}

/// What a thread does while others are in its way: it spins twelve times, longer each time, and then lets them run.
#[derive(Default)]
pub struct Backoff(u32);

impl Backoff {
    pub fn snooze(&mut self) {
        if self.0 >= 12 {
            return thread::yield_now();
        }
        (0..1 << self.0.min(6)).for_each(|_| hint::spin_loop());
        self.0 += 1;
    }
}

/// How many threads have numbers at one time, at most.
pub const NUMBERS: usize = 64;

// A bit for each number that a thread has.
static TAKEN: AtomicU64 = AtomicU64::new(0);

// The number of a thread, given back as that ends.
struct Number(usize);

impl Number {
    fn lowest() -> Number {
        let taken = |numbers: u64| Some(numbers | numbers.checked_add(1)?);
        let (Ok(before) | Err(before)) = TAKEN.fetch_update(Acquire, Relaxed, taken);
        Number(before.trailing_ones() as usize)
    }
}

impl Drop for Number {
    fn drop(&mut self) {
        let mine = 1u64.checked_shl(self.0 as u32).unwrap_or(0);
        TAKEN.fetch_and(!mine, Release);
    }
}

/// A number below that, which no other thread that lives has; from there on where all are taken, or this thread is ending.
pub fn thread_number() -> usize {
    thread_local! {
        static NUMBER: Number = Number::lowest();
    }
    NUMBER.try_with(|number| number.0).unwrap_or(NUMBERS)
}
