//! What calls answer where others are in the way: another thread pushes and pops, and a signal stops it within a call.
use msq::seats::queue;
use msq::{Kind, Missed, Queue, Refusal};
use std::ffi::{c_int, c_ulong};
use std::sync::atomic::Ordering::SeqCst;
use std::sync::atomic::{AtomicBool, AtomicU64};
use std::thread;
use std::time::Duration;

const SIGUSR1: c_int = 10;
const SOON: Duration = Duration::from_nanos(1);
const TURNS: u32 = 8;

extern "C" {
    fn signal(number: c_int, handler: extern "C" fn(c_int)) -> usize;
    fn pthread_self() -> c_ulong;
    fn pthread_kill(thread: c_ulong, number: c_int) -> c_int;
}

static STOPS: AtomicBool = AtomicBool::new(false);
static RESTS: AtomicBool = AtomicBool::new(false);

/// Stops the thread where it is, until it is let go.
extern "C" fn stop_here(_: c_int) {
    RESTS.store(true, SeqCst);
    while STOPS.load(SeqCst) {
        thread::yield_now();
    }
    RESTS.store(false, SeqCst);
}

fn wait_until(holds: impl Fn() -> bool) {
    while !holds() {
        thread::yield_now();
    }
}

/// A thread does something over and over, which takes no memory, and is stopped in between for a look, until that finds what it looks
/// for.
fn stop_within(mut act: impl FnMut() + Send, mut look: impl FnMut() -> bool) {
    let (over, id) = (AtomicBool::new(false), AtomicU64::new(0));
    thread::scope(|scope| {
        scope.spawn(|| {
            // SAFETY: it only tells which thread this is.
            id.store(unsafe { pthread_self() }, SeqCst);
            while !over.load(SeqCst) {
                act();
            }
        });
        wait_until(|| id.load(SeqCst) != 0);
        let found = (0..1_000_000).any(|_| {
            STOPS.store(true, SeqCst);
            // SAFETY: the thread runs until it is told that it is over.
            unsafe { pthread_kill(id.load(SeqCst), SIGUSR1) };
            wait_until(|| RESTS.load(SeqCst));
            let found = look();
            STOPS.store(false, SeqCst);
            wait_until(|| !RESTS.load(SeqCst));
            found
        });
        over.store(true, SeqCst);
        assert!(found, "no stop within a call");
    });
}

/// A thread stopped with the lock of Tail, and one with that of Head: who needs it finds the queue busy.
fn locks_are_held() {
    let busy = Err(Refusal::Busy);
    let (mut givers, mut takers) = queue(Kind::TwoLock, 16, 2, 2).unwrap();
    let (mut giver, mut taker) = (givers.remove(1), takers.remove(1));
    let (sender, receiver) = (&mut givers[0], &mut takers[0]);
    let mut act = move || {
        let _ = giver.try_push(7, TURNS);
        let _ = taker.try_pop(TURNS);
    };
    stop_within(&mut act, || {
        let told = sender.try_push(7, TURNS);
        if told == busy {
            assert_eq!(sender.try_shut(TURNS), busy);
        } else {
            // (So that the queue isn't full at last, where a push lacks a node before it looks at the lock.)
            let _ = receiver.try_pop(TURNS);
        }
        told == busy
    });
    stop_within(act, || receiver.try_pop(TURNS) == Err(Refusal::Busy));
}

/// The same of a queue of values: a try is busy, and a call with a time is late.
fn locks_of_values_are_held() {
    let queue = Queue::of(Kind::TwoLock, 16, 4).unwrap();
    let act = || {
        let _ = queue.try_push(7);
        let _ = queue.try_pop();
    };
    stop_within(act, || {
        let is_busy = queue.try_push(7).map_err(|it| it.why) == Err(Missed::Busy);
        if is_busy {
            let told = queue.push_timeout(7, SOON).map_err(|it| it.why);
            assert_eq!(told, Err(Missed::TimedOut));
        } else {
            let _ = queue.pop_timeout(SOON);
        }
        is_busy
    });
    stop_within(act, || {
        let is_busy = queue.try_pop() == Err(Missed::Busy);
        assert!(!is_busy || queue.pop_timeout(SOON) == Err(Missed::TimedOut));
        is_busy
    });
}

/// A thread stopped before it has filled the place at the front of a ring, which is then shut: it holds the value, which no pop gets
/// yet.
fn a_place_is_claimed() {
    let (mut givers, mut takers) = queue(Kind::Ring, 16, 2, 2).unwrap();
    let (mut giver, mut taker) = (givers.remove(1), takers.remove(1));
    let (sender, receiver) = (&mut givers[0], &mut takers[0]);
    let act = move || {
        let _ = giver.try_push(7, TURNS);
        let _ = taker.try_pop(TURNS);
    };
    stop_within(act, || {
        let claimed = receiver.try_pop(TURNS) == Err(Refusal::Busy);
        if claimed {
            assert_eq!(sender.try_shut(TURNS), Ok(()));
            assert_eq!(receiver.try_pop(TURNS), Err(Refusal::Busy), "not empty");
        }
        claimed
    });
}

// (one test, since a signal stops one thread)
#[test]
fn calls_are_busy_beside_a_stopped_thread() {
    // SAFETY: the handler calls nothing that may not be called there.
    unsafe { signal(SIGUSR1, stop_here) };
    locks_are_held();
    locks_of_values_are_held();
    a_place_is_claimed();
}
