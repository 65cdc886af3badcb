//! Times queues of values: `typed QUEUE TYPE KIND COUNT` prints how many nanoseconds the works of KIND took, each thread COUNT times.
//!
//! QUEUE is non-blocking, two-lock or ring, which are `msq::Queue`'s, channel or channel-ring, which are `msq::channel`'s,
//! crossbeam-channel, crossbeam-array, or std's channel, which has one receiver; TYPE is number, words or text. KIND is one, four, pair,
//! two, three or one-three; bench/queues/works.rs says what a thread does in each.
use std::process::exit;
use std::sync::mpsc::{sync_channel, Receiver, SyncSender, TrySendError};
use std::sync::Mutex;
use std::thread;
use std::time::Instant;

const ROOM: usize = 64;

/// What goes through a queue.
trait Value: Send + Sized {
    fn made(number: u64) -> Self;
}

impl Value for u64 {
    fn made(number: u64) -> u64 {
        number
    }
}

impl Value for [u64; 3] {
    fn made(number: u64) -> [u64; 3] {
        [number; 3]
    }
}

impl Value for String {
    fn made(number: u64) -> String {
        format!("a text that is in memory of its own, {number}")
    }
}

/// A queue: a value that isn't pushed comes back.
trait Queue<T>: Sync {
    fn push(&self, value: T) -> Result<(), T>;
    fn pop(&self) -> Option<T>;
}

impl<T: Send> Queue<T> for msq::Queue<T> {
    fn push(&self, value: T) -> Result<(), T> {
        self.try_push(value).map_err(|refused| refused.value)
    }

    fn pop(&self) -> Option<T> {
        self.try_pop().ok()
    }
}

impl<T: Send> Queue<T> for (msq::channel::Sender<T>, msq::channel::Receiver<T>) {
    fn push(&self, value: T) -> Result<(), T> {
        self.0.try_send(value).map_err(msq::channel::TrySendError::into_inner)
    }

    fn pop(&self) -> Option<T> {
        self.1.try_recv().ok()
    }
}

#[cfg(crossbeam)]
impl<T: Send> Queue<T> for (crossbeam_channel::Sender<T>, crossbeam_channel::Receiver<T>) {
    fn push(&self, value: T) -> Result<(), T> {
        self.0.try_send(value).map_err(crossbeam_channel::TrySendError::into_inner)
    }

    fn pop(&self) -> Option<T> {
        self.1.try_recv().ok()
    }
}

#[cfg(crossbeam)]
impl<T: Send> Queue<T> for crossbeam_queue::ArrayQueue<T> {
    fn push(&self, value: T) -> Result<(), T> {
        crossbeam_queue::ArrayQueue::push(self, value)
    }

    fn pop(&self) -> Option<T> {
        crossbeam_queue::ArrayQueue::pop(self)
    }
}

/// A channel of std's, whose receiver one thread has at a time.
struct Std<T>(SyncSender<T>, Mutex<Receiver<T>>);

impl<T> Std<T> {
    fn new() -> Std<T> {
        let (sender, receiver) = sync_channel(ROOM);
        Std(sender, Mutex::new(receiver))
    }
}

impl<T: Send> Queue<T> for Std<T> {
    fn push(&self, value: T) -> Result<(), T> {
        self.0.try_send(value).map_err(|unsent| match unsent {
            TrySendError::Full(value) | TrySendError::Disconnected(value) => value,
        })
    }

    fn pop(&self) -> Option<T> {
        self.1.try_lock().ok()?.try_recv().ok()
    }
}

#[derive(Clone, Copy, PartialEq)]
enum Work {
    Pairs,
    Pushes,
    Pops,
}

/// As crossbeam's Backoff: spins longer each time, and then yields. Each call makes its own.
#[derive(Default)]
struct Backoff {
    step: u32,
}

impl Backoff {
    fn snooze(&mut self) {
        if self.step <= 6 {
            for _ in 0..1 << self.step {
                std::hint::spin_loop();
            }
        } else {
            thread::yield_now();
        }
        if self.step <= 10 {
            self.step += 1;
        }
    }
}

fn works<T: Value, Q: Queue<T>>(queue: &Q, work: Work, count: u64) {
    for number in 0..count {
        if !matches!(work, Work::Pops) {
            let (mut value, mut backoff) = (T::made(number), Backoff::default());
            while let Err(back) = queue.push(value) {
                value = back;
                backoff.snooze();
            }
        }
        if !matches!(work, Work::Pushes) {
            let mut backoff = Backoff::default();
            while queue.pop().is_none() {
                backoff.snooze();
            }
        }
    }
}

/// How often a thread of this work does it while one of the others does its own once, where all that is pushed is popped.
fn share(kind: &[Work], work: Work) -> u64 {
    let of = |which: Work| kind.iter().filter(|its| **its == which).count().max(1);
    let share = match work {
        Work::Pushes => of(Work::Pops) / of(Work::Pushes),
        Work::Pops => of(Work::Pushes) / of(Work::Pops),
        Work::Pairs => 1,
    };
    share.max(1) as u64
}

fn time_of<T: Value, Q: Queue<T>>(queue: &Q, kind: &[Work], count: u64) -> u128 {
    let began = Instant::now();
    thread::scope(|scope| {
        for &work in kind {
            scope.spawn(move || works(queue, work, count * share(kind, work)));
        }
    });
    began.elapsed().as_nanos()
}

fn time_in<T: Value>(name: &str, kind: &[Work], count: u64) -> Option<u128> {
    let of = |kind_of| msq::Queue::<T>::of(kind_of, ROOM, 4).ok();
    Some(match name {
        "non-blocking" => time_of(&of(msq::Kind::NonBlocking)?, kind, count),
        "two-lock" => time_of(&of(msq::Kind::TwoLock)?, kind, count),
        "ring" => time_of(&of(msq::Kind::Ring)?, kind, count),
        "channel" => time_of(&msq::channel::bounded_of::<T>(msq::Kind::NonBlocking, ROOM, 4).ok()?, kind, count),
        "channel-ring" => time_of(&msq::channel::bounded_of::<T>(msq::Kind::Ring, ROOM, 4).ok()?, kind, count),
        #[cfg(crossbeam)]
        "crossbeam-channel" => time_of(&crossbeam_channel::bounded::<T>(ROOM), kind, count),
        #[cfg(crossbeam)]
        "crossbeam-array" => time_of(&crossbeam_queue::ArrayQueue::<T>::new(ROOM), kind, count),
        "std" => time_of(&Std::<T>::new(), kind, count),
        _ => return None,
    })
}

fn main() {
    let words: Vec<String> = std::env::args().skip(1).collect();
    let [queue, of, kind, count] = words.as_slice() else {
        eprintln!("typed QUEUE number|words|text one|four|pair|two|three|one-three COUNT");
        exit(2)
    };
    let kind: &[Work] = match kind.as_str() {
        "one" => &[Work::Pairs],
        "four" => &[Work::Pairs; 4],
        "pair" => &[Work::Pushes, Work::Pops],
        "three" => &[Work::Pushes, Work::Pushes, Work::Pushes, Work::Pops],
        "one-three" => &[Work::Pushes, Work::Pops, Work::Pops, Work::Pops],
        _ => &[Work::Pushes, Work::Pushes, Work::Pops, Work::Pops],
    };
    let count = count.parse().unwrap_or(0);
    let time = match of.as_str() {
        "number" => time_in::<u64>(queue, kind, count),
        "words" => time_in::<[u64; 3]>(queue, kind, count),
        _ => time_in::<String>(queue, kind, count),
    };
    match time {
        Some(time) => println!("{time}"),
        None => exit(2),
    }
}
