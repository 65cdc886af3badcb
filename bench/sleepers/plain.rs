//! Values handed to a thread that sleeps for them, as `stress sleepers` hands them, in plain Rust: through a channel of the standard
//! library, or of crossbeam-channel where that is there, without a bound or with one, or a `VecDeque` behind a lock with a condition
//! variable.
//!
//! `plain mpsc|mpsc-bounded|crossbeam|crossbeam-bounded|mutex COUNT` prints how many nanoseconds each of so many values was under way.
use std::collections::VecDeque;
use std::sync::{Condvar, Mutex, mpsc};
use std::thread;
use std::time::{Duration, Instant};

const PAUSE: Duration = Duration::from_micros(200);
const BOUND: usize = 64;

/// Sends so many values, each after a pause: the time at which it is sent.
fn send_all(start: Instant, count: usize, send: impl Fn(u64)) {
    for _ in 0..count {
        thread::sleep(PAUSE);
        send(start.elapsed().as_nanos() as u64);
    }
}

/// How long each value was under way.
fn receive_all(start: Instant, count: usize, receive: impl Fn() -> u64) -> Vec<u64> {
    (0..count)
        .map(|_| {
            let sent = receive();
            start.elapsed().as_nanos() as u64 - sent
        })
        .collect()
}

fn both(count: usize, send: impl Fn(u64) + Send, receive: impl Fn() -> u64 + Send) -> Vec<u64> {
    let start = Instant::now();
    thread::scope(|scope| {
        let receiver = scope.spawn(move || receive_all(start, count, receive));
        send_all(start, count, send);
        receiver.join().unwrap()
    })
}

struct Queue {
    values: Mutex<VecDeque<u64>>,
    comes: Condvar,
    goes: Condvar,
}

impl Queue {
    fn send(&self, value: u64) {
        let mut values = self.values.lock().unwrap();
        while values.len() == BOUND {
            values = self.goes.wait(values).unwrap();
        }
        values.push_back(value);
        drop(values);
        self.comes.notify_one();
    }

    fn receive(&self) -> u64 {
        let mut values = self.values.lock().unwrap();
        loop {
            if let Some(value) = values.pop_front() {
                drop(values);
                self.goes.notify_one();
                return value;
            }
            values = self.comes.wait(values).unwrap();
        }
    }
}

fn main() {
    let words: Vec<String> = std::env::args().skip(1).collect();
    let [way, count] = &words[..] else {
        eprintln!("plain mpsc|mpsc-bounded|crossbeam|crossbeam-bounded|mutex COUNT");
        return;
    };
    let count = count.parse().unwrap();
    let times = match &way[..] {
        "mpsc" => {
            let (sender, receiver) = mpsc::channel();
            both(count, move |value| sender.send(value).unwrap(), move || receiver.recv().unwrap())
        }
        "mpsc-bounded" => {
            let (sender, receiver) = mpsc::sync_channel(BOUND);
            both(count, move |value| sender.send(value).unwrap(), move || receiver.recv().unwrap())
        }
        #[cfg(crossbeam)]
        "crossbeam" => {
            let (sender, receiver) = crossbeam_channel::unbounded();
            both(count, move |value| sender.send(value).unwrap(), move || receiver.recv().unwrap())
        }
        #[cfg(crossbeam)]
        "crossbeam-bounded" => {
            let (sender, receiver) = crossbeam_channel::bounded(BOUND);
            both(count, move |value| sender.send(value).unwrap(), move || receiver.recv().unwrap())
        }
        _ => {
            let queue = Queue {
                values: Mutex::new(VecDeque::with_capacity(BOUND)),
                comes: Condvar::new(),
                goes: Condvar::new(),
            };
            both(count, |value| queue.send(value), || queue.receive())
        }
    };
    for time in times {
        println!("{time}");
    }
}
