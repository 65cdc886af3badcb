//! Queues of values written plainly, beside queues of the standard library and, where it is there, of crossbeam:
//! `plain QUEUE [kept] TYPE KIND COUNT` prints how many nanoseconds the works of KIND took, each thread COUNT times. TYPE is numbers,
//! word, or words, of which there are three.
#![allow(dead_code)]
#[path = "../queues/arena.rs"]
mod arena;
#[path = "../queues/nonblocking.rs"]
mod nonblocking;
#[path = "../queues/ring.rs"]
mod ring;
#[path = "../queues/runs.rs"]
mod runs;
#[path = "../queues/seats.rs"]
mod seats;
#[path = "../queues/two_lock.rs"]
mod two_lock;
mod values;
#[path = "../queues/works.rs"]
mod works;

use arena::{Algorithm, Apart};
use nonblocking::NonBlocking;
use ring::Ring;
use runs::total;
use seats::{ROOM, Seated};
use std::collections::VecDeque;
use std::sync::{Mutex, mpsc};
use two_lock::TwoLock;
use values::{ChannelEnd, Deque, RingValues, Value, Values};
use works::{KINDS, Kind, Work};

fn numbers<Q: Algorithm + Sync>(queue: Q, keeps: bool, kind: &Kind, count: u64) -> u128 {
    total((0..kind.works.len()).map(|number| Seated::new(&queue, number, keeps)).collect(), kind, count)
}

fn seated<T: Value, Q: Algorithm + Sync>(queue: Q, keeps: bool, kind: &Kind, count: u64) -> u128 {
    let values = Values::<Q, T>::new(queue, ROOM as u64 + 1);
    total((0..kind.works.len()).map(|number| values.handle(number, keeps)).collect(), kind, count)
}

fn channelled<T: Value, S: Clone>(sender: S, receiver: mpsc::Receiver<T>, kind: &Kind, count: u64) -> u128
where
    ChannelEnd<S, T>: seats::End,
{
    let mut receiver = Some(receiver);
    let end = |work: &Work| ChannelEnd {
        sender: sender.clone(),
        receiver: if *work == Work::Pushes { None } else { receiver.take() },
    };
    total(kind.works.iter().map(end).collect(), kind, count)
}

fn of_type<T: Value>(queue: &str, keeps: bool, kind: &Kind, count: u64) -> u128 {
    match queue {
        "non-blocking" => seated::<T, _>(NonBlocking::<Apart>::measured(ROOM), keeps, kind, count),
        "two-lock" => seated::<T, _>(TwoLock::<Apart>::measured(ROOM), keeps, kind, count),
        "ring" => total(RingValues::<T>::measured(4).handles().into_iter().take(kind.works.len()).collect(), kind, count),
        "mutex" => {
            let deque = Deque::<T>(Mutex::new(VecDeque::with_capacity(ROOM)));
            total(vec![&deque; kind.works.len()], kind, count)
        }
        "mpsc" => {
            let (sender, receiver) = mpsc::channel::<T>();
            channelled(sender, receiver, kind, count)
        }
        "mpsc-bounded" => {
            let (sender, receiver) = mpsc::sync_channel::<T>(ROOM);
            channelled(sender, receiver, kind, count)
        }
        #[cfg(crossbeam)]
        "crossbeam-array" => total(vec![&crossbeam_queue::ArrayQueue::<T>::new(ROOM); kind.works.len()], kind, count),
        #[cfg(crossbeam)]
        "crossbeam-segments" => total(vec![&crossbeam_queue::SegQueue::<T>::new(); kind.works.len()], kind, count),
        _ => panic!("a queue"),
    }
}

fn main() {
    let words: Vec<String> = std::env::args().skip(1).collect();
    let (keeps, words): (Vec<_>, Vec<_>) = words.iter().map(String::as_str).partition(|word| *word == "kept");
    let keeps = !keeps.is_empty();
    let &[queue, name, kind, count] = words.as_slice() else {
        return eprintln!("plain QUEUE [kept] numbers|word|words KIND COUNT");
    };
    let kind = KINDS.iter().find(|its| its.name == kind).expect("a kind of work");
    let count = count.parse().expect("a count");
    let time = match (name, queue) {
        ("numbers", "ring") => total(Ring::measured(4, ROOM).seats().take(kind.works.len()).collect(), kind, count),
        ("numbers", "two-lock") => numbers(TwoLock::<Apart>::measured(ROOM), keeps, kind, count),
        ("numbers", _) => numbers(NonBlocking::<Apart>::measured(ROOM), keeps, kind, count),
        ("word", _) => of_type::<u64>(queue, keeps, kind, count),
        _ => of_type::<[u64; 3]>(queue, keeps, kind, count),
    };
    println!("{time}");
}
