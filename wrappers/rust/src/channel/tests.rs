//! What the crate alone can bring about, and its refusals.
use super::*;
use crate::waits::{thread_number, NUMBERS};
use crate::{answer, raw, Missed, Queue, REFUSALS};
use std::sync::{Barrier, Mutex};
use std::thread;

const SHORT: Duration = Duration::from_millis(1);

#[test]
fn a_worn_channel_is_told() {
    for kind in [Kind::NonBlocking, Kind::TwoLock, Kind::Ring] {
        let (sender, receiver) = ends_of(Values::new(kind, 2, 1, 1).unwrap());
        while sender.try_send(7).is_ok() {
            let _ = receiver.try_recv();
        }
        assert_eq!(sender.send(7), Err(SendError::Worn(7)), "{kind:?}");
        assert_eq!(sender.try_send(7), Err(TrySendError::Worn(7)), "{kind:?}");
        let late = sender.send_timeout(7, SHORT);
        assert_eq!(late, Err(SendTimeoutError::Worn(7)), "{kind:?}");
    }
}

#[test]
fn a_worn_queue_is_told() {
    for kind in [Kind::NonBlocking, Kind::TwoLock, Kind::Ring] {
        let queue = Queue { values: Values::new(kind, 2, 1, 1).unwrap() };
        while queue.try_push(7).is_ok() {
            let _ = queue.try_pop();
        }
        let why = |pushed: Result<(), crate::PushError<_>>| pushed.unwrap_err().why;
        assert_eq!(why(queue.push(7)), Missed::Worn, "{kind:?}");
        assert_eq!(why(queue.try_push(7)), Missed::Worn, "{kind:?}");
        assert_eq!(why(queue.push_timeout(7, SHORT)), Missed::Worn, "{kind:?}");
        while queue.try_pop().is_ok() {}
        assert_eq!(queue.pop(), Err(Missed::Worn), "{kind:?}");
        assert_eq!(queue.pop_timeout(SHORT), Err(Missed::Worn), "{kind:?}");
    }
}

#[test]
fn what_a_worn_channel_keeps_is_dropped_with_it() {
    for kind in [Kind::NonBlocking, Kind::TwoLock, Kind::Ring] {
        for limit in 1..40 {
            let value = Arc::new(());
            let (sender, receiver) = ends_of(Values::new(kind, 8, 1, limit).unwrap());
            for number in 0..100 {
                let _ = sender.try_send(Arc::clone(&value));
                if number > 2 {
                    let _ = receiver.try_recv();
                }
            }
            drop(sender);
            drop(receiver);
            assert_eq!(Arc::strong_count(&value), 1, "{kind:?}, {limit}");
        }
    }
}

#[test]
fn a_try_beside_calls_with_all_handles_is_busy() {
    let (sender, receiver) = bounded_of(Kind::Ring, 2, 1).unwrap();
    let busy = || {
        assert_eq!(sender.try_send(7), Err(TrySendError::Busy(7)));
        assert_eq!(receiver.try_recv(), Err(TryRecvError::Busy));
    };
    sender.shared.values.steps.beside_all_calls(busy);
    assert_eq!(sender.try_send(7), Ok(()));
    assert_eq!(receiver.try_recv(), Ok(7));
}

#[test]
fn a_thread_has_a_handle_of_its_own_and_leases_within_a_call() {
    for (capacity, calls, due) in [(1, 9, 9), (200, 100, 101)] {
        let queue = Queue::<u8>::of(Kind::NonBlocking, capacity, calls).unwrap();
        for _ in 0..2 {
            let busy = || assert_eq!(queue.try_pop(), Err(Missed::Busy));
            assert_eq!(queue.values.steps.beside_all_calls(busy), due);
        }
        assert_eq!(queue.try_pop(), Err(Missed::Empty));
    }
    assert!(Queue::<u8>::of(Kind::Ring, 200, i16::MAX as u16).is_ok(), "the most calls");
}

#[test]
fn numbers_of_living_threads_are_others() {
    for _ in 0..3 {
        let (all_live, numbers) = (Barrier::new(100), Mutex::new(Vec::new()));
        thread::scope(|scope| {
            for _ in 0..100 {
                scope.spawn(|| {
                    numbers.lock().unwrap().push(thread_number());
                    assert!(numbers.lock().unwrap().contains(&thread_number()), "it stays");
                    all_live.wait();
                });
            }
        });
        let mut numbers = numbers.into_inner().unwrap();
        numbers.retain(|it| *it < NUMBERS);
        let count = numbers.len();
        numbers.sort_unstable();
        numbers.dedup();
        assert!(numbers.len() == count && count > NUMBERS / 2, "{numbers:?}");
    }
}

// (there is room for one value at least, so that no room is a size out of range for the library)
#[test]
fn each_refusal_has_its_code_and_its_words() {
    assert_eq!(answer(raw::OK), Ok(()));
    for (k, (refusal, code, words)) in REFUSALS.iter().enumerate() {
        let others = || REFUSALS.iter().take(k);
        assert_eq!(refusal.to_string(), *words);
        assert!(others().all(|other| other.2 != *words));
        if *refusal != Refusal::ZeroCapacity {
            assert_eq!(answer(*code), Err(*refusal));
            assert!(others().all(|other| other.1 != *code));
        }
    }
}
