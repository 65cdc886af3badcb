//! What each call of a queue of values, and of a channel, answers in each case that it has an answer for, and what becomes of values.
use msq::channel::{
    bounded, bounded_of, try_bounded, RecvError, RecvTimeoutError, SendError, SendTimeoutError, TryRecvError,
    TrySendError,
};
use msq::{Kind, Missed, Queue, Refusal};
use std::sync::atomic::AtomicIsize;
use std::sync::atomic::Ordering::SeqCst;
use std::sync::Arc;
use std::thread;
use std::time::{Duration, Instant};

const KINDS: [Kind; 3] = [Kind::NonBlocking, Kind::TwoLock, Kind::Ring];
const SHORT: Duration = Duration::from_millis(1);

/// A value of which those alive are counted.
struct Counted(Arc<AtomicIsize>, u64);

impl Counted {
    fn new(alive: &Arc<AtomicIsize>, number: u64) -> Counted {
        alive.fetch_add(1, SeqCst);
        Counted(Arc::clone(alive), number)
    }
}

impl Drop for Counted {
    fn drop(&mut self) {
        self.0.fetch_sub(1, SeqCst);
    }
}

#[test]
fn no_queue_has_such_sizes() {
    for kind in KINDS {
        let refused = |capacity, threads| Queue::<u8>::of(kind, capacity, threads).err();
        assert_eq!(refused(0, 1), Some(Refusal::ZeroCapacity), "no place");
        assert_eq!(refused(1, 0), Some(Refusal::BadSize), "no thread");
        let most = u32::MAX as usize;
        assert_eq!(refused(most, 1), Some(Refusal::BadSize), "too many nodes");
        assert_eq!(refused(usize::MAX, 9), Some(Refusal::BadSize), "more than a number has");
        assert_eq!(
            refused(1, 1 << 15),
            if kind == Kind::Ring { Some(Refusal::BadSize) } else { None },
            "too many calls"
        );
    }
    assert!(matches!(try_bounded::<u8>(0), Err(Refusal::ZeroCapacity)));
    assert_eq!(Queue::<String>::new(0).err(), Some(Refusal::ZeroCapacity));
}

#[test]
#[should_panic(expected = "a channel for 0 values: there is no queue without room")]
fn a_channel_without_room_panics() {
    bounded::<u8>(0);
}

#[test]
fn a_queue_answers() {
    for kind in KINDS {
        let queue = Queue::of(kind, 2, 1).unwrap();
        let text = |text: &str| text.to_string();
        let over = |why| Err((why, text("over")));
        let told = |pushed: Result<(), msq::PushError<String>>| pushed.map_err(|it| (it.why, it.value));
        assert_eq!((queue.capacity(), queue.len()), (2, 0));
        assert!(queue.is_empty() && !queue.is_full());
        assert_eq!(queue.try_pop(), Err(Missed::Empty));
        assert_eq!(queue.pop_timeout(SHORT), Err(Missed::TimedOut));
        queue.push(text("one")).unwrap();
        queue.try_push(text("two")).unwrap();
        assert!(queue.is_full() && queue.len() == 2);
        assert_eq!(told(queue.try_push(text("over"))), over(Missed::Full));
        assert_eq!(told(queue.push_timeout(text("over"), SHORT)), over(Missed::TimedOut));
        assert_eq!(queue.try_pop(), Ok(text("one")));
        assert_eq!(queue.pop(), Ok(text("two")));
        queue.push_timeout(text("last"), SHORT).unwrap();
        queue.close();
        queue.close();
        assert_eq!(told(queue.push(text("over"))), over(Missed::Closed));
        assert_eq!(told(queue.try_push(text("over"))), over(Missed::Closed));
        assert_eq!(told(queue.push_timeout(text("over"), SHORT)), over(Missed::Closed));
        assert_eq!(queue.pop_timeout(SHORT), Ok(text("last")));
        assert_eq!(queue.try_pop(), Err(Missed::Closed));
        assert_eq!(queue.pop_timeout(SHORT), Err(Missed::Closed));
        assert_eq!(queue.pop(), Err(Missed::Closed));
        assert_eq!(format!("{queue:?}"), "Queue { capacity: 2, .. }");
        let closed = queue.push(text("late")).unwrap_err();
        assert_eq!(format!("{closed:?}: {closed}"), "PushError(Closed, ..): the queue is closed");
    }
}

#[test]
fn a_channel_answers() {
    let (sender, receiver) = bounded(1);
    assert_eq!(receiver.try_recv(), Err(TryRecvError::Empty));
    assert_eq!(receiver.recv_timeout(SHORT), Err(RecvTimeoutError::Timeout));
    assert_eq!(receiver.recv_deadline(Instant::now()), Err(RecvTimeoutError::Timeout));
    assert_eq!(sender.send(1), Ok(()));
    assert!(sender.is_full() && !receiver.is_empty() && sender.capacity() == 1);
    assert_eq!(sender.try_send(3), Err(TrySendError::Full(3)));
    assert_eq!(sender.send_timeout(3, SHORT), Err(SendTimeoutError::Timeout(3)));
    assert_eq!(sender.send_deadline(3, Instant::now()), Err(SendTimeoutError::Timeout(3)));
    assert_eq!(receiver.recv(), Ok(1));
    assert_eq!(sender.try_send(2), Ok(()));
    assert_eq!(receiver.recv_timeout(SHORT), Ok(2));
    assert_eq!(sender.send_timeout(3, SHORT), Ok(()));
    drop(sender);
    assert!(receiver.try_iter().eq([3]));
    assert_eq!(receiver.try_recv(), Err(TryRecvError::Disconnected));
    assert_eq!(receiver.recv_timeout(SHORT), Err(RecvTimeoutError::Disconnected));
    assert_eq!(receiver.recv_deadline(Instant::now()), Err(RecvTimeoutError::Disconnected));
    assert_eq!(receiver.recv(), Err(RecvError::Disconnected));
    assert_eq!(receiver.into_iter().next(), None);
}

#[test]
fn a_channel_has_just_the_room_that_was_asked_for() {
    for capacity in 1..10 {
        let (sender, receiver) = bounded(capacity);
        for round in 0..100 {
            let taken = (0..100).take_while(|_| sender.try_send(round).is_ok());
            assert_eq!(taken.count(), capacity);
            assert_eq!(receiver.recv(), Ok(round));
            assert_eq!(sender.try_send(round), Ok(()));
            assert!(sender.is_full() && sender.try_send(round) == Err(TrySendError::Full(round)));
            assert_eq!(receiver.try_iter().count(), capacity);
        }
    }
}

#[test]
fn a_place_is_handed_from_hand_to_hand() {
    let (sender, receiver) = bounded(1);
    thread::scope(|scope| {
        for number in 0..3 {
            let sender = sender.clone();
            scope.spawn(move || (0..2000).for_each(|it| sender.send((number, it)).unwrap()));
        }
        drop(sender);
        let mut next = [0; 3];
        for (number, it) in receiver {
            assert_eq!(it, next[number]);
            next[number] += 1;
        }
        assert_eq!(next, [2000; 3]);
    });
}

#[test]
fn with_the_last_receiver_sends_end() {
    let (sender, receiver) = bounded(4);
    let further = receiver.clone();
    assert!(receiver.same_channel(&further));
    drop(receiver);
    assert_eq!(sender.send(1), Ok(()));
    drop(further);
    assert_eq!(sender.send(2).unwrap_err().into_inner(), 2);
    assert_eq!(sender.try_send(2), Err(TrySendError::Disconnected(2)));
    assert_eq!(sender.send_timeout(2, SHORT), Err(SendTimeoutError::Disconnected(2)));
    assert_eq!(sender.send_deadline(2, Instant::now()), Err(SendTimeoutError::Disconnected(2)));
    assert_eq!(format!("{sender:?}"), "Sender { .. }");
}

#[test]
fn what_is_in_a_channel_goes_with_its_receiver() {
    for kind in KINDS {
        let (asks, asked) = bounded_of(kind, 8, 4).unwrap();
        let (answers, answered) = bounded::<u32>(1);
        asks.send(answers).unwrap();
        drop(asked);
        assert!(answered.recv().unwrap_err().is_disconnected());
    }
}

#[test]
fn errors_give_values_back() {
    assert_eq!((SendError::Worn(1).into_inner(), SendError::Disconnected(2).into_inner()), (1, 2));
    let tried = [TrySendError::Full(1), TrySendError::Busy(2), TrySendError::Worn(3), TrySendError::Disconnected(4)];
    assert_eq!(tried.map(TrySendError::into_inner), [1, 2, 3, 4]);
    let late = [SendTimeoutError::Timeout(1), SendTimeoutError::Worn(2), SendTimeoutError::Disconnected(3)];
    assert_eq!(late.map(SendTimeoutError::into_inner), [1, 2, 3]);
    assert!(SendError::Worn(1).is_worn() && !SendError::Worn(1).is_disconnected());
    assert!(
        TrySendError::Full(1).is_full() && TryRecvError::Empty.is_empty() && RecvTimeoutError::Timeout.is_timeout()
    );
}

#[test]
fn a_sleeper_is_woken_by_the_last_sender() {
    let (sender, receiver) = bounded::<u8>(1);
    thread::scope(|scope| {
        let waits = scope.spawn(|| receiver.recv());
        thread::sleep(Duration::from_millis(20));
        drop(sender);
        assert_eq!(waits.join().unwrap(), Err(RecvError::Disconnected));
    });
}

#[test]
fn all_that_sleep_are_told_of_an_end() {
    for kind in KINDS {
        let (queue, full) = (Queue::<u8>::of(kind, 1, 4).unwrap(), Queue::of(kind, 1, 4).unwrap());
        let (sender, receiver) = bounded_of::<u8>(kind, 1, 4).unwrap();
        full.push(0).unwrap();
        thread::scope(|scope| {
            let receiver = &receiver;
            let pops = [(); 3].map(|()| scope.spawn(|| queue.pop()));
            let pushes = [(); 3].map(|()| scope.spawn(|| full.push(1)));
            let receives = [(); 3].map(|()| scope.spawn(|| receiver.recv()));
            thread::sleep(Duration::from_millis(50));
            queue.close();
            full.close();
            drop(sender);
            pops.into_iter().for_each(|it| assert_eq!(it.join().unwrap(), Err(Missed::Closed)));
            pushes.into_iter().for_each(|it| assert_eq!(it.join().unwrap().unwrap_err().why, Missed::Closed));
            receives.into_iter().for_each(|it| assert_eq!(it.join().unwrap(), Err(RecvError::Disconnected)));
        });
        assert_eq!(full.pop(), Ok(0));
    }
}

#[test]
fn what_is_left_is_dropped() {
    for kind in KINDS {
        let alive = Arc::new(AtomicIsize::new(0));
        let queue = Queue::of(kind, 8, 2).unwrap();
        for number in 0..8 {
            assert!(queue.push(Counted::new(&alive, number)).is_ok());
        }
        assert!(queue.pop().is_ok_and(|it| it.1 == 0));
        assert_eq!(alive.load(SeqCst), 7);
        drop(queue);
        assert_eq!(alive.load(SeqCst), 0);
    }
}

#[test]
fn threads_come_and_go() {
    const TIMES: usize = 100;
    for (kind, calls) in KINDS.into_iter().flat_map(|kind| [1, 10, 100].map(|calls| (kind, calls))) {
        let queue = Queue::of(kind, 400, calls).unwrap();
        // (each pushes its own values, and pops as many, of any threads)
        let run = |number: usize| {
            (0..TIMES).filter(|time| queue.push(Box::new((number, *time))).is_ok() && queue.pop().is_ok()).count()
        };
        let done: usize = thread::scope(|scope| {
            let staying: Vec<_> = (0..100).map(|number| scope.spawn(move || run(number))).collect();
            let went: usize = (100..200).map(|number| scope.spawn(move || run(number)).join().unwrap()).sum();
            went + staying.into_iter().map(|it| it.join().unwrap()).sum::<usize>()
        });
        assert_eq!((done, queue.len()), (200 * TIMES, 0), "{kind:?}, {calls}");
    }
}

/// Calls a queue as its thread ends, where what the thread had of the crate may be gone.
struct PushesAsItEnds(Arc<Queue<u64>>);

impl Drop for PushesAsItEnds {
    fn drop(&mut self) {
        self.0.push(8).unwrap();
    }
}

thread_local! {
    static FIRST: std::cell::OnceCell<PushesAsItEnds> = const { std::cell::OnceCell::new() };
    static LAST: std::cell::OnceCell<PushesAsItEnds> = const { std::cell::OnceCell::new() };
}

#[test]
fn a_thread_that_is_ending_still_calls() {
    for kind in KINDS {
        let queue = Arc::new(Queue::of(kind, 200, 100).unwrap());
        let ending = || PushesAsItEnds(Arc::clone(&queue));
        thread::scope(|scope| {
            let thread = scope.spawn(|| {
                FIRST.with(|it| assert!(it.set(ending()).is_ok()));
                queue.push(7).unwrap();
                LAST.with(|it| assert!(it.set(ending()).is_ok()));
            });
            // (a scope doesn't wait for what is dropped as a thread ends)
            thread.join().unwrap();
        });
        assert_eq!([queue.pop(), queue.pop(), queue.pop()], [Ok(7), Ok(8), Ok(8)], "{kind:?}");
    }
}

#[test]
fn values_without_bytes_pass() {
    let queue = Queue::new(3).unwrap();
    assert_eq!(queue.push(()), Ok(()));
    assert_eq!(queue.pop(), Ok(()));
}

// Whether values come as they were, through a queue of each kind.
fn come<T: Clone + Send + PartialEq + std::fmt::Debug>(values: &[T]) {
    for kind in KINDS {
        let queue = Queue::of(kind, 8, 1).unwrap();
        for value in values {
            queue.push(value.clone()).unwrap();
        }
        for value in values {
            assert_eq!(queue.pop(), Ok(value.clone()), "{kind:?}");
        }
    }
}

#[test]
fn values_come_as_they_were() {
    come(&[0u8, 1, u8::MAX]);
    come(&[0u64, 1 << 48, u64::MAX]);
    come(&[f64::MIN, -0.0, f64::INFINITY]);
    come(&["", "text"]);
    come(&[String::new(), "text".to_string()]);
    come(&[vec![1u8], Vec::new()]);
    come(&[None, Some(Box::new(7))]);
    come(&[[7u8; 24], [0; 24]]);
    come(&[[7u8; 25], [0; 25]]);
    come(&[u128::MAX, 0]);
}

#[test]
fn large_values_that_are_left_are_dropped() {
    let alive = Arc::new(AtomicIsize::new(0));
    for kind in KINDS {
        let queue = Queue::of(kind, 8, 2).unwrap();
        for number in 0..8 {
            queue.push((Counted::new(&alive, number), [number; 8])).unwrap();
        }
        assert!(matches!(queue.pop(), Ok((_, [0, ..]))));
        assert_eq!(alive.load(SeqCst), 7);
        drop(queue);
        assert_eq!(alive.load(SeqCst), 0, "{kind:?}");
    }
}
