//! Ends that come early: of a queue of replies, which who pops the reply drops, beside who rings for it; of one that is closed and
//! dropped; and of values whose drops panic.
use msq::channel::{bounded, bounded_of};
use msq::{Kind, Missed, Queue};
use std::panic::{catch_unwind, AssertUnwindSafe};
use std::sync::atomic::Ordering::SeqCst;
use std::sync::atomic::{AtomicBool, AtomicUsize};
use std::sync::Arc;
use std::thread;
use std::time::Duration;

const KINDS: [Kind; 3] = [Kind::NonBlocking, Kind::TwoLock, Kind::Ring];

/// A request has the sender of its reply, whose receiver goes as soon as the reply came.
#[test]
fn a_reply_ends_its_channel() {
    for kind in KINDS {
        let (asks, asked) = bounded(2);
        thread::scope(|scope| {
            scope.spawn(move || {
                for (number, reply) in asked {
                    let reply: msq::channel::Sender<u64> = reply;
                    reply.send(2 * number).unwrap();
                }
            });
            for number in 0..3000 {
                let (reply, replied) = bounded_of(kind, 1, 2).unwrap();
                asks.send((number, reply)).unwrap();
                assert_eq!(replied.recv(), Ok(2 * number));
            }
            drop(asks);
        });
    }
}

/// Who is told of the close drops the last share but one, beside who closes.
#[test]
fn a_close_ends_its_queue() {
    for kind in KINDS {
        for _ in 0..1000 {
            let queue = Arc::new(Queue::of(kind, 4, 2).unwrap());
            let other = Arc::clone(&queue);
            let takes = thread::spawn(move || while other.pop().is_ok() {});
            queue.push(1).unwrap();
            queue.close();
            drop(queue);
            takes.join().unwrap();
        }
    }
}

/// A loop around a pop with a time tells a close from a time that is over.
#[test]
fn a_late_pop_is_no_close() {
    let queue = Queue::<u8>::new(4).unwrap();
    let was_late = AtomicBool::new(false);
    thread::scope(|scope| {
        scope.spawn(|| {
            while !was_late.load(SeqCst) {
                thread::yield_now();
            }
            queue.push(1).unwrap();
            queue.close();
        });
        let (mut came, mut late) = (0, 0);
        loop {
            match queue.pop_timeout(Duration::from_millis(1)) {
                Ok(_) => came += 1,
                Err(Missed::TimedOut) => {
                    late += 1;
                    was_late.store(true, SeqCst);
                }
                Err(why) => break assert_eq!(why, Missed::Closed),
            }
        }
        assert!(came == 1 && late > 0);
    });
}

/// A value whose drop is counted, and panics where it is to.
struct Panics(Arc<AtomicUsize>, bool);

impl Drop for Panics {
    fn drop(&mut self) {
        self.0.fetch_add(1, SeqCst);
        if self.1 {
            panic!("a drop");
        }
    }
}

/// Whether this panics with what the drop says.
fn panics(act: impl FnOnce()) -> bool {
    let panic = catch_unwind(AssertUnwindSafe(act)).unwrap_err();
    panic.downcast_ref() == Some(&"a drop")
}

#[test]
fn a_drop_that_panics_drops_the_others_too() {
    for kind in KINDS {
        let dropped = Arc::new(AtomicUsize::new(0));
        let value = |number| Panics(Arc::clone(&dropped), number % 2 == 0);
        let queue = Queue::of(kind, 8, 2).unwrap();
        (0..8).for_each(|number| queue.push(value(number)).unwrap());
        assert!(panics(|| drop(queue)));
        assert_eq!(dropped.swap(0, SeqCst), 8);

        let (sender, receiver) = bounded_of(kind, 8, 2).unwrap();
        (0..8).for_each(|number| sender.send(value(number)).unwrap());
        assert!(panics(|| drop(receiver)));
        assert_eq!(dropped.swap(0, SeqCst), 8);
        assert!(panics(|| drop(sender.send(value(0)))));
        assert_eq!(dropped.swap(0, SeqCst), 1);
        drop(sender);

        // (also where the thread panics already)
        let queue = Queue::of(kind, 8, 2).unwrap();
        (0..8).for_each(|number| queue.push(value(number)).unwrap());
        let both = catch_unwind(AssertUnwindSafe(|| {
            let _queue = queue;
            panic!("a panic");
        }));
        assert_eq!(both.unwrap_err().downcast_ref(), Some(&"a panic"));
        assert_eq!(dropped.load(SeqCst), 8);
    }
}
