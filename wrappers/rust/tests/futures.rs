//! Sends and receives as futures, and selects: none is left asleep, and one that is dropped hands on what it was woken for.
use msq::channel::{bounded, bounded_of, RecvError, Select, SendError, Sender};
use msq::Kind;
use std::future::Future;
use std::pin::pin;
use std::sync::atomic::AtomicU64;
use std::sync::atomic::Ordering::SeqCst;
use std::sync::Arc;
use std::task::{Context, Poll, RawWaker, RawWakerVTable, Wake, Waker};
use std::thread::{self, Thread};
use std::time::Duration;

const KINDS: [Kind; 3] = [Kind::NonBlocking, Kind::TwoLock, Kind::Ring];

struct Unparks(Thread);

impl Wake for Unparks {
    fn wake(self: Arc<Self>) {
        self.0.unpark();
    }
}

fn waker() -> Waker {
    Waker::from(Arc::new(Unparks(thread::current())))
}

fn block_on<F: Future>(future: F) -> F::Output {
    let mut future = pin!(future);
    let waker = waker();
    loop {
        match future.as_mut().poll(&mut Context::from_waker(&waker)) {
            Poll::Ready(answer) => return answer,
            Poll::Pending => thread::park(),
        }
    }
}

#[test]
fn futures_and_threads_meet() {
    for kind in KINDS {
        for capacity in [1, 2, 64] {
            let (to, from) = bounded_of(kind, capacity, 2).unwrap();
            let sum = AtomicU64::new(0);
            thread::scope(|scope| {
                for sender in [to.clone(), to] {
                    scope.spawn(move || {
                        for number in 0..3000u64 {
                            if number % 3 == 0 {
                                block_on(sender.send_async(number)).unwrap();
                            } else {
                                sender.send(number).unwrap();
                            }
                        }
                    });
                }
                for (k, receiver) in [from.clone(), from].into_iter().enumerate() {
                    let sum = &sum;
                    scope.spawn(move || loop {
                        let came = if k == 0 { block_on(receiver.recv_async()) } else { receiver.recv() };
                        match came {
                            Ok(number) => sum.fetch_add(number, SeqCst),
                            Err(why) => break assert_eq!(why, RecvError::Disconnected),
                        };
                    });
                }
            });
            assert_eq!(sum.into_inner(), 2 * (0..3000).sum::<u64>());
        }
    }
}

#[test]
fn a_receive_is_ready_once_something_was_sent() {
    let (sender, receiver) = bounded(1);
    let waker = waker();
    let context = &mut Context::from_waker(&waker);
    let mut comes = pin!(receiver.recv_async());
    assert!(comes.as_mut().poll(context).is_pending());
    assert_eq!(pin!(sender.send_async(1)).poll(context), Poll::Ready(Ok(())));
    assert_eq!(comes.as_mut().poll(context), Poll::Ready(Ok(1)));
}

#[test]
fn a_future_that_is_dropped_hands_on() {
    for kind in KINDS {
        for _ in 0..50 {
            let (to, from) = bounded_of(kind, 1, 2).unwrap();
            let other = from.clone();
            let sleeper = thread::spawn(move || other.recv());
            let mut first = Box::pin(from.recv_async());
            let waker = waker();
            assert!(first.as_mut().poll(&mut Context::from_waker(&waker)).is_pending());
            thread::sleep(Duration::from_millis(1));
            // (it may wake the future, which is dropped without a look)
            to.send(7).unwrap();
            drop(first);
            assert_eq!(sleeper.join().unwrap(), Ok(7));
        }
    }
}

/// A waker that sends a value as it is cloned: after the future looked, and before it sleeps.
static SENDS: RawWakerVTable = RawWakerVTable::new(
    |sender| {
        // SAFETY: it is the address of a sender that outlives the waker.
        let _ = unsafe { &*sender.cast::<Sender<u8>>() }.try_send(7);
        RawWaker::new(sender, &SENDS)
    },
    |_| (),
    |_| (),
    |_| (),
);

#[test]
fn what_comes_before_the_sleep_is_seen() {
    for kind in KINDS {
        let (to, from) = bounded_of::<u8>(kind, 1, 2).unwrap();
        // SAFETY: the sender is there while the waker is.
        let waker = unsafe { Waker::from_raw(RawWaker::new(std::ptr::from_ref(&to).cast(), &SENDS)) };
        let comes = pin!(from.recv_async()).poll(&mut Context::from_waker(&waker));
        assert_eq!(comes, Poll::Ready(Ok(7)));
    }
}

#[test]
fn a_send_that_is_dropped_drops_its_value() {
    let value = Arc::new(());
    let (to, from) = bounded(1);
    to.send(Arc::clone(&value)).unwrap();
    let mut second = Box::pin(to.send_async(Arc::clone(&value)));
    let waker = waker();
    assert!(second.as_mut().poll(&mut Context::from_waker(&waker)).is_pending());
    assert_eq!(Arc::strong_count(&value), 3);
    drop(second);
    assert_eq!(Arc::strong_count(&value), 2);
    assert!(from.try_recv().is_ok() && from.try_recv().is_err());
    drop(from);
    assert_eq!(block_on(to.send_async(Arc::clone(&value))), Err(SendError::Disconnected(Arc::clone(&value))));
    assert_eq!(Arc::strong_count(&value), 1);
}

#[test]
fn one_of_several_is_done() {
    for kind in KINDS {
        let (to, from) = bounded_of::<u32>(kind, 1, 2).unwrap();
        let (other_to, other_from) = bounded_of::<String>(kind, 3, 2).unwrap();
        let (mut numbers, mut texts) = (0, 0);
        thread::scope(|scope| {
            scope.spawn(move || (0..2000).for_each(|number| to.send(number).unwrap()));
            scope.spawn(move || {
                (0..2000).for_each(|number| other_to.send(format!("{number}")).unwrap());
            });
            let mut open = [true, true];
            while open != [false, false] {
                let (mut number, mut text) = (None, None);
                let mut select = Select::new();
                if open[0] {
                    select.recv(&from, |came| number = Some(came));
                }
                if open[1] {
                    select.recv(&other_from, |came| text = Some(came));
                }
                select.ready();
                match (number, text) {
                    (Some(Ok(number)), None) => {
                        assert_eq!(number, numbers);
                        numbers += 1;
                    }
                    (None, Some(Ok(text))) => {
                        assert_eq!(text, format!("{texts}"));
                        texts += 1;
                    }
                    (Some(Err(_)), None) => open[0] = false,
                    (None, Some(Err(_))) => open[1] = false,
                    both => panic!("{both:?}"),
                }
            }
        });
        assert_eq!((numbers, texts), (2000, 2000));
    }
}
