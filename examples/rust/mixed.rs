//! Calls of each sort, by four threads over queues and channels of each kind: in random runs each thread ends, the values of a thread
//! come in its order, and each comes once, or is dropped with its queue.
//!
//!     mixed VALUES: so many values, over little room and few handles, by calls that wait, try, or have a time, by futures of which
//!     some are dropped, and by ends that are cloned and dropped, until a close, or until a side has gone
use msq::channel::{bounded_of, Receiver, RecvTimeoutError, Sender, SendTimeoutError, TryRecvError, TrySendError};
use msq::{Kind, Missed, PushError, Queue};
use std::future::Future;
use std::pin::pin;
use std::sync::atomic::{AtomicUsize, Ordering::SeqCst};
use std::sync::Arc;
use std::task::{Context, Poll, Wake, Waker};
use std::thread::{self, ScopedJoinHandle, Thread};
use std::time::{Duration, Instant};

const THREADS: u64 = 4;
/// More values than a thread pushes in a run.
const SPAN: u64 = 1 << 32;

/// Numbers that look random.
struct Random(u64);

impl Random {
    fn below(&mut self, most: u64) -> u64 {
        self.0 = self.0.wrapping_mul(6364136223846793005).wrapping_add(1442695040888963407);
        (self.0 >> 33) % most
    }

    fn other(&mut self) -> Random {
        Random(self.below(1 << 30))
    }

    fn short(&mut self) -> Duration {
        Duration::from_micros(self.below(200))
    }

    fn pause_at_times(&mut self) {
        if self.below(1000) == 0 {
            thread::sleep(self.short());
        }
    }
}

/// A value, of which those alive are counted.
struct Counted<'a> {
    number: u64,
    alive: &'a AtomicUsize,
}

impl<'a> Counted<'a> {
    fn new(number: u64, alive: &'a AtomicUsize) -> Counted<'a> {
        alive.fetch_add(1, SeqCst);
        Counted { number, alive }
    }
}

impl Drop for Counted<'_> {
    fn drop(&mut self) {
        self.alive.fetch_sub(1, SeqCst);
    }
}

/// What became of a push; one that is gone was dropped with its future.
enum Pushed<T> {
    Done,
    Back(T),
    Gone,
    Over,
}

/// What became of a pop.
enum Popped<T> {
    Came(T),
    Nothing,
    Over,
}

/// An end, by which a thread pushes or pops in some way.
trait End<'a> {
    fn push(&mut self, value: Counted<'a>, random: &mut Random) -> Pushed<Counted<'a>>;
    fn pop(&mut self, random: &mut Random) -> Popped<Counted<'a>>;
}

impl<'a> End<'a> for &Queue<Counted<'a>> {
    fn push(&mut self, value: Counted<'a>, random: &mut Random) -> Pushed<Counted<'a>> {
        let pushed = match random.below(3) {
            0 => Queue::push(self, value),
            1 => self.push_timeout(value, random.short()),
            _ => self.try_push(value),
        };
        match pushed {
            Ok(()) => Pushed::Done,
            Err(PushError { why: Missed::Closed, .. }) => Pushed::Over,
            Err(PushError { why: Missed::Full | Missed::Busy | Missed::TimedOut, value }) => Pushed::Back(value),
            Err(other) => panic!("{other}"),
        }
    }

    fn pop(&mut self, random: &mut Random) -> Popped<Counted<'a>> {
        let popped = match random.below(3) {
            0 => Queue::pop(self),
            1 => self.pop_timeout(random.short()),
            _ => self.try_pop(),
        };
        match popped {
            Ok(value) => Popped::Came(value),
            Err(Missed::Closed) => Popped::Over,
            Err(Missed::Empty | Missed::Busy | Missed::TimedOut) => Popped::Nothing,
            Err(other) => panic!("{other}"),
        }
    }
}

struct Unparks(Thread);

impl Wake for Unparks {
    fn wake(self: Arc<Self>) {
        self.0.unpark();
    }
}

// Polls a future until it is ready, or drops it at times before.
fn poll_at_times<F: Future>(future: F, random: &mut Random) -> Option<F::Output> {
    let mut future = pin!(future);
    let waker = Waker::from(Arc::new(Unparks(thread::current())));
    loop {
        if let Poll::Ready(answer) = future.as_mut().poll(&mut Context::from_waker(&waker)) {
            return Some(answer);
        }
        match random.below(4) {
            0 => return None,
            1 => thread::park_timeout(random.short()),
            _ => thread::park(),
        }
    }
}

/// An end of a channel.
enum Ends<'a> {
    Sends(Sender<Counted<'a>>),
    Receives(Receiver<Counted<'a>>),
}

impl<'a> End<'a> for Ends<'a> {
    fn push(&mut self, value: Counted<'a>, random: &mut Random) -> Pushed<Counted<'a>> {
        let Ends::Sends(sender) = self else {
            return Pushed::Over;
        };
        match random.below(5) {
            0 => sender.send(value).map_or(Pushed::Over, |()| Pushed::Done),
            1 => match sender.send_timeout(value, random.short()) {
                Ok(()) => Pushed::Done,
                Err(SendTimeoutError::Timeout(value)) => Pushed::Back(value),
                Err(other) => ended(other.is_disconnected(), Pushed::Over),
            },
            2 => match poll_at_times(sender.send_async(value), random) {
                None => Pushed::Gone,
                Some(sent) => sent.map_or(Pushed::Over, |()| Pushed::Done),
            },
            3 => {
                *sender = sender.clone();
                Pushed::Back(value)
            }
            _ => match sender.try_send(value) {
                Ok(()) => Pushed::Done,
                Err(TrySendError::Full(value) | TrySendError::Busy(value)) => Pushed::Back(value),
                Err(other) => ended(other.is_disconnected(), Pushed::Over),
            },
        }
    }

    fn pop(&mut self, random: &mut Random) -> Popped<Counted<'a>> {
        let Ends::Receives(receiver) = self else {
            return Popped::Over;
        };
        match random.below(5) {
            0 => receiver.recv().map_or(Popped::Over, Popped::Came),
            1 => match receiver.recv_timeout(random.short()) {
                Ok(value) => Popped::Came(value),
                Err(RecvTimeoutError::Timeout) => Popped::Nothing,
                Err(other) => ended(other.is_disconnected(), Popped::Over),
            },
            2 => match poll_at_times(receiver.recv_async(), random) {
                None => Popped::Nothing,
                Some(came) => came.map_or(Popped::Over, Popped::Came),
            },
            3 => {
                *receiver = receiver.clone();
                Popped::Nothing
            }
            _ => match receiver.try_recv() {
                Ok(value) => Popped::Came(value),
                Err(TryRecvError::Empty | TryRecvError::Busy) => Popped::Nothing,
                Err(other) => ended(other.is_disconnected(), Popped::Over),
            },
        }
    }
}

fn ended<T>(holds: bool, told: T) -> T {
    assert!(holds, "a channel is told worn");
    told
}

// Pushes values from the first on, so many at most: those that it pushed.
fn give<'a>(mut end: impl End<'a>, first: u64, most: u64, alive: &'a AtomicUsize, mut random: Random) -> Vec<u64> {
    let mut sent = Vec::new();
    for number in first..first + most {
        let mut value = Counted::new(number, alive);
        loop {
            random.pause_at_times();
            match end.push(value, &mut random) {
                Pushed::Done => break sent.push(number),
                Pushed::Back(back) => value = back,
                Pushed::Gone => break,
                Pushed::Over => return sent,
            }
        }
    }
    sent
}

// Pops so many values at most: those that came, which rise where they are of one thread.
fn take<'a>(mut end: impl End<'a>, most: u64, mut random: Random) -> Vec<u64> {
    let (mut came, mut next) = (Vec::new(), [0; THREADS as usize]);
    while (came.len() as u64) < most {
        random.pause_at_times();
        match end.pop(&mut random) {
            Popped::Came(value) => {
                let next = &mut next[(value.number / SPAN) as usize];
                assert!(value.number >= *next, "out of order");
                *next = value.number + 1;
                came.push(value.number);
            }
            Popped::Nothing => {}
            Popped::Over => break,
        }
    }
    came
}

fn all(threads: Vec<ScopedJoinHandle<Vec<u64>>>) -> Vec<u64> {
    threads.into_iter().flat_map(|one| one.join().expect("a thread stopped")).collect()
}

/// What a run is of.
struct Run {
    kind: Kind,
    room: usize,
    calls: u16,
    givers: u64,
    /// How many values a thread pushes, and pops, at most.
    gives: u64,
    takes: u64,
    random: Random,
}

impl Run {
    fn new(kind: Kind, random: &mut Random) -> Run {
        let leaves = random.below(4) == 0;
        Run {
            kind,
            room: [1, 2, 3, 64][random.below(4) as usize],
            calls: 1 + random.below(6) as u16,
            givers: 1 + random.below(THREADS - 1),
            gives: random.below(20_000),
            takes: if leaves { random.below(10_000) } else { u64::MAX },
            random: random.other(),
        }
    }

    // Those that were sent and those that came are the same, but for those that were left.
    fn judge(&self, sent: Vec<u64>, mut came: Vec<u64>) -> (usize, usize) {
        came.sort_unstable();
        assert!(came.windows(2).all(|two| two[0] != two[1]), "a value came twice");
        let was_sent = |one: &u64| sent.binary_search(one).is_ok();
        assert!(came.iter().all(was_sent), "a value came that wasn't sent");
        let left = sent.len() - came.len();
        assert!(left == 0 || self.takes < u64::MAX, "a value is lost");
        (came.len(), left)
    }

    // Over a queue, which is closed at some moment: how many came.
    fn over_a_queue(mut self) -> usize {
        let alive = &AtomicUsize::new(0);
        let queue = &Queue::of(self.kind, self.room, self.calls).expect("a queue");
        let (sent, came) = thread::scope(|scope| {
            let mut taking = Vec::new();
            for _ in self.givers..THREADS {
                let random = self.random.other();
                taking.push(scope.spawn(move || take(queue, self.takes, random)));
            }
            let mut giving = Vec::new();
            for giver in 0..self.givers {
                let random = self.random.other();
                giving.push(scope.spawn(move || give(queue, giver * SPAN, self.gives, alive, random)));
            }
            thread::sleep(Duration::from_micros(self.random.below(50_000)));
            queue.close();
            (all(giving), all(taking))
        });
        let (came, left) = self.judge(sent, came);
        assert_eq!(alive.load(SeqCst), left, "a value is lost");
        came
    }

    // Over a channel, until one of its sides has gone: how many came.
    fn over_a_channel(mut self) -> usize {
        let alive = &AtomicUsize::new(0);
        let (sender, receiver) = bounded_of(self.kind, self.room, self.calls).expect("a channel");
        let (sent, came) = thread::scope(|scope| {
            let mut taking = Vec::new();
            for _ in self.givers..THREADS {
                let (end, random) = (Ends::Receives(receiver.clone()), self.random.other());
                taking.push(scope.spawn(move || take(end, self.takes, random)));
            }
            drop(receiver);
            let mut giving = Vec::new();
            for giver in 0..self.givers {
                let (end, random) = (Ends::Sends(sender.clone()), self.random.other());
                giving.push(scope.spawn(move || give(end, giver * SPAN, self.gives, alive, random)));
            }
            drop(sender);
            (all(giving), all(taking))
        });
        assert_eq!(alive.load(SeqCst), 0, "what is left isn't dropped with the channel");
        self.judge(sent, came).0
    }
}

// The calls of one thread with a time: none ends before it.
fn one_by_one(kind: Kind) {
    let began = Instant::now();
    let queue = Queue::of(kind, 1, 1).expect("a queue");
    let time = Duration::from_millis(20);
    assert_eq!(queue.pop_timeout(time), Err(Missed::TimedOut));
    assert!(began.elapsed() >= time, "a call ended before its time");
    queue.push(1).expect("room");
    assert_eq!(queue.try_push(2).map_err(|it| it.why), Err(Missed::Full));
    assert_eq!(queue.push_timeout(2, time).map_err(|it| it.why), Err(Missed::TimedOut));
    assert!(began.elapsed() >= 2 * time, "a call ended before its time");
    queue.close();
    assert_eq!(queue.push(2).map_err(|it| it.why), Err(Missed::Closed));
    assert_eq!((queue.pop(), queue.pop()), (Ok(1), Err(Missed::Closed)));
}

fn main() {
    let values: usize = std::env::args().nth(1).and_then(|word| word.parse().ok()).unwrap_or(100_000);
    let mut random = Random(1);
    let (mut came, mut runs) = (0, 0);
    let kinds = [Kind::NonBlocking, Kind::TwoLock, Kind::Ring];
    kinds.into_iter().for_each(one_by_one);
    while came < values {
        for kind in kinds {
            came += Run::new(kind, &mut random).over_a_queue();
            came += Run::new(kind, &mut random).over_a_channel();
            runs += 2;
        }
    }
    println!("{came} values in {runs} runs: each came once, in order, or was dropped with its queue");
}
