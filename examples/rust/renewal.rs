//! A queue that lasts, of queues that don't: where one is worn out or too small, a further one is linked behind it, and each
//! thread goes on there at its own pace.
//!
//!     renewal THREADS VALUES: half of the threads push, half pop; so many values go through queues of each kind.
//!
//! A giver sees that its queue is worn by `WornOut(Free)`, and that it is full by `NoNode`. It publishes the link to a further
//! queue, and then shuts its own: who is refused `Closed` always finds the link, and goes on there. A pop is refused so only
//! where nothing is left. examples/c/renewal.c says what sizes and limits have to be.
use msq::seats::{self, Value};
use msq::{Kind, Refusal, WornWord};
use std::sync::atomic::{AtomicU8, AtomicUsize, Ordering};
use std::sync::{Arc, Mutex, OnceLock};
use std::thread;

const FIRST_NODES: u32 = 8;
const MOST_NODES: u32 = 64;
/// So small that it wears out; `msq::seats::queue` takes the greatest one.
const LIMIT: u64 = 2 * MOST_NODES as u64 + 1;

static QUEUES: AtomicUsize = AtomicUsize::new(0);

/// What each queue of the whole is of.
#[derive(Clone, Copy)]
struct Shape {
    kind: Kind,
    givers: u16,
    takers: u16,
}

/// A seat that waits for its member.
type Place<S> = Mutex<Option<S>>;

/// One queue of the whole, with a seat for each member, and the link to what is behind it. It goes with the last member.
struct Segment {
    shape: Shape,
    nodes: u32,
    givers: Vec<Place<seats::Giver>>,
    takers: Vec<Place<seats::Taker>>,
    next: OnceLock<Next>,
}

enum Next {
    Segment(Arc<Segment>),
    End,
}

fn places<S>(seats: Vec<S>) -> Vec<Place<S>> {
    seats.into_iter().map(|seat| Mutex::new(Some(seat))).collect()
}

// The seat at a place, which one member alone takes, once.
fn taken<S>(place: &Place<S>) -> S {
    let mut seat = place.lock().expect("no member stops with it");
    seat.take().expect("each member comes once")
}

impl Segment {
    fn new(shape: Shape, nodes: u32) -> Result<Arc<Segment>, Refusal> {
        let (givers, takers) =
            seats::queue_with_limit(shape.kind, nodes, LIMIT, shape.givers, shape.takers)?;
        Ok(Arc::new(Segment {
            shape,
            nodes,
            givers: places(givers),
            takers: places(takers),
            next: OnceLock::new(),
        }))
    }

    /// The queue behind one that was found shut; none where the whole ends there.
    fn behind(&self) -> Option<Arc<Segment>> {
        match self.next.get() {
            Some(Next::Segment(next)) => Some(Arc::clone(next)),
            _ => None,
        }
    }
}

/// A thread that pushes, and where it stands.
struct Giver {
    number: usize,
    at: Arc<Segment>,
    seat: seats::Giver,
}

impl Giver {
    fn new(number: usize, at: Arc<Segment>) -> Giver {
        let seat = taken(&at.givers[number]);
        Giver { number, at, seat }
    }

    /// Pushes on the whole, or is refused `Closed` or `Memory`.
    fn give(&mut self, body: u64) -> Result<(), Refusal> {
        loop {
            match self.seat.try_push(body, 8) {
                Err(Refusal::Busy) => thread::yield_now(),
                Err(Refusal::NoNode) if self.at.nodes == MOST_NODES => thread::yield_now(),
                Err(Refusal::NoNode | Refusal::WornOut(WornWord::Free)) => {
                    self.renew()?;
                    self.go_on()?;
                }
                Err(Refusal::Closed) => self.go_on()?,
                done => return done,
            }
        }
    }

    // Links a further queue, unless another giver did, and then shuts this one.
    fn renew(&mut self) -> Result<(), Refusal> {
        if self.at.next.get().is_none() {
            let made = Segment::new(self.at.shape, MOST_NODES.min(2 * self.at.nodes))?;
            if self.at.next.set(Next::Segment(made)).is_ok() {
                QUEUES.fetch_add(1, Ordering::Relaxed);
            }
        }
        self.shut()
    }

    // Shuts this queue, or finds it shut.
    fn shut(&mut self) -> Result<(), Refusal> {
        loop {
            match self.seat.try_shut(8) {
                Err(Refusal::Busy) => thread::yield_now(),
                Err(Refusal::Closed) => return Ok(()),
                done => return done,
            }
        }
    }

    fn go_on(&mut self) -> Result<(), Refusal> {
        let next = self.at.behind().ok_or(Refusal::Closed)?;
        *self = Giver::new(self.number, next);
        Ok(())
    }

    /// Shuts the whole, behind all that was given; `Closed` where it was shut before.
    fn end(mut self) -> Result<(), Refusal> {
        loop {
            let mine = self.at.next.set(Next::End).is_ok();
            self.shut()?;
            if mine {
                return Ok(());
            }
            self.go_on()?;
        }
    }
}

/// A thread that pops, and where it stands.
struct Taker {
    number: usize,
    at: Arc<Segment>,
    seat: seats::Taker,
}

impl Taker {
    fn new(number: usize, at: Arc<Segment>) -> Taker {
        let seat = taken(&at.takers[number]);
        Taker { number, at, seat }
    }

    /// Pops from the whole, or is refused `Busy`, or `Closed` where it is shut and empty.
    fn take(&mut self) -> Result<Option<Value>, Refusal> {
        loop {
            match self.seat.try_pop(8) {
                Err(Refusal::Closed) => {
                    let next = self.at.behind().ok_or(Refusal::Closed)?;
                    *self = Taker::new(self.number, next);
                }
                answer => return answer,
            }
        }
    }
}

fn push_all(mut giver: Giver, values: u64) -> Result<Giver, Refusal> {
    for value in 0..values {
        giver.give(value)?;
    }
    Ok(giver)
}

// A giver is the same number in each queue, so that its values are told apart by it.
fn pop_all(mut taker: Taker, values: u64, seen: &[AtomicU8]) -> Result<(), Refusal> {
    let mut next = vec![0; usize::from(taker.at.shape.givers) + 1];
    loop {
        match taker.take() {
            Ok(Some(value)) => {
                let (from, number) = (usize::from(value.from), value.body);
                assert!(number >= next[from] && number < values, "out of order");
                next[from] = number + 1;
                seen[(from - 1) * values as usize + number as usize].fetch_add(1, Ordering::Relaxed);
            }
            Ok(None) | Err(Refusal::Busy) => thread::yield_now(),
            Err(Refusal::Closed) => return Ok(()),
            Err(refusal) => return Err(refusal),
        }
    }
}

fn run(kind: Kind, threads: u16, values: u64) -> Result<(), Refusal> {
    let half = threads / 2;
    let each = values / u64::from(half);
    let all = u64::from(half) * each;
    let shape = Shape { kind, givers: half, takers: half };
    let first = Segment::new(shape, FIRST_NODES.max(2 * u32::from(half)))?;
    let members = 0..usize::from(half);
    let givers: Vec<_> = members.clone().map(|k| Giver::new(k, Arc::clone(&first))).collect();
    let takers: Vec<_> = members.map(|k| Taker::new(k, Arc::clone(&first))).collect();
    drop(first);
    QUEUES.store(1, Ordering::Relaxed);
    let seen: Vec<AtomicU8> = (0..all).map(|_| AtomicU8::new(0)).collect();
    thread::scope(|scope| {
        let pushing: Vec<_> =
            givers.into_iter().map(|giver| scope.spawn(move || push_all(giver, each))).collect();
        let seen = &seen;
        let popping: Vec<_> =
            takers.into_iter().map(|taker| scope.spawn(move || pop_all(taker, each, seen))).collect();
        let mut ended = None;
        for giver in pushing {
            ended = Some(giver.join().expect("a giver stopped")?);
        }
        ended.map_or(Ok(()), Giver::end)?;
        popping.into_iter().try_for_each(|taker| taker.join().expect("a taker stopped"))
    })?;
    let once = seen.iter().all(|times| times.load(Ordering::Relaxed) == 1);
    assert!(once, "a value is lost, or came twice");
    let queues = QUEUES.load(Ordering::Relaxed);
    println!("{kind:?}: {} threads, {all} values in order, each once; {queues} queues", 2 * half);
    Ok(())
}

fn main() -> Result<(), Refusal> {
    let mut words = std::env::args().skip(1);
    let threads = words.next().and_then(|word| word.parse().ok()).unwrap_or(4);
    let values = words.next().and_then(|word| word.parse().ok()).unwrap_or(40_000);
    run(Kind::NonBlocking, threads, values)?;
    run(Kind::TwoLock, threads, values)
}
