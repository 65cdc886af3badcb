//! Producers push numbers, consumers pop them, over either queue: each producer's values come in order, each once.
//!
//!     pipeline THREADS VALUES: half of the threads push, half pop; so many values go through each queue.
use msq::seats::{Giver, Taker};
use msq::{Kind, Refusal};
use std::thread;
use std::time::Instant;

const NODES: u32 = 1024;

fn push_all(giver: &mut Giver, values: u64) -> Result<(), Refusal> {
    for value in 0..values {
        loop {
            match giver.try_push(value, 8) {
                Err(Refusal::NoNode | Refusal::Busy) => thread::yield_now(),
                done => break done?,
            }
        }
    }
    Ok(())
}

// Pops until the queue is shut and empty: a bit for each value of each giver that was popped.
fn pop_all(mut taker: Taker, givers: usize, values: u64) -> Result<Vec<u64>, Refusal> {
    let mut next = vec![0; givers + 1];
    let mut popped = vec![0; givers * values as usize / 64 + 1];
    loop {
        match taker.try_pop(8) {
            Ok(Some(value)) => {
                let from = usize::from(value.from);
                let number = value.body;
                assert!(number >= next[from] && number < values, "out of order");
                next[from] = number + 1;
                let place = (from - 1) * values as usize + number as usize;
                popped[place / 64] |= 1 << (place % 64);
            }
            Ok(None) | Err(Refusal::Busy) => thread::yield_now(),
            Err(Refusal::Closed) => return Ok(popped),
            Err(refusal) => return Err(refusal),
        }
    }
}

fn shut(giver: &mut Giver) -> Result<(), Refusal> {
    loop {
        match giver.try_shut(8) {
            Err(Refusal::Busy) => thread::yield_now(),
            done => return done,
        }
    }
}

// Whether the takers together popped each of so many values, and none of them twice.
fn each_once(popped: &[Vec<u64>], values: usize) -> bool {
    (0..=values / 64).all(|word| {
        let (mut all, mut twice) = (0, 0);
        for one in popped {
            twice |= all & one[word];
            all |= one[word];
        }
        let due = if word < values / 64 { u64::MAX } else { (1 << (values % 64)) - 1 };
        twice == 0 && all == due
    })
}

fn run(kind: Kind, threads: u16, values: u64) -> Result<(), Refusal> {
    let half = threads / 2;
    let each = values / u64::from(half);
    let (givers, takers) = msq::seats::queue(kind, NODES, half, half)?;
    let began = Instant::now();
    let popped = thread::scope(|scope| {
        let taking: Vec<_> = takers
            .into_iter()
            .map(|one| scope.spawn(move || pop_all(one, usize::from(half), each)))
            .collect();
        let giving: Vec<_> = givers
            .into_iter()
            .map(|mut one| scope.spawn(move || push_all(&mut one, each).map(|()| one)))
            .collect();
        let mut givers = Vec::new();
        for one in giving {
            givers.push(one.join().expect("a giver stopped")?);
        }
        shut(&mut givers[0])?;
        taking
            .into_iter()
            .map(|one| one.join().expect("a taker stopped"))
            .collect::<Result<Vec<_>, Refusal>>()
    })?;
    let all = u64::from(half) * each;
    let time = began.elapsed().as_nanos() / u128::from(all.max(1));
    assert!(each_once(&popped, all as usize), "a value is lost, or came twice");
    println!("{kind:?}: {} threads, {all} values in order, each once; {time} ns each", 2 * half);
    Ok(())
}

fn main() -> Result<(), Refusal> {
    let mut words = std::env::args().skip(1);
    let threads = words.next().and_then(|word| word.parse().ok()).unwrap_or(4);
    let values = words.next().and_then(|word| word.parse().ok()).unwrap_or(100_000);
    run(Kind::NonBlocking, threads, values)?;
    run(Kind::TwoLock, threads, values)?;
    run(Kind::Ring, threads, values)
}
