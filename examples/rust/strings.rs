//! Strings that pass through a queue and a channel: half of the threads push, the others pop, until the last sender goes.
//!
//!     strings THREADS VALUES: so many strings pass through each. Prints a line each.
use msq::channel::bounded_of;
use msq::{Kind, Queue};
use std::env;
use std::process::ExitCode;
use std::sync::atomic::{AtomicU8, Ordering};
use std::thread;

// How often each string of each giver came.
type Came = Vec<Vec<AtomicU8>>;

fn text_of(giver: usize, number: usize) -> String {
    format!("string {number} of thread {giver}")
}

// Counts a string that came; whether it is one of a giver, behind all that came of it before.
fn count(text: &str, next: &mut [usize], came: &Came) -> bool {
    let mut words = text.split(' ');
    let number = words.nth(1).and_then(|word| word.parse::<usize>().ok());
    let giver = words.nth(2).and_then(|word| word.parse::<usize>().ok());
    let (Some(number), Some(giver)) = (number, giver) else {
        return false;
    };
    let place = came.get(giver).and_then(|of_one| of_one.get(number));
    let in_order = next.get(giver).is_some_and(|next| number >= *next);
    if let Some(place) = place {
        next[giver] = number + 1;
        place.fetch_add(1, Ordering::SeqCst);
    }
    place.is_some() && in_order
}

// Whether all strings that come are right.
fn take(texts: impl Iterator<Item = String>, came: &Came) -> bool {
    let mut next = vec![0; came.len()];
    texts.fold(true, |right, text| count(&text, &mut next, came) && right)
}

// Whether each string passed once and in order through a queue of this kind.
fn passes_a_queue(kind: Kind, threads: usize, came: &Came) -> bool {
    let givers = came.len();
    let Ok(queue) = Queue::of(kind, 1000, 3) else {
        return false;
    };
    thread::scope(|scope| {
        let give = |giver: usize| {
            let queue = &queue;
            let each = came[giver].len();
            scope.spawn(move || {
                (0..each).all(|number| queue.push(text_of(giver, number)).is_ok())
            })
        };
        let giving: Vec<_> = (0..givers).map(give).collect();
        let taking: Vec<_> = (givers..threads)
            .map(|_| scope.spawn(|| take(std::iter::from_fn(|| queue.pop().ok()), came)))
            .collect();
        let gave = giving
            .into_iter()
            .all(|thread| thread.join().unwrap_or(false));
        queue.close();
        taking
            .into_iter()
            .all(|thread| thread.join().unwrap_or(false))
            && gave
    })
}

// The same of a channel, each of whose threads has an end of its own.
fn passes_a_channel(threads: usize, came: &Came) -> bool {
    let givers = came.len();
    let Ok((sender, receiver)) = bounded_of(Kind::Ring, 1000, 3) else {
        return false;
    };
    thread::scope(|scope| {
        let mut running = Vec::new();
        for (giver, of_one) in came.iter().enumerate() {
            let sender = sender.clone();
            let each = of_one.len();
            running.push(scope.spawn(move || {
                (0..each).all(|number| sender.send(text_of(giver, number)).is_ok())
            }));
        }
        for _ in givers..threads {
            let receiver = receiver.clone();
            running.push(scope.spawn(move || take(receiver.into_iter(), came)));
        }
        drop(sender);
        running
            .into_iter()
            .all(|thread| thread.join().unwrap_or(false))
    })
}

fn each_came_once(came: &Came) -> bool {
    came.iter()
        .flatten()
        .all(|count| count.swap(0, Ordering::SeqCst) == 1)
}

fn main() -> ExitCode {
    let words: Vec<usize> = env::args()
        .skip(1)
        .filter_map(|word| word.parse().ok())
        .collect();
    let [threads, values] = words[..] else {
        eprintln!("usage: strings THREADS VALUES");
        return ExitCode::from(2);
    };
    let givers = (threads / 2).max(1);
    let came: Came = (0..givers)
        .map(|_| (0..values / givers).map(|_| AtomicU8::new(0)).collect())
        .collect();
    let passes: [(&str, &dyn Fn() -> bool); 4] = [
        ("non-blocking", &|| {
            passes_a_queue(Kind::NonBlocking, threads, &came)
        }),
        ("two-lock", &|| {
            passes_a_queue(Kind::TwoLock, threads, &came)
        }),
        ("ring", &|| passes_a_queue(Kind::Ring, threads, &came)),
        ("a channel", &|| passes_a_channel(threads, &came)),
    ];
    for (name, passes) in passes {
        if !passes() || !each_came_once(&came) {
            eprintln!("strings: wrong");
            return ExitCode::FAILURE;
        }
        println!(
            "{name}: {threads} threads, {} strings in order, each once",
            values / givers * givers
        );
    }
    ExitCode::SUCCESS
}
