//! Explores the calls of one queue: each interleaving of their accesses, of three threads. tools/explore_calls builds it with the machine of
//! crates/calls, and its head says what is looked for.
mod calls;
mod machine;
mod states;
mod steps;
mod walk;

use states::{Case, Driver, ENDLESS, Fault, Key, Mixer, State, Way};
use std::collections::HashSet;
use std::hash::BuildHasherDefault;
use std::sync::Mutex;
use std::sync::atomic::{AtomicBool, AtomicUsize, Ordering::SeqCst};
use walk::Walk;

/// Walks through all states of a case, until one is faulty: how many there are, and the fault.
fn explored(case: &Case, driver: Driver) -> (usize, Option<Fault>) {
    let mut done: HashSet<Key, BuildHasherDefault<Mixer>> = HashSet::default();
    let mut walk = Walk { case, driver, found: Vec::new() };
    let first = State::new(case);
    done.insert(first.key());
    let mut todo = vec![first];
    while let Some(state) = todo.pop() {
        let exact = state.is_exact(case.capacity);
        let fault = state.fault.or((!exact).then_some(Fault::RoomIsNotExact)).or(state.leaves_one().then_some(Fault::LeftAsleep));
        if fault.is_some() {
            return (done.len(), fault);
        }
        walk.moves(&state);
        for next in walk.found.drain(..) {
            if done.insert(next.key()) {
                todo.push(next);
            }
        }
    }
    (done.len(), None)
}

/// Each choice of three of these programs, in which the order of threads doesn't matter.
fn threes(of: &[&'static str]) -> Vec<Vec<&'static str>> {
    let mut all = Vec::new();
    for a in 0..of.len() {
        for b in a..of.len() {
            all.extend((b..of.len()).map(|c| vec![of[a], of[b], of[c]]));
        }
    }
    all
}

fn cases() -> Vec<Case> {
    let mut programs = threes(&["p", "r", "P", "R", "t", "T", "S"]);
    programs.extend(threes(&["pl", "l", "r", "rm", "Pl", "R", "ppl", "m", "p"]));
    programs.extend(threes(&["p", "r", "g", "G"]).into_iter().filter(|it| it.contains(&"g") || it.contains(&"G")));
    let mut all = Vec::new();
    for way in [Way::Whole, Way::Counted] {
        for it in &programs {
            for (capacity, filled) in [(1, 0), (1, 1), (2, 0), (2, 1), (2, 2)] {
                for (pushes, pops) in [(ENDLESS, ENDLESS), (0, ENDLESS), (ENDLESS, 0)] {
                    if capacity == 1 || pushes == pops {
                        all.push(Case { way, programs: it.clone(), capacity, filled, pushes, pops });
                    }
                }
            }
        }
    }
    all
}

/// explore [late | one]: all cases, until one is faulty.
fn main() {
    let driver = match std::env::args().nth(1).as_deref() {
        Some("late") => Driver::LooksAtTheEndsLate,
        Some("one") => Driver::HasOneBell,
        _ => Driver::Right,
    };
    let all = cases();
    let (next, states, stop, told) = (AtomicUsize::new(0), AtomicUsize::new(0), AtomicBool::new(false), Mutex::new(()));
    std::thread::scope(|scope| {
        for _ in 0..std::thread::available_parallelism().map_or(1, usize::from).min(2) {
            scope.spawn(|| {
                // (those of each kind one after another, so that a fault is soon found)
                while let Some(i) = Some(next.fetch_add(1, SeqCst)).filter(|i| *i < all.len() && !stop.load(SeqCst)) {
                    let case = &all[i * 2017 % all.len()];
                    let (count, fault) = explored(case, driver);
                    states.fetch_add(count, SeqCst);
                    let Some(fault) = fault else { continue };
                    let _one = told.lock();
                    if !stop.swap(true, SeqCst) {
                        let what = match fault {
                            Fault::LeftAsleep => "left asleep",
                            Fault::ClosedBesideAValue => "told closed beside a value",
                            Fault::RoomIsNotExact => "room is not exact",
                        };
                        println!("found: {what}: {case:?}");
                    }
                }
            });
        }
    });
    println!("{} cases, {} states", all.len(), states.load(SeqCst));
}
