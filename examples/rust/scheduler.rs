//! A scheduler: tasks are closures, threads come to work for it and go while it runs, and at its end each task that was submitted
//! has run once.
//!
//!     scheduler TASKS: so many tasks, over a queue of each kind. Prints a line each.
use msq::{Kind, Missed, PushError, Queue};
use std::error::Error;
use std::env;
use std::iter;
use std::process::ExitCode;
use std::sync::atomic::{AtomicU32, Ordering};
use std::sync::Arc;
use std::thread;

/// A task, which may borrow what outlives the scheduler.
type Task<'a> = Box<dyn FnOnce() + Send + 'a>;

/// Tasks for the threads that work for it, which share it by reference.
struct Scheduler<'a> {
    tasks: Queue<Task<'a>>,
}

impl<'a> Scheduler<'a> {
    /// There is room for so many tasks.
    const ROOM: usize = 256;
    /// So many threads are in a call at one time. One that sleeps is in none.
    const CALLS: u16 = 8;

    fn new(kind: Kind) -> Result<Scheduler<'a>, msq::Refusal> {
        let tasks = Queue::of(kind, Self::ROOM, Self::CALLS)?;
        Ok(Scheduler { tasks })
    }

    /// Has a closure run by one of the workers. It sleeps while there is no room. The task comes back, for `Closed`, once the
    /// scheduler is closed.
    fn submit(&self, task: impl FnOnce() + Send + 'a) -> Result<(), PushError<Task<'a>>> {
        self.tasks.push(Box::new(task))
    }

    /// Works in the thread that calls it: runs so many tasks and lets the thread go, or ends once the scheduler is closed and all its
    /// tasks were taken. It sleeps while there is none. Answers how many it ran.
    fn work(&self, most: usize) -> usize {
        let tasks = iter::from_fn(|| self.tasks.pop().ok());
        tasks.take(most).map(|task| task()).count()
    }

    /// No task is submitted any more, and those that were still run. One that no worker takes is dropped with the scheduler.
    fn close(&self) {
        self.tasks.close();
    }
}

/// Four workers stay to the end; beside them twelve come one after another, and go after fifty tasks each.
const STAYING: usize = 4;
const VISITORS: usize = 12;
const A_VISIT: usize = 50;

// Has each count raised by a task.
fn raise_all(kind: Kind, counts: &[AtomicU32]) -> Result<(), Box<dyn Error>> {
    let scheduler = &Scheduler::new(kind)?;
    let raise = |count: &'_ AtomicU32| {
        count.fetch_add(1, Ordering::SeqCst);
    };
    thread::scope(|scope| {
        for _ in 0..STAYING {
            scope.spawn(|| scheduler.work(usize::MAX));
        }
        let submitted = counts.chunks(counts.len() / VISITORS + 1).try_for_each(|visit| {
            scope.spawn(|| scheduler.work(A_VISIT));
            let mut counts = visit.iter();
            counts.try_for_each(|count| scheduler.submit(move || raise(count)))
        });
        scheduler.close();
        Ok(submitted.map_err(|unpushed| unpushed.why)?)
    })
}

// Whether a scheduler that is closed hands a task back, and one that is dropped drops the tasks that no worker took.
fn ends_clean(kind: Kind) -> Result<bool, Box<dyn Error>> {
    let scheduler = Scheduler::new(kind)?;
    let owned = Arc::new(());
    let owner = Arc::clone(&owned);
    scheduler.submit(move || drop(owner)).map_err(|it| it.why)?;
    scheduler.close();
    let late = scheduler.submit(|| {});
    drop(scheduler);
    Ok(late.is_err_and(|it| it.why == Missed::Closed) && Arc::strong_count(&owned) == 1)
}

fn main() -> ExitCode {
    let Some(count) = env::args().nth(1).and_then(|word| word.parse().ok()) else {
        eprintln!("usage: scheduler TASKS");
        return ExitCode::from(2);
    };
    let counts: Vec<AtomicU32> = (0..count).map(|_| AtomicU32::new(0)).collect();
    let kinds = [("non-blocking", Kind::NonBlocking), ("two-lock", Kind::TwoLock), ("ring", Kind::Ring)];
    for (name, kind) in kinds {
        let done = raise_all(kind, &counts).and_then(|()| ends_clean(kind));
        if !matches!(done, Ok(true)) || !counts.iter().all(|count| count.swap(0, Ordering::SeqCst) == 1) {
            eprintln!("scheduler: {done:?}");
            return ExitCode::FAILURE;
        }
        println!("{name}: {count} tasks ran, each once");
    }
    ExitCode::SUCCESS
}
