//! The jobs of a text by workers, in plain Rust: `plain_jobs lock|channel WORKERS FILE` writes the table of their results.
//! The job numbers go through a `VecDeque` behind one lock, or through a channel whose receiver is behind one.
use std::collections::VecDeque;
use std::io::{self, Write};
use std::sync::mpsc::{self, Receiver};
use std::sync::{Condvar, Mutex};
use std::{env, fs, process, thread};

/// A job, and its kind's name.
enum Job {
    Add(u64, u64),
    Mul(u64, u64),
    Div(u64, u64),
    Len(String),
}

/// What a job comes to; none where a divisor is 0.
type Value = Option<u128>;

impl Job {
    fn kind(&self) -> &'static str {
        match self {
            Job::Add(..) => "add",
            Job::Mul(..) => "mul",
            Job::Div(..) => "div",
            Job::Len(_) => "len",
        }
    }

    fn value(&self) -> Value {
        match self {
            Job::Add(a, b) => Some(u128::from(*a) + u128::from(*b)),
            Job::Mul(a, b) => Some(u128::from(*a) * u128::from(*b)),
            Job::Div(a, b) => a.checked_div(*b).map(u128::from),
            Job::Len(text) => Some(text.len() as u128),
        }
    }
}

fn number(word: Option<&str>) -> Option<u64> {
    word?.parse().ok()
}

fn job(line: &str) -> Option<Job> {
    let (kind, rest) = line.split_once(' ')?;
    if kind == "len" {
        return (rest.len() <= 200 && rest.bytes().all(|b| (32..=126).contains(&b))).then(|| Job::Len(rest.to_string()));
    }
    let mut words = rest.split(' ');
    let (a, b) = (number(words.next())?, number(words.next())?);
    match kind {
        "add" => Some(Job::Add(a, b)),
        "mul" => Some(Job::Mul(a, b)),
        "div" => Some(Job::Div(a, b)),
        _ => None,
    }
}

fn jobs(text: &str) -> Option<Vec<Job>> {
    let mut lines = text.lines();
    let count = number(lines.next()?.strip_prefix("jobs "))? as usize;
    let jobs = lines.map(job).collect::<Option<Vec<Job>>>()?;
    (jobs.len() == count).then_some(jobs)
}

/// Job numbers from one thread to many; 0 ends a worker.
trait Queue: Sync {
    fn push(&self, number: usize);
    fn pop(&self) -> usize;
}

#[derive(Default)]
struct Locked {
    numbers: Mutex<VecDeque<usize>>,
    pushed: Condvar,
}

impl Queue for Locked {
    fn push(&self, number: usize) {
        self.numbers.lock().unwrap().push_back(number);
        self.pushed.notify_one();
    }

    fn pop(&self) -> usize {
        let mut numbers = self.numbers.lock().unwrap();
        loop {
            match numbers.pop_front() {
                Some(number) => return number,
                None => numbers = self.pushed.wait(numbers).unwrap(),
            }
        }
    }
}

struct Channel {
    sender: mpsc::Sender<usize>,
    receiver: Mutex<Receiver<usize>>,
}

impl Queue for Channel {
    fn push(&self, number: usize) {
        self.sender.send(number).unwrap();
    }

    fn pop(&self) -> usize {
        self.receiver.lock().unwrap().recv().unwrap()
    }
}

/// The value of each job, in their order.
fn values(queue: &impl Queue, workers: usize, jobs: &[Job]) -> Vec<Option<Value>> {
    let work = || {
        let mut done = Vec::new();
        loop {
            match queue.pop() {
                0 => return done,
                number => done.push((number, jobs[number - 1].value())),
            }
        }
    };
    let mut values = vec![None; jobs.len()];
    thread::scope(|scope| {
        let handles: Vec<_> = (0..workers).map(|_| scope.spawn(work)).collect();
        (1..=jobs.len()).for_each(|number| queue.push(number));
        (0..workers).for_each(|_| queue.push(0));
        for handle in handles {
            for (number, value) in handle.join().unwrap() {
                values[number - 1] = Some(value);
            }
        }
    });
    values
}

fn write_table(jobs: &[Job], values: &[Option<Value>]) -> io::Result<()> {
    let mut out = io::BufWriter::new(io::stdout().lock());
    let mut counts: Vec<(&str, usize)> = Vec::new();
    writeln!(out, "results {}", jobs.len())?;
    for (place, (job, value)) in jobs.iter().zip(values).enumerate() {
        let kind = job.kind();
        match value.expect("each job has a value") {
            Some(value) => writeln!(out, "{:8} {kind} {value}", place + 1)?,
            None => writeln!(out, "{:8} {kind} by-zero", place + 1)?,
        }
        match counts.iter_mut().find(|(other, _)| *other == kind) {
            Some((_, count)) => *count += 1,
            None => counts.push((kind, 1)),
        }
    }
    for (kind, count) in counts {
        writeln!(out, "{kind:10}{count:8}")?;
    }
    out.flush()
}

fn main() {
    let words: Vec<String> = env::args().collect();
    let [_, way, workers, file] = &words[..] else {
        process::exit(2);
    };
    let workers = workers.parse().unwrap();
    let jobs = jobs(&fs::read_to_string(file).unwrap()).expect("a text of jobs");
    let values = if way == "lock" {
        values(&Locked::default(), workers, &jobs)
    } else {
        let (sender, receiver) = mpsc::channel();
        values(&Channel { sender, receiver: Mutex::new(receiver) }, workers, &jobs)
    };
    write_table(&jobs, &values).unwrap();
}
