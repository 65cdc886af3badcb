//! Letters as `stress office` sends them, in plain Rust: each sender makes its letters as it sends them, texts or numbers, through a
//! channel of the standard library, or of crossbeam-channel where that is there, to one receiver, which reads each and drops it.
//!
//! `offices mpsc|mpsc-bounded|crossbeam|crossbeam-bounded texts|numbers SENDERS LETTERS PLACES` prints how many letters came, and how
//! many nanoseconds it took: from before the first thread is started until all have ended.
use std::sync::mpsc;
use std::thread;
use std::time::Instant;

trait Letter: Send + 'static {
    fn made(number: u64) -> Self;
    fn number(&self) -> u64;
}

impl Letter for u64 {
    fn made(number: u64) -> u64 {
        number
    }

    fn number(&self) -> u64 {
        *self
    }
}

impl Letter for String {
    fn made(number: u64) -> String {
        number.to_string()
    }

    fn number(&self) -> u64 {
        self.parse().unwrap_or(u64::MAX)
    }
}

fn sends<T: Letter>(seat: u16, letters: u64, send: impl Fn((u16, T)) -> bool) {
    for number in 0..letters {
        if !send((seat, T::made(number))) {
            return;
        }
    }
}

/// How many letters came; none where one came out of order.
fn reads<T: Letter>(receiver: impl IntoIterator<Item = (u16, T)>) -> Option<u64> {
    let (mut next, mut count) = ([0; 8], 0);
    for (from, letter) in receiver {
        let place = usize::from(from) % 8;
        if letter.number() != next[place] {
            return None;
        }
        next[place] += 1;
        count += 1;
    }
    Some(count)
}

/// A thread for each sender, which sends by a share of this one, and the receiver's here.
macro_rules! run {
    ($channel:expr, $asked:expr) => {{
        let (sender, receiver) = $channel;
        let (senders, letters) = $asked;
        thread::scope(|scope| {
            for seat in 1..=senders as u16 {
                let sender = sender.clone();
                scope.spawn(move || sends::<T>(seat, letters, |letter| sender.send(letter).is_ok()));
            }
            drop(sender);
            reads(receiver)
        })
    }};
}

fn came<T: Letter>(way: &str, asked: (u64, u64), places: usize) -> Option<u64> {
    match way {
        "mpsc" => run!(mpsc::channel(), asked),
        "mpsc-bounded" => run!(mpsc::sync_channel(places), asked),
        #[cfg(crossbeam)]
        "crossbeam" => run!(crossbeam_channel::unbounded(), asked),
        #[cfg(crossbeam)]
        "crossbeam-bounded" => run!(crossbeam_channel::bounded(places), asked),
        _ => None,
    }
}

fn main() {
    let words: Vec<String> = std::env::args().skip(1).collect();
    let [way, kind, senders, letters, places] = &words[..] else {
        eprintln!("offices mpsc|mpsc-bounded|crossbeam|crossbeam-bounded texts|numbers SENDERS LETTERS PLACES");
        return;
    };
    let asked: (u64, u64) = (senders.parse().unwrap(), letters.parse().unwrap());
    let places = places.parse().unwrap();
    let start = Instant::now();
    let came = if kind == "texts" { came::<String>(way, asked, places) } else { came::<u64>(way, asked, places) };
    let time = start.elapsed().as_nanos();
    match came {
        Some(count) if count == asked.0 * asked.1 => println!("{time}"),
        other => println!("not all came: {other:?}"),
    }
}
