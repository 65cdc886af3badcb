//! Letters as `stress letters` sends them, in plain Rust: each sender's texts through a channel of the standard library, by a
//! thread of its own, to one receiver.
//!
//! `plain SENDERS LETTERS` prints how many nanoseconds it took to send and take so many letters of each sender: from before
//! the first thread is started until all have ended.
use std::sync::mpsc;
use std::thread;
use std::time::Instant;

fn texts(count: usize) -> Vec<String> {
    (0..count).map(|number| number.to_string()).collect()
}

/// How many letters there are, where each sender's texts are `0`, `1` and so on.
fn in_order(letters: &[(u16, String)], senders: usize) -> Option<usize> {
    let mut next = vec![0; senders];
    for (from, text) in letters {
        let place = usize::from(*from) - 1;
        if text.parse() != Ok(next[place]) {
            return None;
        }
        next[place] += 1;
    }
    Some(letters.len())
}

fn main() {
    let words: Vec<usize> = std::env::args().skip(1).filter_map(|word| word.parse().ok()).collect();
    let [senders, count] = words[..] else {
        eprintln!("plain SENDERS LETTERS");
        return;
    };
    let all: Vec<Vec<String>> = (0..senders).map(|_| texts(count)).collect();
    let start = Instant::now();
    let (sender, receiver) = mpsc::channel();
    let mut letters = Vec::with_capacity(senders * count);
    thread::scope(|scope| {
        for (number, texts) in (1u16..).zip(all) {
            let sender = sender.clone();
            scope.spawn(move || {
                for text in texts {
                    if sender.send((number, text)).is_err() {
                        return;
                    }
                }
            });
        }
        drop(sender);
        letters.extend(receiver);
    });
    let time = start.elapsed();
    match in_order(&letters, senders) {
        Some(came) if came == senders * count => println!("{}", time.as_nanos()),
        other => println!("{other:?}"),
    }
}
