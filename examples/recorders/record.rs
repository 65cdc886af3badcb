//! Records a queue of Rust's library from threads, and writes the recording: record [deque|lifo|mpsc] [CALLS].
//! rustc -O record.rs
use std::sync::{Mutex, mpsc};
use std::{collections::VecDeque, env, thread, time::Instant};

fn main() {
    let words: Vec<String> = env::args().skip(1).collect();
    let kind = words.first().map_or("deque", String::as_str);
    let calls: usize = words.get(1).map_or(8, |word| word.parse().unwrap());
    let (values, (sender, receiver)) = (Mutex::new(VecDeque::new()), mpsc::channel());
    let (receiver, start) = (Mutex::new(receiver), Instant::now());
    let push = |text: String| match kind {
        "mpsc" => sender.send(text).unwrap(),
        _ => values.lock().unwrap().push_back(text),
    };
    let pop = || match kind {
        "mpsc" => receiver.lock().unwrap().try_recv().ok(),
        "lifo" => values.lock().unwrap().pop_back(),
        _ => values.lock().unwrap().pop_front(),
    };
    let now = || start.elapsed().as_nanos() + 1;
    let operation = |name: &str, count: usize| {
        let (text, first) = (format!("{name}-{count}"), now());
        let (call, reply) = if matches!(count % 4, 1 | 2) {
            push(text.clone());
            (format!("enq {text}"), "done".to_string())
        } else {
            let value = pop().map(|text| format!("value {text}"));
            ("deq".to_string(), value.unwrap_or("empty".to_string()))
        };
        format!("{name} {call} from {first} to {} reply {reply}\n", now())
    };
    let work = &|name: &str| (1..=calls).map(|n| operation(name, n)).collect::<String>();
    println!("msq record 1\noperations {}", 4 * calls);
    thread::scope(|scope| {
        for thread in ["t1", "t2", "t3", "t4"].map(|name| scope.spawn(move || work(name))) {
            print!("{}", thread.join().unwrap());
        }
    });
}
