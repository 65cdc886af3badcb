//! One thread hands strings to another, which sleeps while there is none: over a channel.
use msq::channel;
use std::thread;

fn main() {
    let (sender, receiver) = channel::bounded(1000);
    let worker = thread::spawn(move || {
        // It sleeps while the channel is empty, until each sender is gone.
        for text in receiver {
            println!("{text}");
        }
    });
    sender.send("a string".to_string()).unwrap();
    sender.send("another string".to_string()).unwrap();
    drop(sender);
    worker.join().unwrap();
}
