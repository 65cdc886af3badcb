//! Which types go to other threads, are shared by them, are cloned, and stay right where a call panics; and which don't.
use msq::channel::{Receiver, Recv, Send as Sending, Sender};
use msq::seats::{Giver, Taker};
use msq::Queue;
use std::cell::Cell;
use std::panic::{RefUnwindSafe, UnwindSafe};
use std::rc::Rc;

// Whether a type has a trait: then the first of two constants of one name is its own.
macro_rules! has {
    ($type:ty, $of:path) => {{
        #[allow(dead_code)]
        trait Else {
            const HAS: bool = false;
        }
        impl<T> Else for T {}
        struct Type<T>(std::marker::PhantomData<T>);
        #[allow(dead_code)]
        impl<T: $of> Type<T> {
            const HAS: bool = true;
        }
        <Type<$type>>::HAS
    }};
}

#[test]
fn what_may_go_to_another_thread_may_be_sent_there() {
    assert!(has!(Sender<Cell<u8>>, Send) && has!(Sender<Cell<u8>>, Sync));
    assert!(has!(Receiver<Cell<u8>>, Send) && has!(Receiver<Cell<u8>>, Sync));
    assert!(has!(Queue<Cell<u8>>, Send) && has!(Queue<Cell<u8>>, Sync));
    assert!(has!(Sending<'static, Cell<u8>>, Send) && has!(Recv<'static, Cell<u8>>, Send));
}

#[test]
fn what_may_not_go_to_another_thread_is_not_sent_there() {
    assert!(!has!(Sender<Rc<u8>>, Send) && !has!(Sender<Rc<u8>>, Sync));
    assert!(!has!(Receiver<Rc<u8>>, Send) && !has!(Receiver<Rc<u8>>, Sync));
    assert!(!has!(Queue<Rc<u8>>, Send) && !has!(Queue<Rc<u8>>, Sync));
    assert!(!has!(Sending<'static, Rc<u8>>, Send) && !has!(Recv<'static, Rc<u8>>, Send));
}

#[test]
fn a_seat_is_one_threads_at_a_time() {
    assert!(has!(Giver, Send) && has!(Taker, Send));
    assert!(!has!(Giver, Sync) && !has!(Taker, Sync));
    assert!(!has!(Giver, Clone) && !has!(Taker, Clone));
}

#[test]
fn queues_stay_right_where_a_call_panics() {
    assert!(has!(Sender<Cell<u8>>, UnwindSafe) && has!(Sender<Cell<u8>>, RefUnwindSafe));
    assert!(has!(Receiver<Cell<u8>>, UnwindSafe) && has!(Receiver<Cell<u8>>, RefUnwindSafe));
    assert!(has!(Queue<Cell<u8>>, UnwindSafe) && has!(Queue<Cell<u8>>, RefUnwindSafe));
}
