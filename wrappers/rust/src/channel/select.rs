//! One of several sends and receives.
use super::{Receiver, RecvError, SendError, Sender};
use crate::waits::{thread_waker, Until};
use std::fmt;
use std::future::Future;
use std::pin::Pin;
use std::task::{ready, Context, Poll};
use std::time::Duration;

/// Sends and receives of any channels, of which one is done: the first in their order that can be.
///
/// ```
/// use msq::channel::{bounded, Select};
/// use std::time::Duration;
/// let (numbers, number_comes) = bounded(1);
/// let (texts, text_comes) = bounded::<&str>(1);
/// let mut select = Select::new();
/// select.recv(&text_comes, |_| unreachable!());
/// assert_eq!(select.ready_timeout(Duration::from_millis(1)), None);
///
/// let mut came = None;
/// let mut select = Select::new();
/// select.recv(&text_comes, |text| came = text.ok());
/// select.send(&numbers, 1, |sent| assert_eq!(sent, Ok(())));
/// assert_eq!(select.ready(), 1);
/// assert_eq!((number_comes.recv(), came), (Ok(1), None));
/// # drop(texts);
/// ```
#[derive(Default)]
pub struct Select<'a> {
    cases: Vec<Case<'a>>,
}

// Steps a case: what is to be done with its answer, where it has one.
type Case<'a> = Box<dyn FnMut(&mut Context<'_>) -> Poll<Box<dyn FnOnce() + 'a>> + 'a>;

impl<'a> Select<'a> {
    /// No case yet.
    pub fn new() -> Select<'a> {
        Select::default()
    }

    fn push<F: Future<Output: 'a> + Unpin + 'a>(&mut self, mut future: F, handler: impl FnOnce(F::Output) + 'a) {
        let mut handler = Some(handler);
        self.cases.push(Box::new(move |context| {
            let answer = ready!(Pin::new(&mut future).poll(context));
            let handler = handler.take().expect("a case is ready once");
            Poll::Ready(Box::new(move || handler(answer)))
        }));
    }

    /// One more case: a receive, and what is done with what it answers.
    pub fn recv<T: 'a>(&mut self, receiver: &'a Receiver<T>, handler: impl FnOnce(Result<T, RecvError>) + 'a) {
        self.push(receiver.recv_async(), handler);
    }

    /// One more case: a send, and what is done with what it answers. Where another case is done the value is dropped.
    pub fn send<T: 'a, F>(&mut self, sender: &'a Sender<T>, value: T, handler: F)
    where
        F: FnOnce(Result<(), SendError<T>>) + 'a,
    {
        self.push(sender.send_async(value), handler);
    }

    /// Waits until one of the cases is done, and tells which; for good where there is none.
    pub fn ready(self) -> usize {
        self.done_until(Until::Ever).expect("a time that is none isn't over")
    }

    /// The same, for this time at most; none where no case was done.
    pub fn ready_timeout(self, time: Duration) -> Option<usize> {
        self.done_until(Until::after(time))
    }

    fn done_until(mut self, until: Until) -> Option<usize> {
        let waker = thread_waker();
        let mut context = Context::from_waker(&waker);
        loop {
            let is_past = until.is_past();
            for which in 0..self.cases.len() {
                if let Poll::Ready(done) = self.cases[which](&mut context) {
                    // (the others hand on what they may have been woken for)
                    self.cases.clear();
                    done();
                    return Some(which);
                }
            }
            if is_past {
                return None;
            }
            until.park();
        }
    }
}

impl fmt::Debug for Select<'_> {
    fn fmt(&self, f: &mut fmt::Formatter<'_>) -> fmt::Result {
        write!(f, "Select {{ cases: {} }}", self.cases.len())
    }
}
