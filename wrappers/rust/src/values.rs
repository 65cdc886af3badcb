//! A queue of values of any type: one that fits three words goes through the queue in them, and another one in a box.
use crate::raw::Words;
use crate::step::{Stepped, Steps, Task, Told};
use crate::waits::{Backoff, Until};
use crate::{Kind, Missed, PushError, Refusal};
use std::any::Any;
use std::iter;
use std::marker::PhantomData;
use std::panic::{catch_unwind, resume_unwind, AssertUnwindSafe};
use std::sync::Mutex;
use std::task::{ready, Context, Poll};
use std::thread;

/// The queue, and the values in it.
pub struct Values<T> {
    pub steps: Steps,
    // (as a lock has it: a value is in the hands of one thread at a time, and goes from one to another)
    owns: PhantomData<Mutex<T>>,
}

const NONE: Words = Words::zeroed();

// Whether a value lies in the words, or else its box.
const fn fits<T>() -> bool {
    size_of::<T>() <= size_of::<Words>() && align_of::<T>() <= align_of::<Words>()
}

fn words_of<T>(value: T) -> Words {
    let mut words = NONE;
    let place = words.as_mut_ptr();
    // SAFETY: what is written fits there, and lies as it has to.
    unsafe {
        if fits::<T>() {
            place.cast::<T>().write(value);
        } else {
            place.cast::<Box<T>>().write(Box::new(value));
        }
    }
    words
}

// The value of words that were made of one, and are no more in the queue.
unsafe fn value_of<T>(words: Words) -> T {
    let place = words.as_ptr();
    if fits::<T>() {
        place.cast::<T>().read()
    } else {
        *place.cast::<Box<T>>().read()
    }
}

// Why a call wasn't done: one with a time is late, and a try found nothing so.
fn missed(why: Missed, until: Until, nothing: Missed) -> Missed {
    match why {
        Missed::Empty | Missed::Busy if !until.is_now() => Missed::TimedOut,
        Missed::Empty => nothing,
        why => why,
    }
}

// What a push of this queue's tells.
fn pushed<T>((told, words): Told, until: Until) -> Result<(), PushError<T>> {
    // SAFETY: the value wasn't pushed.
    told.map_err(|why| PushError { why: missed(why, until, Missed::Full), value: unsafe { value_of(words) } })
}

// What a pop of this queue's tells.
fn popped<T>((told, words): Told, until: Until) -> Result<T, Missed> {
    // SAFETY: the queue has words of values alone, each of which is popped once.
    told.map(|()| unsafe { value_of(words) }).map_err(|why| missed(why, until, Missed::Empty))
}

impl<T> Values<T> {
    pub fn new(kind: Kind, capacity: usize, calls: u16, limit: u64) -> Result<Values<T>, Refusal> {
        Ok(Values { steps: Steps::new(kind, capacity, calls, limit)?, owns: PhantomData })
    }

    /// Pushes a value, which comes back where that isn't done.
    pub fn push(&self, value: T, until: Until) -> Result<(), PushError<T>> {
        pushed(self.steps.make(Task::Push, words_of(value), until), until)
    }

    /// Pops the value at the front.
    pub fn pop(&self, until: Until) -> Result<T, Missed> {
        popped(self.steps.make(Task::Pop, NONE, until), until)
    }

    /// Pops the value at the front, and tries again where others are in the way.
    pub fn pop_now(&self) -> Result<T, Missed> {
        let mut backoff = Backoff::default();
        loop {
            match self.pop(Until::Now) {
                Err(Missed::Busy) => backoff.snooze(),
                answer => return answer,
            }
        }
    }

    /// No value is pushed any more: the queue is shut, or one of its sides has ended.
    pub fn end(&self, task: Task) {
        let _ = self.steps.make(task, NONE, Until::Ever);
    }

    /// Drops what can be popped: why no more comes.
    pub fn drain(&self) -> Missed {
        let mut why = Missed::Empty;
        let left = iter::from_fn(|| self.pop_now().map_err(|missed| why = missed).ok());
        drop_all(left);
        why
    }
}

// Drops these. Where a drop panics the others are dropped too, and then the panic goes on.
fn drop_all<T>(values: impl Iterator<Item = T>) {
    let mut first: Option<Box<dyn Any + Send>> = None;
    for value in values {
        if let Err(panic) = catch_unwind(AssertUnwindSafe(|| drop(value))) {
            first.get_or_insert(panic);
        }
    }
    if let (Some(panic), false) = (first, thread::panicking()) {
        resume_unwind(panic);
    }
}

impl<T> Drop for Values<T> {
    fn drop(&mut self) {
        if self.drain() == Missed::Worn {
            let left = self.steps.close().into_iter();
            // SAFETY: these are the words that no pop took.
            drop_all(left.map(|words| unsafe { value_of::<T>(words) }));
        }
    }
}

/// A push or a pop of a future's, and what its answer tells. One that is dropped before it was ready is given up.
pub struct Asked<'a, T, R> {
    values: &'a Values<T>,
    call: Option<Stepped>,
    tells: fn(Told, Until) -> R,
}

pub type Push<'a, T> = Asked<'a, T, Result<(), PushError<T>>>;
pub type Pop<'a, T> = Asked<'a, T, Result<T, Missed>>;

impl<T> Values<T> {
    pub fn ask_push(&self, value: T) -> Push<'_, T> {
        Asked { values: self, call: Some(Stepped::new(Task::Push, false, words_of(value))), tells: pushed }
    }

    pub fn ask_pop(&self) -> Pop<'_, T> {
        Asked { values: self, call: Some(Stepped::new(Task::Pop, false, NONE)), tells: popped }
    }
}

impl<T, R> Asked<'_, T, R> {
    /// Steps it: what it tells. It isn't polled again after that.
    pub fn poll(&mut self, context: &Context<'_>) -> Poll<R> {
        let call = self.call.as_mut().expect("a future is polled after it was ready");
        let told = ready!(self.values.steps.poll(call, context));
        self.call = None;
        Poll::Ready((self.tells)(told, Until::Ever))
    }
}

impl<T, R> Drop for Asked<'_, T, R> {
    fn drop(&mut self) {
        if let Some(mut call) = self.call.take() {
            let told = self.values.steps.give_up(&mut call);
            drop((self.tells)(told, Until::Ever));
        }
    }
}

// What is told of a queue whose values are this field: a type, and what it is called.
macro_rules! looks {
    ($of:ident, $name:literal, $($values:ident).+) => {
        impl<T> $of<T> {
            #[doc = concat!("How many values the ", $name, " holds, never more than its capacity; exact while no call is under way.")]
            pub fn len(&self) -> usize {
                self.$($values).+.steps.len()
            }

            #[doc = concat!("Whether the ", $name, " is empty, as [`len`](Self::len) tells.")]
            pub fn is_empty(&self) -> bool {
                self.len() == 0
            }

            #[doc = concat!("Whether the ", $name, " is full, as [`len`](Self::len) tells.")]
            pub fn is_full(&self) -> bool {
                self.len() == self.capacity()
            }

            /// How many values there is room for.
            pub fn capacity(&self) -> usize {
                self.$($values).+.steps.capacity
            }
        }
    };
}
pub(crate) use looks;
