//! The steps of calls that may wait, as include/msq_calls.h has them, and what drives them: a thread that parks, or a future. The table
//! of handles and this driver are all of a call that isn't proved.
use crate::raw::{self, Act, Call, Item, Rest, Share, Words};
use crate::waits::{thread_number, thread_waker, Backoff, Until, NUMBERS};
use crate::{Kind, Missed, Refusal};
use std::cell::UnsafeCell;
use std::panic::RefUnwindSafe;
use std::sync::atomic::Ordering::{Acquire, Relaxed, Release, SeqCst};
use std::sync::atomic::{AtomicBool, AtomicU64};
use std::sync::{Mutex, MutexGuard, PoisonError};
use std::task::{Context, Poll, Waker};

/// How many handles are leased where nothing else is said: a small queue is small.
pub fn calls_for(capacity: usize) -> u16 {
    capacity.saturating_add(1).min(16) as u16
}

// How often a future lets others run at most, before it lets its thread do so.
const STEPS: u32 = 64;

/// What a call does.
#[derive(Clone, Copy, PartialEq, Eq)]
#[repr(u8)]
pub enum Task {
    Push = 0,
    Pop = 1,
    Shut = 2,
    EndSender = 3,
    EndReceiver = 4,
}

/// What a call tells, and its words: `Empty` where there was no value, or no room, as its time was over.
pub type Told = (Result<(), Missed>, Words);

// Of each code of a call that tells.
const TELLS: [Result<(), Missed>; 5] =
    [Ok(()), Err(Missed::Empty), Err(Missed::Busy), Err(Missed::Closed), Err(Missed::Worn)];

// A handle, which one call has at a time; no two lie on one line of the cache.
#[repr(align(64))]
struct Place {
    taken: AtomicBool,
    handle: UnsafeCell<Share>,
}

// SAFETY: a handle is used by the call alone that took it.
unsafe impl Sync for Place {}
// No code of a user's runs while one is taken.
impl RefUnwindSafe for Place {}

// A handle that is given back at its end.
struct Taken<'a>(&'a Place);

impl Drop for Taken<'_> {
    fn drop(&mut self) {
        self.0.taken.store(false, Release);
    }
}

// A call that sleeps on a word: a number that no other one has, and what wakes it.
struct Sleeper {
    word: usize,
    number: u64,
    waker: Waker,
}

/// A queue of three words a value, by its handles, of which threads own the first ones by their numbers, and the calls that sleep for it.
pub struct Steps {
    places: Box<[Place]>,
    owned: usize,
    pub capacity: usize,
    sleepers: Mutex<Vec<Sleeper>>,
}

/// A call, and its words: what it pushes, or has popped. One that has begun and hasn't told is given up before it goes.
pub struct Stepped {
    task: Task,
    tries: bool,
    begun: bool,
    words: Words,
    call: Call,
    // What is to be done before its next step.
    act: Act,
    sleeps: Option<u64>,
}

impl Stepped {
    pub fn new(task: Task, tries: bool, words: Words) -> Stepped {
        Stepped { task, tries, begun: false, words, call: Call::default(), act: Act::FIRST, sleeps: None }
    }

    // Its first steps, by a handle, which is given back.
    #[inline(always)]
    fn begin(&mut self, taken: Taken<'_>) {
        let (handle, call, act) = (taken.0.handle.get(), &mut self.call, &mut self.act);
        // SAFETY: the handle is full, and taken by this call alone.
        let code =
            unsafe { raw::msq_words_share_begin(handle, self.task as u8, self.tries, &mut self.words, call, act) };
        debug_assert_eq!(code, raw::OK);
        self.begun = true;
    }

    // Its next ones.
    fn step(&mut self, taken: Taken<'_>, past: bool) {
        // SAFETY: as for the first ones.
        unsafe { raw::msq_words_call_step(taken.0.handle.get(), &mut self.words, &mut self.call, past, &mut self.act) };
    }

    #[inline(always)]
    fn told(&self) -> Option<Told> {
        (self.act.what == raw::TELL).then(|| (TELLS[self.act.code as usize], self.words))
    }
}

impl Steps {
    /// A queue with room for exactly so many values, of which further threads may have so many calls under way at one moment.
    pub fn new(kind: Kind, capacity: usize, calls: u16, limit: u64) -> Result<Steps, Refusal> {
        if capacity == 0 {
            return Err(Refusal::ZeroCapacity);
        }
        let room = u32::try_from(capacity).map_err(|_| Refusal::BadSize)?;
        let calls = usize::from(calls);
        let owned = (capacity / 2).min(calls).min(NUMBERS).min((i16::MAX as usize).saturating_sub(calls));
        let handles = raw::shares(kind, room, limit, owned + calls)?.into_iter();
        let place = |handle| Place { taken: AtomicBool::new(false), handle: UnsafeCell::new(handle) };
        Ok(Steps { places: handles.map(place).collect(), owned, capacity, sleepers: Mutex::default() })
    }

    /// How many values there are, never more than there is room for.
    pub fn len(&self) -> usize {
        let mut len = 0;
        let taken = self.take_once_free();
        // SAFETY: the handle is full, and taken by this call alone.
        unsafe { raw::msq_words_share_len(taken.0.handle.get(), &mut len) };
        len as usize
    }

    // A handle that is free: this thread's own, which no other thread takes, unless a call of its has it already; else one of those that
    // are leased.
    #[inline(always)]
    fn take(&self) -> Option<Taken<'_>> {
        let (owned, leased) = self.places.split_at(self.owned);
        match owned.get(thread_number()) {
            Some(own) if !own.taken.load(Acquire) => {
                own.taken.store(true, Relaxed);
                Some(Taken(own))
            }
            _ => lease(leased),
        }
    }

    fn take_once_free(&self) -> Taken<'_> {
        let mut backoff = Backoff::default();
        loop {
            if let Some(taken) = self.take() {
                return taken;
            }
            backoff.snooze();
        }
    }

    // Does something beside calls that have all handles which this thread could take: how many these are.
    #[cfg(test)]
    pub fn beside_all_calls(&self, act: impl FnOnce()) -> usize {
        let taken: Vec<_> = std::iter::from_fn(|| self.take()).collect();
        act();
        taken.len()
    }

    // The next steps of a call, until it is to sleep, lets others run, or tells; none where no handle is free. Whom it wakes runs code of
    // a user's, beside which it has no handle.
    fn step(&self, stepped: &mut Stepped, past: bool) -> Option<()> {
        if !stepped.begun {
            stepped.begin(self.take()?);
        } else if stepped.act.what != raw::WAKE {
            stepped.step(self.take()?, past);
        }
        while stepped.act.what == raw::WAKE {
            self.wake(&stepped.act);
            stepped.step(self.take_once_free(), past);
        }
        Some(())
    }

    fn sleepers(&self) -> MutexGuard<'_, Vec<Sleeper>> {
        self.sleepers.lock().unwrap_or_else(PoisonError::into_inner)
    }

    // Wakes so many that sleep on a word, the first ones first.
    fn wake(&self, act: &Act) {
        let sleeps_on_it = |it: &mut Sleeper| it.word == act.word as usize;
        let woken: Vec<_> = self.sleepers().extract_if(.., sleeps_on_it).take(act.many as usize).collect();
        woken.into_iter().for_each(|it| it.waker.wake());
    }

    // The call leaves those that sleep: one that has gone may take no wake from another. (A waker may run code of a user's as it is dropped,
    // so that goes without the lock.)
    fn rouse(&self, stepped: &mut Stepped) {
        if let Some(number) = stepped.sleeps.take() {
            let _gone: Vec<_> = self.sleepers().extract_if(.., |it| it.number == number).collect();
        }
    }

    // The call sleeps now, unless the word has changed since it was heard.
    fn sleep(&self, stepped: &mut Stepped, waker: Waker) {
        static NEXT: AtomicU64 = AtomicU64::new(0);
        let act = &stepped.act;
        let mut sleepers = self.sleepers();
        // SAFETY: the word is there while the queue is.
        let rings = unsafe { &*act.word }.load(SeqCst);
        if rings as u32 == act.heard {
            let number = NEXT.fetch_add(1, Relaxed);
            sleepers.push(Sleeper { word: act.word as usize, number, waker });
            stepped.sleeps = Some(number);
        }
    }

    // Steps a call, whose waker is made where it is to sleep: what it tells; if nothing, it sleeps, or lets others run.
    fn go_on(&self, stepped: &mut Stepped, past: bool, waker: impl FnOnce() -> Waker) -> Option<Told> {
        self.rouse(stepped);
        if self.step(stepped, past).is_none() {
            return (past && !stepped.begun).then_some((Err(Missed::Busy), stepped.words));
        }
        if stepped.act.what == raw::SLEEP {
            self.sleep(stepped, waker());
        }
        stepped.told()
    }

    #[cold]
    fn finish(&self, stepped: &mut Stepped, until: Until) -> Told {
        let mut backoff = Backoff::default();
        loop {
            match self.go_on(stepped, until.is_past(), thread_waker) {
                Some(told) => return told,
                None if stepped.sleeps.is_some() => {
                    until.park();
                    backoff = Backoff::default();
                }
                None => backoff.snooze(),
            }
        }
    }

    /// Makes a call to its end in this thread, which never waits where its time is past.
    #[inline]
    pub fn make(&self, task: Task, words: Words, until: Until) -> Told {
        let mut stepped = Stepped::new(task, until.is_past(), words);
        // (most calls tell by their first steps)
        if let Some(taken) = self.take() {
            stepped.begin(taken);
        }
        stepped.told().unwrap_or_else(|| self.finish(&mut stepped, until))
    }

    /// Steps a call of a future.
    pub fn poll(&self, stepped: &mut Stepped, context: &Context<'_>) -> Poll<Told> {
        for _ in 0..STEPS {
            if let Some(told) = self.go_on(stepped, false, || context.waker().clone()) {
                return Poll::Ready(told);
            }
            if stepped.sleeps.is_some() {
                return Poll::Pending;
            }
        }
        context.waker().wake_by_ref();
        Poll::Pending
    }

    /// Gives a call up, which hands on what it may have been woken for.
    pub fn give_up(&self, stepped: &mut Stepped) -> Told {
        if !stepped.begun {
            return (Err(Missed::Empty), stepped.words);
        }
        // SAFETY: it is a call.
        unsafe { raw::msq_call_give_up(&mut stepped.call) };
        self.finish(stepped, Until::Now)
    }

    /// Ends a queue that is worn: the words of each value in it that no pop takes; none where there is no memory to end it.
    pub fn close(&mut self) -> Vec<Words> {
        let mut shares: Vec<_> = self.places.iter_mut().map(|it| std::mem::take(it.handle.get_mut())).collect();
        let (mut values, mut rest) = (vec![Item::NONE; self.capacity + 1], Rest::default());
        let (first, len) = (shares.as_mut_ptr(), shares.len());
        // SAFETY: these are all its handles, none in a call, and there is room for so many values.
        let code = unsafe { raw::msq_words_shares_close(first, len, values.as_mut_ptr(), values.len(), &mut rest) };
        values.truncate(if code == raw::OK { rest.left as usize } else { 0 });
        values.into_iter().map(|it| it.words).collect()
    }
}

// Takes one of these places, looked at from one on that is far from where other threads begin, as their stacks are.
fn lease(places: &[Place]) -> Option<Taken<'_>> {
    let here = 0u8;
    let (before, behind) = places.split_at((&raw const here as usize >> 12) % places.len());
    let is_free = |place: &&Place| !place.taken.load(Relaxed) && !place.taken.swap(true, Acquire);
    behind.iter().chain(before).find(is_free).map(Taken)
}
