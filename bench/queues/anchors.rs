//! Queues of others, in C and C++, which are called through pointers: they aren't inlined.
#![allow(unexpected_cfgs)]
use crate::seats::End;
use std::ffi::c_void;
use std::hint::black_box;

#[repr(C)]
#[derive(Clone, Copy, Default)]
pub struct Pair {
    seat: u64,
    body: u64,
}

/// The calls of a queue, as anchors.h has them.
#[repr(C)]
pub struct Calls {
    make: unsafe extern "C" fn(usize) -> *mut c_void,
    drop: unsafe extern "C" fn(*mut c_void),
    join: unsafe extern "C" fn(*mut c_void) -> *mut c_void,
    leave: unsafe extern "C" fn(*mut c_void),
    push: unsafe extern "C" fn(*mut c_void, Pair) -> bool,
    pop: unsafe extern "C" fn(*mut c_void, &mut Pair) -> bool,
}

unsafe extern "C" {
    #[cfg(boost)]
    safe static boost_queue: Calls;
    #[cfg(boost)]
    safe static boost_fixed: Calls;
    #[cfg(moodycamel)]
    safe static moodycamel_queue: Calls;
    #[cfg(moodycamel)]
    safe static moodycamel_tokens: Calls;
    #[cfg(ck)]
    safe static ck_fifo: Calls;
    #[cfg(ck)]
    safe static ck_ring: Calls;
}

/// The queues that are there.
pub static ANCHORS: &[(&str, &Calls)] = &[
    #[cfg(boost)]
    ("boost", &boost_queue),
    #[cfg(boost)]
    ("boost-fixed", &boost_fixed),
    #[cfg(moodycamel)]
    ("moodycamel", &moodycamel_queue),
    #[cfg(moodycamel)]
    ("moodycamel-tokens", &moodycamel_tokens),
    #[cfg(ck)]
    ("ck-fifo", &ck_fifo),
    #[cfg(ck)]
    ("ck-ring", &ck_ring),
];

pub struct Anchor {
    calls: &'static Calls,
    queue: *mut c_void,
}

impl Anchor {
    pub fn new(calls: &'static Calls, room: usize) -> Anchor {
        Anchor { calls, queue: unsafe { (calls.make)(black_box(room)) } }
    }

    pub fn end(&self, number: usize) -> AnchorEnd<'_> {
        AnchorEnd { of: self, end: unsafe { (self.calls.join)(self.queue) }, number: number as u64 + 1 }
    }
}

impl Drop for Anchor {
    fn drop(&mut self) {
        unsafe { (self.calls.drop)(self.queue) }
    }
}

/// A thread's end of such a queue.
pub struct AnchorEnd<'a> {
    of: &'a Anchor,
    end: *mut c_void,
    number: u64,
}

// Any thread may call these queues, each by an end of its own.
unsafe impl Send for AnchorEnd<'_> {}

impl End for AnchorEnd<'_> {
    #[inline(always)]
    fn push(&mut self, body: u64) -> bool {
        unsafe { (self.of.calls.push)(self.end, Pair { seat: self.number, body }) }
    }

    #[inline(always)]
    fn pop(&mut self) -> bool {
        let mut value = Pair::default();
        let had = unsafe { (self.of.calls.pop)(self.end, &mut value) };
        black_box(value);
        had
    }
}

impl Drop for AnchorEnd<'_> {
    fn drop(&mut self) {
        unsafe { (self.of.calls.leave)(self.end) }
    }
}
