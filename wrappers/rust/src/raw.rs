//! The functions of include/msq.h and include/msq_calls.h that this crate calls, and two that fit them to Rust.
use crate::seats::Value;
use crate::{answer, Kind, Refusal};
use std::ffi::c_void;
use std::iter::repeat_with;
use std::mem::MaybeUninit;
use std::ptr::{null_mut, NonNull};
use std::sync::atomic::AtomicU64;

pub const OK: u32 = 0;
pub const EMPTY: u32 = 32;

pub const GIVER: u8 = 1;
pub const TAKER: u8 = 2;
pub const MOST_COUNT: u64 = (1 << 62) - 1;

/// What is to be done before a call's next step.
pub const TELL: u32 = 0;
pub const YIELD: u32 = 1;
pub const SLEEP: u32 = 2;
pub const WAKE: u32 = 3;

// A seat, or a handle of a queue whose calls may wait, which this function of the library drops.
macro_rules! handle {
    ($name:ident, $drop:ident) => {
        #[derive(Debug, Default)]
        #[repr(C)]
        pub struct $name {
            at: Option<NonNull<c_void>>,
            full: bool,
        }

        // SAFETY: it has no thread of its own, and owns its share of the queue, whose words are atomics.
        unsafe impl Send for $name {}

        impl Drop for $name {
            fn drop(&mut self) {
                // SAFETY: it is empty, or what the last call left, and in no call.
                unsafe { $drop(self) }
            }
        }
    };
}

handle!(Seat, msq_drop);
handle!(Share, msq_words_share_drop);

/// The words of a value: what a call pushes, or has popped.
pub type Words = MaybeUninit<[u64; 3]>;

/// A call between two steps, by the library's numbers.
#[repr(C)]
#[derive(Default)]
pub struct Call {
    word: u64,
    heard: u64,
    numbers: [u8; 5],
    holds: [bool; 6],
}

/// What is to be done.
#[repr(C)]
pub struct Act {
    pub what: u32,
    pub code: u32,
    pub word: *mut AtomicU64,
    pub heard: u32,
    pub many: u32,
}

// SAFETY: its word is an atomic of the queue's.
unsafe impl Send for Act {}

impl Act {
    /// Before the first step.
    pub const FIRST: Act = Act { what: YIELD, code: 0, word: null_mut(), heard: 0, many: 0 };
}

/// A value that was left in a queue as it was closed.
#[repr(C)]
#[derive(Clone, Copy)]
pub struct Item {
    pub words: Words,
    from: u16,
}

impl Item {
    pub const NONE: Item = Item { words: Words::uninit(), from: 0 };
}

/// What a queue had left as it was closed.
#[repr(C)]
#[derive(Default)]
pub struct Rest {
    pub left: u64,
    taken: u64,
    whole: bool,
    was_shut: bool,
}

#[rustfmt::skip]
extern "C" {
    pub fn msq_words_shares_create(kind: u32, capacity: u32, limit: u64, shares: *mut Share, shares_len: usize) -> u32;
    pub fn msq_words_share_begin(share: *mut Share, task: u8, tries: bool, words: *mut Words, call: *mut Call, act: *mut Act) -> u32;
    pub fn msq_words_call_step(share: *mut Share, words: *mut Words, call: *mut Call, past: bool, act: *mut Act) -> u32;
    pub fn msq_call_give_up(call: *mut Call) -> u32;
    pub fn msq_words_share_len(share: *mut Share, len: *mut u64) -> u32;
    pub fn msq_words_share_drop(share: *mut Share);
    pub fn msq_words_shares_close(shares: *mut Share, shares_len: usize, items: *mut Item, items_len: usize, rest: *mut Rest) -> u32;

    pub fn msq_create(
        kind: u32, nodes: u32, limit: u64, roles: *const u8, roles_len: usize, seats: *mut Seat, seats_len: usize,
    ) -> u32;
    pub fn msq_try_push(seat: *mut Seat, body: u64, turns: u32) -> u32;
    pub fn msq_try_pop(seat: *mut Seat, turns: u32, value: *mut Value) -> u32;
    pub fn msq_try_shut(seat: *mut Seat, turns: u32) -> u32;
    pub fn msq_drop(seat: *mut Seat);
}

/// The handles of a new queue whose calls may wait, so many.
pub fn shares(kind: Kind, capacity: u32, limit: u64, count: usize) -> Result<Vec<Share>, Refusal> {
    let mut shares: Vec<_> = repeat_with(Share::default).take(count).collect();
    // SAFETY: there are as many as is said, each empty.
    let code = unsafe { msq_words_shares_create(kind as u32, capacity, limit, shares.as_mut_ptr(), count) };
    answer(code).map(|()| shares)
}

/// The seats of a new queue, one for each role.
pub fn seats(kind: Kind, nodes: u32, limit: u64, roles: &[u8]) -> Result<Vec<Seat>, Refusal> {
    let mut seats: Vec<_> = repeat_with(Seat::default).take(roles.len()).collect();
    let (given, made) = (roles.as_ptr(), seats.as_mut_ptr());
    // SAFETY: both slices are as long as is said, and each seat is empty.
    let code = unsafe { msq_create(kind as u32, nodes, limit, given, roles.len(), made, roles.len()) };
    answer(code).map(|()| seats)
}
