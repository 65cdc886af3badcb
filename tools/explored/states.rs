//! The states of the calls of one queue: its words, and its threads.
use crate::calls::{Bell, Call, Code, Phase, Task};
use crate::machine::start;
use std::hash::Hasher;

pub const THREADS: usize = 3;
pub const ENDLESS: u8 = 9;

/// How a queue gives and takes: with one access both a value and its room, or room by a count of its own.
#[derive(Clone, Copy, Debug, PartialEq)]
pub enum Way {
    Whole,
    Counted,
}

/// What is wrong with whoever makes the accesses of the machine.
#[derive(Clone, Copy, PartialEq)]
pub enum Driver {
    Right,
    LooksAtTheEndsLate,
    HasOneBell,
}

/// What each thread does, a letter a call: p and r push and pop, P and R for a time, t and T try, g and G may be given up; S shuts; l and m
/// drop an end that sends, or receives. And the queue: its room, its values, and how many pushes and pops it stands until it is worn out.
#[derive(Clone, Debug)]
pub struct Case {
    pub way: Way,
    pub programs: Vec<&'static str>,
    pub capacity: u8,
    pub filled: u8,
    pub pushes: u8,
    pub pops: u8,
}

#[derive(Clone, Copy, PartialEq)]
pub enum Doing {
    Steps,
    Read { ended: bool, worn: bool },
    Told,
    Sleeps,
    Wakes { bell: Bell, all: bool },
    Ended,
}

/// A thread: its call, what it is about, whether the bell that it heard hasn't rung since, and which call of its program it is in.
#[derive(Clone, Copy)]
pub struct Thread {
    pub call: Call,
    pub doing: Doing,
    pub is_current: bool,
    pub at: usize,
}

#[derive(Clone, Copy, PartialEq)]
pub enum Fault {
    LeftAsleep,
    ClosedBesideAValue,
    RoomIsNotExact,
}

#[derive(Clone, Copy)]
pub struct State {
    pub values: u8,
    pub room: u8,
    pub shut: bool,
    pub over: Option<Code>,
    pub senders: u8,
    pub receivers: u8,
    pub listeners: [u8; 2],
    pub pushes: u8,
    pub pops: u8,
    pub threads: [Thread; THREADS],
    pub fault: Option<Fault>,
}

pub type Key = [u64; THREADS + 1];

#[derive(Default)]
pub struct Mixer(u64);

impl Hasher for Mixer {
    fn finish(&self) -> u64 {
        self.0 ^ (self.0 >> 29)
    }
    fn write(&mut self, bytes: &[u8]) {
        bytes.iter().for_each(|byte| self.write_u64(u64::from(*byte)));
    }
    fn write_u64(&mut self, word: u64) {
        self.0 = (self.0.rotate_left(23) ^ word).wrapping_mul(0x9e37_79b9_7f4a_7c15);
    }
    fn write_usize(&mut self, word: usize) {
        self.write_u64(word as u64);
    }
}

pub fn packed(parts: &[(u64, u32)]) -> u64 {
    parts.iter().fold(0, |word, (part, bits)| word << bits | part)
}

impl Thread {
    pub fn key(&self) -> u64 {
        let Call { task, tries, phase, next, code, woken, last, looks, rings_values, rings_room, rings_all } = self.call;
        let doing = match self.doing {
            Doing::Steps => 0,
            Doing::Read { ended, worn } => 1 + 8 * u64::from(ended) + 16 * u64::from(worn),
            Doing::Told => 2,
            Doing::Sleeps => 3,
            Doing::Wakes { bell, all } => 4 + 8 * (bell as u64) + 16 * u64::from(all),
            Doing::Ended => 5,
        };
        let flags = [tries, woken, last, rings_values, rings_room, rings_all, self.is_current].map(|it| (u64::from(it), 1));
        let numbers = [(task as u64, 3), (phase as u64, 4), (next as u64, 4), (code as u64, 3), (u64::from(looks), 5), (doing, 5), (self.at as u64, 3)];
        packed(&flags) << 27 | packed(&numbers)
    }
}

impl State {
    pub fn new(case: &Case) -> State {
        let counts = case.programs.iter().any(|it| it.contains(['l', 'm']));
        let ends = |letters: &[char]| if counts { case.programs.iter().filter(|it| it.contains(letters)).count() as u8 } else { ENDLESS };
        let mut threads = [Thread { call: start(Task::Pop, true), doing: Doing::Ended, is_current: false, at: 0 }; THREADS];
        for (thread, program) in threads.iter_mut().zip(&case.programs) {
            *thread = Thread { call: begun(program, 0), doing: Doing::Steps, is_current: false, at: 0 };
        }
        State {
            values: case.filled,
            room: case.capacity - case.filled,
            shut: false,
            over: None,
            senders: ends(&['l', 'p', 'P', 't', 'g']),
            receivers: ends(&['m', 'r', 'R', 'T', 'G']),
            listeners: [0; 2],
            pushes: case.pushes,
            pops: case.pops,
            threads,
            fault: None,
        }
    }

    pub fn key(&self) -> Key {
        let over = self.over.map_or(0, |code| 1 + code as u64);
        let counts = [self.values, self.room, self.senders, self.receivers, self.listeners[0], self.listeners[1], self.pushes, self.pops];
        let mut key = [0; THREADS + 1];
        key[0] = packed(&counts.map(|it| (u64::from(it), 4))) << 4 | over << 1 | u64::from(self.shut);
        for (word, thread) in key[1..].iter_mut().zip(&self.threads) {
            *word = thread.key();
        }
        key
    }

    /// Whether there is nothing to come for a push, or for a pop, and whether since a word is worn out.
    pub fn end_of(&self, bell: Bell) -> (bool, bool) {
        let ends = if bell == Bell::Values { self.senders } else { self.receivers };
        (self.over.is_some() || ends == 0, self.over == Some(Code::Worn))
    }

    /// Whether nobody can go on but those that sleep.
    pub fn is_quiet(&self) -> bool {
        self.threads.iter().all(|it| matches!(it.doing, Doing::Ended | Doing::Sleeps))
    }

    /// Values and room are no more than the capacity, and just that if no call has a place in hand.
    pub fn is_exact(&self, capacity: u8) -> bool {
        let held = self.values + self.room;
        held <= capacity && (held == capacity || !self.is_quiet())
    }

    /// Whether a thread sleeps beside what it waits for, where nobody else can go on.
    pub fn leaves_one(&self) -> bool {
        if !self.is_quiet() {
            return false;
        }
        self.threads.iter().any(|it| {
            let bell = awaited(&it.call);
            let units = if bell == Bell::Values { self.values } else { self.room };
            it.doing == Doing::Sleeps && (units > 0 || self.end_of(bell).0 || bell == Bell::Values && self.shut)
        })
    }
}

pub fn awaited(call: &Call) -> Bell {
    if call.task == Task::Push { Bell::Room } else { Bell::Values }
}

pub fn begun(program: &str, at: usize) -> Call {
    let letter = program.as_bytes()[at];
    let task = match letter {
        b'p' | b'P' | b't' | b'g' => Task::Push,
        b'S' => Task::Shut,
        b'l' => Task::DropSender,
        b'm' => Task::DropReceiver,
        _ => Task::Pop,
    };
    // (the looks before it listens change nothing but the time)
    Call { looks: 16, ..start(task, matches!(letter, b't' | b'T')) }
}
