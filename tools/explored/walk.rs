//! What the threads of a state may do.
use crate::calls::{Access, Act, Bell, Code, Phase, Seen, Task};
use crate::machine::{access, advance, give_up, start};
use crate::states::{Case, Doing, Driver, ENDLESS, Fault, State, THREADS, Thread, Way, awaited, begun};

/// What the driver of a case may do from a state.
pub struct Walk<'a> {
    pub case: &'a Case,
    pub driver: Driver,
    pub found: Vec<State>,
}

impl Walk<'_> {
    fn letter(&self, thread: &Thread, i: usize) -> u8 {
        self.case.programs[i].as_bytes()[thread.at]
    }

    fn bell(&self, bell: Bell) -> usize {
        if self.driver == Driver::HasOneBell { 0 } else { bell as usize }
    }

    pub fn moves(&mut self, state: &State) {
        for i in 0..self.case.programs.len() {
            let thread = state.threads[i];
            let mut next = *state;
            match thread.doing {
                Doing::Ended => continue,
                Doing::Wakes { bell, all } => self.wake(state, i, bell, all),
                Doing::Told => {
                    next.threads[i].doing = if thread.is_current { Doing::Sleeps } else { Doing::Steps };
                    next.threads[i].is_current = false;
                    self.found.push(next);
                }
                Doing::Sleeps if matches!(self.letter(&thread, i), b'P' | b'R') => {
                    next.threads[i].doing = Doing::Steps;
                    self.found.push(next);
                }
                Doing::Sleeps => {}
                Doing::Steps | Doing::Read { .. } => self.access(state, i),
            }
            if matches!(self.letter(&thread, i), b'g' | b'G') && !matches!(thread.doing, Doing::Wakes { .. }) {
                let mut next = *state;
                give_up(&mut next.threads[i].call);
                next.threads[i].doing = Doing::Steps;
                next.threads[i].is_current = false;
                if next.threads[i].call != thread.call {
                    self.found.push(next);
                }
            }
        }
    }

    /// The call saw this, and the clock tells each thing that it may.
    fn sees(&mut self, state: &State, i: usize, seen: Seen) {
        let letter = self.letter(&state.threads[i], i);
        let clocks: &[bool] = match letter {
            b'P' | b'R' => &[true, false],
            b't' | b'T' => &[true],
            _ => &[false],
        };
        for past in clocks {
            let mut next = *state;
            let thread = &mut next.threads[i];
            thread.doing = match advance(&mut thread.call, seen, *past) {
                Act::WakeOne(bell) => Doing::Wakes { bell, all: false },
                Act::WakeAll(bell) => Doing::Wakes { bell, all: true },
                Act::Sleep(_) => Doing::Told,
                _ => Doing::Steps,
            };
            let ends = thread.call.phase == Phase::Finished && thread.doing == Doing::Steps;
            self.found.push(if ends { self.ended(next, i) } else { next });
        }
    }

    /// The thread's call tells its answer.
    fn ended(&self, mut state: State, i: usize) -> State {
        let thread = &mut state.threads[i];
        let is_closed = thread.call.task == Task::Pop && thread.call.code == Code::Closed;
        if is_closed && state.values > 0 && (state.shut || state.senders == 0) {
            state.fault = Some(Fault::ClosedBesideAValue);
        }
        thread.at += 1;
        if thread.at < self.case.programs[i].len() {
            thread.call = begun(self.case.programs[i], thread.at);
            thread.doing = Doing::Steps;
        } else {
            *thread = Thread { call: start(Task::Pop, true), doing: Doing::Ended, is_current: false, at: thread.at - 1 };
        }
        state
    }

    fn wake(&mut self, state: &State, i: usize, bell: Bell, all: bool) {
        let mut next = *state;
        next.threads[i].doing = Doing::Steps;
        if next.threads[i].call.phase == Phase::Finished {
            next = self.ended(next, i);
        }
        let sleeps = |it: &Thread| it.doing == Doing::Sleeps && self.bell(awaited(&it.call)) == self.bell(bell);
        let sleepers: Vec<usize> = (0..THREADS).filter(|k| sleeps(&state.threads[*k])).collect();
        let sets = if all || sleepers.is_empty() { vec![sleepers] } else { sleepers.into_iter().map(|k| vec![k]).collect() };
        for set in sets {
            let mut woken = next;
            set.into_iter().for_each(|k| woken.threads[k].doing = Doing::Steps);
            self.found.push(woken);
        }
    }

    fn access(&mut self, state: &State, i: usize) {
        let thread = state.threads[i];
        let mut next = *state;
        match access(&thread.call) {
            Access::Look(bell) => self.look(state, i, bell),
            Access::Give(Bell::Values) => self.put(state, i),
            Access::Give(Bell::Room) => {
                next.room += 1;
                self.sees(&next, i, Seen::Got);
            }
            Access::Count(bell) => {
                next.listeners[self.bell(bell)] += 1;
                self.sees(&next, i, Seen::Got);
            }
            Access::Uncount(bell) => {
                next.listeners[self.bell(bell)] -= 1;
                next.threads[i].is_current = false;
                self.sees(&next, i, Seen::Got);
            }
            Access::Hear(_) => {
                next.threads[i].is_current = true;
                self.sees(&next, i, Seen::Got);
            }
            Access::Listeners(bell) => {
                let some = state.listeners[self.bell(bell)] > 0;
                self.sees(&next, i, if some { Seen::Got } else { Seen::Nothing });
            }
            Access::Ring(bell) => {
                for other in next.threads.iter_mut().filter(|it| self.bell(awaited(&it.call)) == self.bell(bell)) {
                    other.is_current = false;
                }
                self.sees(&next, i, Seen::Got);
            }
            Access::End(task) => self.end(state, i, task),
            Access::Rest => {}
        }
    }

    /// A look is two accesses: of the end, of which a push is told at once, and a try.
    fn look(&mut self, state: &State, i: usize, bell: Bell) {
        let mut next = *state;
        let Doing::Read { ended, worn } = state.threads[i].doing else {
            let (ended, worn) = state.end_of(bell);
            let code = if worn { Code::Worn } else { Code::Closed };
            if self.driver == Driver::LooksAtTheEndsLate && bell == Bell::Values {
                return self.look_late(state, i);
            }
            if ended && bell == Bell::Room {
                return self.sees(&next, i, Seen::Ended(code));
            }
            next.threads[i].doing = Doing::Read { ended, worn };
            return self.found.push(next);
        };
        if self.driver == Driver::LooksAtTheEndsLate && bell == Bell::Values {
            return self.sees(&next, i, if state.end_of(bell).0 { Seen::Ended(Code::Closed) } else { Seen::Nothing });
        }
        self.sees(&next, i, Seen::Busy);
        if bell == Bell::Room {
            return self.look_for_room(state, i);
        }
        if state.values > 0 {
            return self.pop(state, i);
        }
        let code = if worn { Code::Worn } else { Code::Closed };
        let seen = if state.shut { Seen::Ended(Code::Closed) } else if ended { Seen::Ended(code) } else { Seen::Nothing };
        self.sees(&next, i, seen);
    }

    fn look_late(&mut self, state: &State, i: usize) {
        let mut next = *state;
        if state.values > 0 {
            return self.pop(state, i);
        }
        next.threads[i].doing = Doing::Read { ended: false, worn: false };
        self.found.push(next);
    }

    fn pop(&mut self, state: &State, i: usize) {
        let mut next = *state;
        if state.pops == 0 {
            next.over = state.over.or(Some(Code::Worn));
            return self.sees(&next, i, Seen::Ended(Code::Worn));
        }
        next.values -= 1;
        next.pops -= u8::from(state.pops < ENDLESS);
        next.room += u8::from(self.case.way == Way::Whole);
        self.sees(&next, i, if self.case.way == Way::Whole { Seen::Got } else { Seen::Took });
    }

    fn look_for_room(&mut self, state: &State, i: usize) {
        let mut next = *state;
        if self.case.way == Way::Whole && state.shut {
            self.sees(&next, i, Seen::Ended(Code::Closed));
        }
        if state.room == 0 {
            return self.sees(&next, i, Seen::Nothing);
        }
        if self.case.way == Way::Whole {
            if !state.shut {
                next.room -= 1;
                self.push(&next, i);
            }
            return;
        }
        next.room -= 1;
        self.sees(&next, i, Seen::Took);
    }

    fn put(&mut self, state: &State, i: usize) {
        self.sees(state, i, Seen::Busy);
        if state.shut {
            return self.sees(state, i, Seen::Ended(Code::Closed));
        }
        self.push(state, i);
    }

    /// A push for which there is room: the value is there, or a word is worn out, and then its room is as before.
    fn push(&mut self, state: &State, i: usize) {
        let mut next = *state;
        if state.pushes == 0 {
            next.over = state.over.or(Some(Code::Worn));
            next.room += u8::from(self.case.way == Way::Whole);
            return self.sees(&next, i, Seen::Ended(Code::Worn));
        }
        next.values += 1;
        next.pushes -= u8::from(state.pushes < ENDLESS);
        self.sees(&next, i, Seen::Got);
    }

    fn end(&mut self, state: &State, i: usize, task: Task) {
        let mut next = *state;
        let is_last = match (task, state.threads[i].doing) {
            (Task::Shut, Doing::Steps) => {
                self.sees(state, i, Seen::Busy);
                next.shut = true;
                next.threads[i].doing = Doing::Read { ended: true, worn: false };
                return self.found.push(next);
            }
            (Task::Shut, _) => {
                next.over = state.over.or(Some(Code::Closed));
                true
            }
            (Task::DropSender, _) => {
                next.senders -= 1;
                next.senders == 0
            }
            _ => {
                next.receivers -= 1;
                next.receivers == 0
            }
        };
        self.sees(&next, i, if is_last { Seen::Got } else { Seen::Nothing });
    }
}
