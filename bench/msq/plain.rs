//! The same job as `msq run` and `msq check`, written plainly and proved in nothing: what the proved program is
//! measured against. `plain run|check [FILE]`.
use std::collections::HashSet;
use std::fmt::{self, Display, Formatter, Write as _};
use std::io::{Read, Write};
use std::process::exit;

#[derive(Clone, Copy, PartialEq, Eq, Default)]
struct Ref {
    node: u32,
    count: u64,
}

#[derive(Clone, Copy, PartialEq, Eq, Debug)]
#[rustfmt::skip]
enum Line {
    N1, N2, N3, N4, N5, F1, F2, F3, E2, E3, E5, E6, E7, E9, E13, E17, D2, D3, D4, D5, D10, D12, D13,
    A1, A2, A3, A4, A5, A6, A7, B1, B2, B3, B4, B5, B6,
}

use Line::*;

#[rustfmt::skip]
const LINES: [(&str, Line); 36] = [
    ("N1", N1), ("N2", N2), ("N3", N3), ("N4", N4), ("N5", N5), ("F1", F1), ("F2", F2), ("F3", F3), ("E2", E2),
    ("E3", E3), ("E5", E5), ("E6", E6), ("E7", E7), ("E9", E9), ("E13", E13), ("E17", E17), ("D2", D2), ("D3", D3),
    ("D4", D4), ("D5", D5), ("D10", D10), ("D12", D12), ("D13", D13), ("A1", A1), ("A2", A2), ("A3", A3), ("A4", A4),
    ("A5", A5), ("A6", A6), ("A7", A7), ("B1", B1), ("B2", B2), ("B3", B3), ("B4", B4), ("B5", B5), ("B6", B6),
];

#[derive(Clone, Copy, PartialEq, Eq)]
enum Op {
    Enq(u64),
    Deq,
}

#[derive(Clone, Copy, PartialEq, Eq)]
enum Reply {
    Done,
    Value(u16, u64),
    Empty,
    Refused(&'static str),
}

#[derive(Clone, Copy)]
struct Stamped {
    actor: u16,
    op: Op,
    first: u64,
    last: Option<u64>,
    at: Option<u64>,
    reply: Option<Reply>,
}

#[derive(Clone, Copy, Default)]
struct Node {
    value: (u16, u64),
    next: Ref,
}

#[derive(Clone)]
struct Actor {
    line: Option<Line>,
    op: Op,
    f: u32,
    top: Ref,
    node: u32,
    mark: u64,
    tail: Ref,
    head: Ref,
    next: Ref,
    val: (u16, u64),
    noted: u64,
    due: Option<(Reply, Option<u64>)>,
    pocket: Option<(u32, u64)>,
    entry: Option<usize>,
}

/// The sizes and the shared words.
struct Memory {
    nonblocking: bool,
    size: u32,
    limit: u64,
    fresh: u32,
    free: Ref,
    head: Ref,
    tail: Ref,
    tail_lock: u16,
    head_lock: u16,
    nodes: Vec<Node>,
}

struct World {
    memory: Memory,
    steps: u64,
    actors: Vec<Actor>,
    operations: Vec<Stamped>,
}

/// Where a line leads.
enum Then {
    To(Line),
    Effect(Line),
    Ends(Reply, Option<u64>),
}

fn swap<T: PartialEq>(word: &mut T, old: T, new: T) -> bool {
    let won = *word == old;
    if won {
        *word = new;
    }
    won
}

impl World {
    fn new(nonblocking: bool, size: u32, limit: u64, actors: usize) -> World {
        let one = Ref { node: 1, count: 0 };
        let none = Ref::default();
        let actor = Actor {
            line: None,
            op: Op::Deq,
            f: 0,
            top: none,
            node: 0,
            mark: 0,
            tail: none,
            head: none,
            next: none,
            val: (0, 0),
            noted: 0,
            due: None,
            pocket: None,
            entry: None,
        };
        let memory = Memory {
            nonblocking,
            size,
            limit,
            fresh: 1,
            free: none,
            head: one,
            tail: one,
            tail_lock: 0,
            head_lock: 0,
            nodes: vec![Node::default(); 2],
        };
        World { memory, steps: 0, actors: vec![actor; actors], operations: Vec::new() }
    }

    fn actor(&mut self, me: u16) -> Result<&mut Actor, u8> {
        self.actors.get_mut(usize::from(me).wrapping_sub(1)).ok_or(9)
    }

    fn begin(&mut self, me: u16, op: Op) -> Result<(), u8> {
        let nonblocking = self.memory.nonblocking;
        let a = self.actor(me)?;
        if a.line.is_some() {
            return Err(7);
        }
        a.op = op;
        a.due = None;
        a.entry = None;
        let held = a.pocket.take();
        if let Some((node, mark)) = held {
            a.node = node;
            a.mark = mark;
        }
        a.line = Some(match (op, held) {
            (Op::Enq(_), None) => N1,
            (Op::Enq(_), Some(_)) => with_node(nonblocking),
            (Op::Deq, None) => dequeues(nonblocking),
            (Op::Deq, Some(_)) => F1,
        });
        if let Op::Enq(body) = op {
            a.val = (me, body);
        }
        Ok(())
    }

    fn step(&mut self, me: u16) -> Result<(), u8> {
        let now = self.steps + 1;
        let a = self.actors.get_mut(usize::from(me).wrapping_sub(1)).ok_or(9)?;
        let line = a.line.ok_or(6)?;
        let then = self.memory.line(me, now, line, a);
        self.steps = now;
        self.settle(me, then);
        Ok(())
    }

    fn give(&mut self, me: u16) -> Result<(), u8> {
        let a = self.actor(me)?;
        let line = a.line.ok_or(6)?;
        if !matches!(line, N1 | D2 | B1 | E5 | A3 | F1) {
            return Err(8);
        }
        if matches!(line, E5 | A3 | F1) {
            a.pocket = Some((a.node, a.mark));
        }
        let reply = match a.due {
            Some((reply, _)) if line == F1 => reply,
            _ => Reply::Refused("3"),
        };
        self.steps += 1;
        self.settle(me, Then::Ends(reply, None));
        Ok(())
    }

    fn settle(&mut self, me: u16, then: Then) {
        let now = self.steps;
        let a = &mut self.actors[usize::from(me) - 1];
        let entry = *a.entry.get_or_insert(self.operations.len());
        if entry == self.operations.len() {
            self.operations.push(Stamped { actor: me, op: a.op, first: now, last: None, at: None, reply: None });
        }
        let operation = &mut self.operations[entry];
        a.line = match then {
            Then::To(line) => Some(line),
            Then::Effect(line) => {
                operation.at = Some(now);
                Some(line)
            }
            Then::Ends(reply, at) => {
                operation.last = Some(now);
                operation.reply = Some(reply);
                operation.at = operation.at.or(at).or(Some(now));
                None
            }
        };
    }
}

impl Memory {
    fn next(&mut self, node: u32) -> &mut Ref {
        &mut self.nodes[node as usize].next
    }

    fn freed(&self, a: &Actor) -> Then {
        match a.due {
            Some((reply, at)) => Then::Ends(reply, at),
            None => Then::To(dequeues(self.nonblocking)),
        }
    }

    fn line(&mut self, me: u16, now: u64, line: Line, a: &mut Actor) -> Then {
        use Then::*;
        let limit = self.limit;
        match line {
            N1 => {
                a.f = self.fresh;
                To(N2)
            }
            N2 => {
                a.top = self.free;
                match a.top.node {
                    0 if a.f < self.size => To(N5),
                    0 => Ends(Reply::Refused("1"), None),
                    _ if a.top.count == limit => Ends(Reply::Refused("2 Free"), None),
                    _ => To(N3),
                }
            }
            N3 => {
                a.next = *self.next(a.top.node);
                To(N4)
            }
            N4 if swap(&mut self.free, a.top, Ref { node: a.next.node, count: a.top.count + 1 }) => {
                a.node = a.top.node;
                a.mark = a.next.count;
                To(with_node(self.nonblocking))
            }
            N5 if swap(&mut self.fresh, a.f, a.f + 1) => {
                a.node = a.f + 1;
                a.mark = 0;
                if self.nodes.len() <= a.node as usize {
                    self.nodes.resize(a.node as usize + 1, Node::default());
                }
                To(with_node(self.nonblocking))
            }
            N4 | N5 => To(N1),
            F1 => {
                a.top = self.free;
                if a.top.count == limit { self.freed(a) } else { To(F2) }
            }
            F2 => {
                *self.next(a.node) = Ref { node: a.top.node, count: a.mark };
                To(F3)
            }
            F3 if swap(&mut self.free, a.top, Ref { node: a.node, count: a.top.count + 1 }) => self.freed(a),
            F3 => To(F1),
            E2 => {
                self.nodes[a.node as usize].value = a.val;
                To(E3)
            }
            E3 => {
                let next = self.next(a.node);
                next.node = 0;
                a.mark = next.count;
                if a.mark == limit { Ends(Reply::Refused("2 Next"), None) } else { To(E5) }
            }
            E5 => {
                a.tail = self.tail;
                To(E6)
            }
            E6 => {
                a.next = *self.next(a.tail.node);
                To(E7)
            }
            E7 if self.tail != a.tail => To(E5),
            E7 if a.next.node == 0 => To(E9),
            E7 if a.tail.count == limit => {
                a.pocket = Some((a.node, a.mark));
                Ends(Reply::Refused("2 Tail"), None)
            }
            E7 => To(E13),
            E9 => {
                let new = Ref { node: a.node, count: a.next.count + 1 };
                if !swap(self.next(a.tail.node), a.next, new) {
                    To(E5)
                } else if a.tail.count == limit {
                    Ends(Reply::Done, None)
                } else {
                    Effect(E17)
                }
            }
            E13 => {
                swap(&mut self.tail, a.tail, Ref { node: a.next.node, count: a.tail.count + 1 });
                To(E5)
            }
            E17 => {
                swap(&mut self.tail, a.tail, Ref { node: a.node, count: a.tail.count + 1 });
                Ends(Reply::Done, None)
            }
            D2 => {
                a.head = self.head;
                To(D3)
            }
            D3 => {
                a.tail = self.tail;
                To(D4)
            }
            D4 => {
                a.next = *self.next(a.head.node);
                a.noted = now;
                To(D5)
            }
            D5 if self.head != a.head => To(D2),
            D5 if a.head.node != a.tail.node => To(D12),
            D5 if a.next.node == 0 => Ends(Reply::Empty, Some(a.noted)),
            D5 if a.tail.count == limit => Ends(Reply::Refused("2 Tail"), None),
            D5 => To(D10),
            D10 => {
                swap(&mut self.tail, a.tail, Ref { node: a.next.node, count: a.tail.count + 1 });
                To(D2)
            }
            D12 => {
                a.val = self.nodes[a.next.node as usize].value;
                if a.head.count == limit { Ends(Reply::Refused("2 Head"), None) } else { To(D13) }
            }
            D13 if swap(&mut self.head, a.head, Ref { node: a.next.node, count: a.head.count + 1 }) => {
                a.node = a.head.node;
                a.mark = a.next.count;
                a.due = Some((Reply::Value(a.val.0, a.val.1), None));
                Effect(F1)
            }
            D13 => To(D2),
            A1 => {
                self.nodes[a.node as usize].value = a.val;
                To(A2)
            }
            A2 => {
                self.next(a.node).node = 0;
                To(A3)
            }
            A3 => To(if swap(&mut self.tail_lock, 0, me) { A4 } else { A3 }),
            A4 => {
                a.tail = self.tail;
                To(A5)
            }
            A5 => {
                *self.next(a.tail.node) = Ref { node: a.node, count: 0 };
                Effect(A6)
            }
            A6 => {
                self.tail = Ref { node: a.node, count: 0 };
                To(A7)
            }
            A7 => {
                self.tail_lock = 0;
                Ends(Reply::Done, None)
            }
            B1 => To(if swap(&mut self.head_lock, 0, me) { B2 } else { B1 }),
            B2 => {
                a.head = self.head;
                To(B3)
            }
            B3 => {
                a.next = *self.next(a.head.node);
                if a.next.node == 0 {
                    a.due = Some((Reply::Empty, Some(now)));
                    return To(B6);
                }
                To(B4)
            }
            B4 => {
                a.val = self.nodes[a.next.node as usize].value;
                if a.head.count == limit {
                    a.due = Some((Reply::Refused("2 Head"), None));
                    return To(B6);
                }
                To(B5)
            }
            B5 => {
                self.head = Ref { node: a.next.node, count: a.head.count + 1 };
                a.node = a.head.node;
                a.mark = a.next.count;
                a.due = Some((Reply::Value(a.val.0, a.val.1), None));
                Effect(B6)
            }
            B6 => {
                self.head_lock = 0;
                match a.due {
                    Some((Reply::Value(..), _)) => To(F1),
                    Some((reply, at)) => Ends(reply, at),
                    None => unreachable!(),
                }
            }
        }
    }
}

fn with_node(nonblocking: bool) -> Line {
    if nonblocking { E2 } else { A1 }
}

fn dequeues(nonblocking: bool) -> Line {
    if nonblocking { D2 } else { B1 }
}

/// A fault of a text: its cause.
type Fault = &'static str;

fn number(word: Option<&str>) -> Result<Option<u64>, Fault> {
    let word = word.ok_or("Form")?;
    let digits = !word.is_empty() && word.bytes().all(|b| b.is_ascii_digit());
    if !digits || (word.len() > 1 && word.starts_with('0')) {
        return Err("Form");
    }
    Ok(word.parse().ok())
}

fn ranged(value: Option<u64>, low: u64, high: u64) -> Result<u64, Fault> {
    value.filter(|n| (low..=high).contains(n)).ok_or("Range")
}

/// The lines of a text, with their numbers.
struct Lines<'a> {
    rest: &'a str,
    number: u64,
}

impl<'a> Lines<'a> {
    fn due(&mut self) -> &'a str {
        self.number += 1;
        let Some((line, rest)) = self.rest.split_once('\n') else { fault(self.number, "End") };
        self.rest = rest;
        line
    }

    fn judged<T>(&mut self, judge: impl FnOnce(&'a str) -> Result<T, Fault>) -> T {
        let line = self.due();
        judge(line).unwrap_or_else(|cause| fault(self.number, cause))
    }

    fn field(&mut self, name: &str, low: u64, high: u64) -> u64 {
        self.judged(|line| ranged(number(line.strip_prefix(name))?, low, high))
    }

    fn ended(self) {
        if !self.rest.is_empty() {
            fault(self.number + 1, "Extra");
        }
    }
}

fn fault(line: u64, cause: &str) -> ! {
    eprintln!("fault 10 Text line {line} {cause}");
    exit(1)
}

enum Event {
    Begin(u16, Op),
    Step(u16, Line),
    Steps(u16, u32),
    Give(u16),
}

fn event(line: &str) -> Result<Event, Fault> {
    let mut words = line.split(' ');
    let kind = words.next();
    let actor = number(words.next())?;
    let parsed = match kind {
        Some("begin") => match words.next() {
            Some("enq") => {
                let body = number(words.next())?;
                ended(words)?;
                let actor = ranged(actor, 1, 65_535)? as u16;
                Event::Begin(actor, Op::Enq(ranged(body, 0, (1 << 48) - 1)?))
            }
            Some("deq") => {
                ended(words)?;
                Event::Begin(ranged(actor, 1, 65_535)? as u16, Op::Deq)
            }
            _ => return Err("Form"),
        },
        Some("step") => {
            let name = words.next();
            ended(words)?;
            let (_, line) = LINES.iter().find(|l| Some(l.0) == name).ok_or("Form")?;
            Event::Step(ranged(actor, 1, 65_535)? as u16, *line)
        }
        Some("steps") => {
            let count = number(words.next())?;
            ended(words)?;
            let actor = ranged(actor, 1, 65_535)? as u16;
            Event::Steps(actor, ranged(count, 1, 1_000_000)? as u32)
        }
        Some("give") => {
            ended(words)?;
            Event::Give(ranged(actor, 1, 65_535)? as u16)
        }
        _ => return Err("Form"),
    };
    Ok(parsed)
}

fn ended<'a>(mut words: impl Iterator<Item = &'a str>) -> Result<(), Fault> {
    words.next().map_or(Ok(()), |_| Err("Form"))
}

fn run(text: &str) {
    let mut lines = Lines { rest: text, number: 0 };
    lines.judged(|l| if l == "msq schedule 1" { Ok(()) } else { Err("Form") });
    let nonblocking = lines.judged(|l| match l {
        "queue two-lock" => Ok(false),
        "queue nonblocking" => Ok(true),
        _ => Err("Form"),
    });
    let size = lines.field("nodes ", 2, 16_777_214) as u32;
    let limit = lines.field("limit ", 1, 1_099_511_627_775);
    let actors = lines.field("actors ", 1, 65_535) as usize;
    let count = lines.field("events ", 0, 1_000_000);
    let events: Vec<Event> = (0..count).map(|_| lines.judged(event)).collect();
    lines.ended();
    let mut world = World::new(nonblocking, size, limit, actors);
    for (place, event) in events.iter().enumerate() {
        let made = match *event {
            Event::Begin(me, op) => world.begin(me, op),
            Event::Step(me, line) => match world.actor(me).map(|a| a.line) {
                Err(why) => Err(why),
                Ok(None) => Err(6),
                Ok(Some(at)) if at != line => Err(8),
                Ok(Some(_)) => world.step(me),
            },
            Event::Steps(me, count) => (0..count).try_for_each(|_| world.step(me)),
            Event::Give(me) => world.give(me),
        };
        if let Err(why) = made {
            let name = ["IdleActor", "ActorBusy", "NotHere", "NoSuchActor"][usize::from(why) - 6];
            eprintln!("fault {why} {name} line {}", place + 7);
            exit(1);
        }
    }
    print_history(&world.operations);
}

impl Display for Op {
    fn fmt(&self, f: &mut Formatter) -> fmt::Result {
        match self {
            Op::Enq(body) => write!(f, "enq {body}"),
            Op::Deq => f.write_str("deq"),
        }
    }
}

/// What is there, or a dash.
struct OrDash<T>(Option<T>);

impl<T: Display> Display for OrDash<T> {
    fn fmt(&self, f: &mut Formatter) -> fmt::Result {
        match &self.0 {
            Some(value) => value.fmt(f),
            None => f.write_str("-"),
        }
    }
}

impl Display for Reply {
    fn fmt(&self, f: &mut Formatter) -> fmt::Result {
        match self {
            Reply::Done => f.write_str("done"),
            Reply::Value(from, body) => write!(f, "value {from} {body}"),
            Reply::Empty => f.write_str("empty"),
            Reply::Refused(why) => write!(f, "refused {why}"),
        }
    }
}

fn print_history(operations: &[Stamped]) {
    let mut text = format!("history {}\n", operations.len());
    for o in operations {
        let (last, at, reply) = (OrDash(o.last), OrDash(o.at), OrDash(o.reply));
        let (actor, op, first) = (o.actor, o.op, o.first);
        writeln!(text, "{actor} {op} first {first} last {last} at {at} reply {reply}").unwrap();
    }
    put(&text);
}

fn put(text: &str) {
    if std::io::stdout().write_all(text.as_bytes()).is_err() {
        eprintln!("fault 12 Write");
        exit(1);
    }
}

fn operation(line: &str) -> Result<Stamped, Fault> {
    let mut words = line.split(' ');
    let actor = number(words.next())?;
    let body = match words.next() {
        Some("enq") => Some(number(words.next())?),
        Some("deq") => None,
        _ => return Err("Form"),
    };
    let mut named = |name| if words.next() == Some(name) { Ok(words.next()) } else { Err("Form") };
    let first = number(named("first")?)?;
    let last = step(named("last")?)?;
    let at = step(named("at")?)?;
    let reply = named("reply")?.ok_or("Form")?;
    let value = if reply == "value" { Some((number(words.next())?, number(words.next())?)) } else { None };
    let why = if reply == "refused" { words.next() } else { None };
    let word = if why == Some("2") { words.next() } else { None };
    ended(words)?;
    let shaped = match (reply, why, word) {
        ("-", ..) => None,
        ("done", ..) => Some(Reply::Done),
        ("empty", ..) => Some(Reply::Empty),
        ("value", ..) => Some(Reply::Value(0, 0)),
        ("refused", Some("1"), _) => Some(Reply::Refused("1")),
        ("refused", Some("3"), _) => Some(Reply::Refused("3")),
        ("refused", Some("2"), Some("Free")) => Some(Reply::Refused("2 Free")),
        ("refused", Some("2"), Some("Next")) => Some(Reply::Refused("2 Next")),
        ("refused", Some("2"), Some("Tail")) => Some(Reply::Refused("2 Tail")),
        ("refused", Some("2"), Some("Head")) => Some(Reply::Refused("2 Head")),
        _ => return Err("Form"),
    };
    let numbered = |n| ranged(n, 1, u64::MAX);
    let from_and_body = |(s, b)| Ok((ranged(s, 1, 65_535)? as u16, ranged(b, 0, (1 << 48) - 1)?));
    let valued = value.map(from_and_body).transpose()?;
    Ok(Stamped {
        actor: ranged(actor, 1, 65_535)? as u16,
        op: body.map_or(Ok(Op::Deq), |b| Ok(Op::Enq(ranged(b, 0, (1 << 48) - 1)?)))?,
        first: numbered(first)?,
        last: last.map(numbered).transpose()?,
        at: at.map(numbered).transpose()?,
        reply: valued.map_or(shaped, |(from, body)| Some(Reply::Value(from, body))),
    })
}

fn step(word: Option<&str>) -> Result<Option<Option<u64>>, Fault> {
    if word == Some("-") { Ok(None) } else { number(word).map(Some) }
}

fn fault_of(o: &Stamped, places: &mut HashSet<u64>) -> Option<&'static str> {
    if o.last.is_some() != o.reply.is_some() || (o.reply.is_some() && o.at.is_none()) {
        return Some("Shape");
    }
    let before = |n: Option<u64>| n.is_some_and(|n| n < o.first);
    if before(o.last) || before(o.at) || matches!((o.at, o.last), (Some(at), Some(last)) if at > last) {
        return Some("Span");
    }
    o.at.filter(|at| !places.insert(*at)).map(|_| "Shared")
}

fn verdict(history: &[Stamped]) -> Option<(usize, &'static str)> {
    let mut places = HashSet::new();
    for (place, o) in history.iter().enumerate() {
        if let Some(cause) = fault_of(o, &mut places) {
            return Some((place + 1, cause));
        }
    }
    let mut list = std::collections::VecDeque::new();
    for (place, o) in by_place(history) {
        let given = match (o.op, o.reply) {
            (_, Some(Reply::Refused(_))) => continue,
            (Op::Enq(body), _) => {
                list.push_back((o.actor, body));
                Reply::Done
            }
            (Op::Deq, _) => list.pop_front().map_or(Reply::Empty, |(from, body)| Reply::Value(from, body)),
        };
        if o.reply.is_some_and(|reply| reply != given) {
            return Some((place + 1, "Reply"));
        }
    }
    None
}

fn by_place(history: &[Stamped]) -> Vec<(usize, &Stamped)> {
    let mut placed: Vec<_> = history.iter().enumerate().filter(|(_, o)| o.at.is_some()).collect();
    placed.sort_by_key(|(_, o)| o.at);
    placed
}

fn kind(reply: Option<Reply>) -> &'static str {
    match reply {
        None => "unfinished",
        Some(Reply::Done) => "done",
        Some(Reply::Value(..)) => "value",
        Some(Reply::Empty) => "empty",
        Some(Reply::Refused(_)) => "refused",
    }
}

fn check(text: &str) {
    let mut lines = Lines { rest: text, number: 0 };
    let count = lines.field("history ", 0, 1_000_000);
    let history: Vec<Stamped> = (0..count).map(|_| lines.judged(operation)).collect();
    lines.ended();
    if let Some((place, cause)) = verdict(&history) {
        put(&format!("no {place} {cause}\n"));
        exit(3);
    }
    let mut text = String::from("yes\n");
    for (_, o) in by_place(&history) {
        let (actor, op, reply) = (o.actor, o.op, OrDash(o.reply));
        writeln!(text, "{:>10}{actor:>7} {op} -> {reply}", o.at.unwrap_or(0)).unwrap();
    }
    let mut counts: Vec<(&str, u64)> = Vec::new();
    for o in &history {
        let kind = kind(o.reply);
        match counts.iter_mut().find(|c| c.0 == kind) {
            Some(count) => count.1 += 1,
            None => counts.push((kind, 1)),
        }
    }
    for (kind, count) in counts {
        writeln!(text, "{kind:<10}{count:>8}").unwrap();
    }
    put(&text);
}

fn main() {
    let words: Vec<String> = std::env::args().collect();
    let mut text = String::new();
    let read = match words.get(2).map(String::as_str) {
        None | Some("-") => std::io::stdin().read_to_string(&mut text).map(|_| ()),
        Some(file) => std::fs::read_to_string(file).map(|all| text = all),
    };
    if read.is_err() {
        eprintln!("fault 11 Read");
        exit(1);
    }
    match words.get(1).map(String::as_str) {
        Some("run") => run(&text),
        Some("check") => check(&text),
        _ => exit(2),
    }
}
