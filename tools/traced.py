"""The trace that is due of a schedule, by the tables of docs/LINES.md and the texts of docs/FORMATS.md alone."""
import copy


class Refused(Exception):
    """An event is refused, by this number and name, at this line of the schedule."""


class Exchange:
    """A compare-exchange: what it expects, and what it writes."""

    def __init__(self, old, new):
        self.old, self.new = old, new

    def __call__(self, found):
        return self.new if found == self.old else found


class Machine:
    """A queue, its actors and what they touched. A reference is (node, count); 'end' is the node of a closed end."""

    def __init__(self, kind, nodes, limit, actors):
        self.kind, self.nodes, self.limit = kind, nodes, limit
        self.words = {"Fresh": 1, "Free": (0, 0), "Head": (1, 0), "Tail": (1, 0), "T_lock": 0, "H_lock": 0}
        self.actors = [None] + [{"line": None, "pocket": None} for _ in range(actors)]
        self.steps, self.rows = 0, []

    def word(self, name):
        if name not in self.words:
            self.words[name] = (0, 0)
        return self.words[name]

    def begin(self, me, call):
        a = self.actors[me] if me < len(self.actors) else None
        if a is None:
            raise Refused("9 NoSuchActor")
        if a["line"]:
            raise Refused("7 ActorBusy")
        a.update(call=call[0], due=None)
        held, a["pocket"] = a["pocket"], a["pocket"] if call[0] == "shut" else None
        if call[0] == "enq":
            a["val"] = (me, int(call[1]))
            a["line"] = ("E2" if self.kind == "nonblocking" else "A1") if held else "N1"
        elif call[0] == "deq":
            a["line"] = "F1" if held else self.dequeue()
        else:
            a["line"] = "S1" if self.kind == "nonblocking" else "S6"
        if held and call[0] != "shut":
            a["node"], a["mark"] = held

    def dequeue(self):
        return "D2" if self.kind == "nonblocking" else "B1"

    def actor(self, me):
        if me >= len(self.actors):
            raise Refused("9 NoSuchActor")
        if not self.actors[me]["line"]:
            raise Refused("6 IdleActor")
        return self.actors[me]

    def give(self, me):
        a = self.actor(me)
        if a["line"] not in ("N1", "E5", "D2", "F1", "A3", "B1", "S1", "S6"):
            raise Refused("8 NotHere")
        if a["line"] in ("E5", "A3", "F1"):
            a["pocket"] = (a["node"], a["mark"])
        reply = a["due"] if a["line"] == "F1" and a["due"] else "refused 3"
        self.steps += 1
        self.rows.append(f"{self.steps} {me} {a['line']} gives reply {reply}")
        a["line"] = None

    def step(self, me, at=None):
        a = self.actor(me)
        if at and a["line"] != at:
            raise Refused("8 NotHere")
        line, limit = a["line"], self.limit
        up = lambda ref, node: (node, ref[1] + 1)
        name, new = self.access(line, a, me, up)
        found = self.word(name)
        if callable(new):
            new = new(found)
        self.words[name] = found if new is None else new
        self.steps += 1
        told = self.follows(line, a, found)
        a["line"] = told if told in LINES else None
        reply = "" if told in LINES else f" reply {told}"
        self.rows.append(f"{self.steps} {me} {line} {name} found {shown(found)} now {shown(self.words[name])}{reply}")

    def access(self, line, a, me, up):
        """The word of a line, and what is written there: a content, what an exchange makes of what is found, or None."""
        swap = Exchange
        of = lambda ref: f"next {ref[0]}"
        loads = {"N1": "Fresh", "N2": "Free", "F1": "Free", "E5": "Tail", "E7": "Tail", "D2": "Head", "D3": "Tail", "D5": "Head",
                 "A4": "Tail", "B2": "Head", "S1": "Tail", "S3": "Tail", "S7": "Tail"}
        if line in loads:
            return loads[line], None
        if line in ("N3", "E6", "S2", "D4", "B3"):
            return of(a[{"N3": "top", "E6": "tail", "S2": "tail", "D4": "head", "B3": "head"}[line]]), None
        if line in ("D12", "B4"):
            return f"value {a['next'][0]}", None
        if line in ("E2", "A1"):
            return f"value {a['node']}", a["val"]
        if line in ("E3", "A2"):
            return f"next {a['node']}", lambda found: (0, found[1])
        if line in ("A3", "S6"):
            return "T_lock", swap(0, me)
        if line == "B1":
            return "H_lock", swap(0, me)
        if line in ("A7", "S9"):
            return "T_lock", 0
        if line == "B6":
            return "H_lock", 0
        return {
            "N4": lambda: ("Free", swap(a["top"], up(a["top"], a["next"][0]))),
            "N5": lambda: ("Fresh", swap(a["f"], a["f"] + 1)),
            "F2": lambda: (f"next {a['node']}", (a["top"][0], a["mark"])),
            "F3": lambda: ("Free", swap(a["top"], up(a["top"], a["node"]))),
            "E9": lambda: (of(a["tail"]), swap(a["next"], up(a["next"], a["node"]))),
            "E13": lambda: ("Tail", swap(a["tail"], up(a["tail"], a["next"][0]))),
            "E17": lambda: ("Tail", swap(a["tail"], up(a["tail"], a["node"]))),
            "D10": lambda: ("Tail", swap(a["tail"], up(a["tail"], a["next"][0]))),
            "D13": lambda: ("Head", swap(a["head"], up(a["head"], a["next"][0]))),
            "A5": lambda: (of(a["tail"]), swap((0, 0), (a["node"], 0))),
            "A6": lambda: ("Tail", (a["node"], 0)),
            "B5": lambda: ("Head", up(a["head"], a["next"][0])),
            "S4": lambda: (of(a["tail"]), swap(a["next"], up(a["next"], "end"))),
            "S5": lambda: ("Tail", swap(a["tail"], up(a["tail"], a["next"][0]))),
            "S8": lambda: (of(a["tail"]), swap((0, 0), ("end", 0))),
        }[line]()

    def freed(self, a):
        return a["due"] if a["due"] else self.dequeue()

    def follows(self, line, a, found):
        """The next line, or the reply with which the call ends."""
        limit, node = self.limit, "E2" if self.kind == "nonblocking" else "A1"
        pocket = lambda: a.update(pocket=(a["node"], a["mark"]))
        if line == "N1":
            a["f"] = found
            return "N2"
        if line == "N2":
            a["top"] = found
            if found[0] == 0:
                return "N5" if a["f"] < self.nodes else "refused 1"
            return "refused 2 Free" if found[1] == limit else "N3"
        if line == "N3":
            a["next"] = found
            return "N4"
        if line == "N4":
            if found != a["top"]:
                return "N1"
            a["node"], a["mark"] = a["top"][0], a["next"][1]
            return node
        if line == "N5":
            if found != a["f"]:
                return "N1"
            a["node"], a["mark"] = a["f"] + 1, 0
            return node
        if line == "F1":
            a["top"] = found
            return self.freed(a) if found[1] == limit else "F2"
        if line == "F2":
            return "F3"
        if line == "F3":
            return self.freed(a) if found == a["top"] else "F1"
        if line == "E2":
            return "E3"
        if line == "E3":
            a["mark"] = found[1]
            return "refused 2 Next" if found[1] == limit else "E5"
        if line in ("E5", "D3", "S1"):
            a["tail"] = found
            return {"E5": "E6", "D3": "D4", "S1": "S2"}[line]
        if line in ("E6", "S2", "D4"):
            a["next"] = found
            return {"E6": "E7", "S2": "S3", "D4": "D5"}[line]
        if line in ("E7", "S3"):
            if found != a["tail"]:
                return {"E7": "E5", "S3": "S1"}[line]
            if a["next"][0] == 0:
                return {"E7": "E9", "S3": "S4"}[line]
            if a["next"][0] == "end" or a["tail"][1] == limit:
                if line == "E7":
                    pocket()
                return "refused 16" if a["next"][0] == "end" else "refused 2 Tail"
            return {"E7": "E13", "S3": "S5"}[line]
        if line == "E9":
            if found != a["next"]:
                return "E5"
            return "done" if a["tail"][1] == limit else "E17"
        if line in ("E13", "S5", "D10"):
            return {"E13": "E5", "S5": "S1", "D10": "D2"}[line]
        if line == "E17":
            return "done"
        if line in ("D2", "B2"):
            a["head"] = found
            return {"D2": "D3", "B2": "B3"}[line]
        if line == "D5":
            if found != a["head"]:
                return "D2"
            if a["head"][0] != a["tail"][0]:
                return "D12"
            if a["next"][0] == 0:
                return "empty"
            if a["next"][0] == "end":
                return "refused 16"
            return "refused 2 Tail" if a["tail"][1] == limit else "D10"
        if line == "D12":
            a["val"] = found
            return "refused 2 Head" if a["head"][1] == limit else "D13"
        if line == "D13":
            if found != a["head"]:
                return "D2"
            a["node"], a["mark"] = a["head"][0], a["next"][1]
            a["due"] = f"value {a['val'][0]} {a['val'][1]}"
            return "F1"
        if line in ("A1", "A2"):
            return {"A1": "A2", "A2": "A3"}[line]
        if line in ("A3", "S6", "B1"):
            return {"A3": "A4", "S6": "S7", "B1": "B2"}[line] if found == 0 else line
        if line in ("A4", "S7"):
            a["tail"] = found
            return {"A4": "A5", "S7": "S8"}[line]
        if line == "A5":
            a["due"] = "done" if found == (0, 0) else "refused 16"
            return "A6" if found == (0, 0) else "A7"
        if line == "A6":
            return "A7"
        if line == "A7":
            if a["due"] == "refused 16":
                pocket()
            return a["due"]
        if line == "S4":
            return "done" if found == a["next"] else "S1"
        if line == "S8":
            a["due"] = "done" if found == (0, 0) else "refused 16"
            return "S9"
        if line == "S9":
            return a["due"]
        if line == "B3":
            a["next"] = found
            if found[0] in (0, "end"):
                a["due"] = "empty" if found[0] == 0 else "refused 16"
                return "B6"
            return "B4"
        if line == "B4":
            a["val"] = found
            if a["head"][1] == limit:
                a["due"] = "refused 2 Head"
                return "B6"
            return "B5"
        if line == "B5":
            a["node"], a["mark"] = a["head"][0], a["next"][1]
            a["due"] = f"value {a['val'][0]} {a['val'][1]}"
            return "B6"
        return "F1" if a["due"].startswith("value") else a["due"]


LINES = set("N1 N2 N3 N4 N5 F1 F2 F3 E2 E3 E5 E6 E7 E9 E13 E17 D2 D3 D4 D5 D10 D12 D13 A1 A2 A3 A4 A5 A6 A7 B1 B2 B3 B4 B5 B6 "
            "S1 S2 S3 S4 S5 S6 S7 S8 S9".split())


def shown(content):
    """What a word holds, as a trace tells it."""
    if isinstance(content, int):
        return str(content)
    return f"closed {content[1]}" if content[0] == "end" else f"{content[0]} {content[1]}"


def make(machine, words):
    """Makes an event."""
    me = int(words[1])
    if words[0] == "begin":
        machine.begin(me, words[2:])
    elif words[0] == "step":
        machine.step(me, words[2])
    elif words[0] == "steps":
        for _ in range(int(words[2])):
            machine.step(me)
    else:
        machine.give(me)


def alone(machine, me):
    """How many steps of an actor alone end its call; a dash where 64 don't."""
    machine = copy.deepcopy(machine)
    for count in range(1, 65):
        machine.step(me)
        if not machine.actors[me]["line"]:
            return str(count)
    return "-"


def stands(machine):
    """Where each actor that has a call stands."""
    rows = []
    for me, a in enumerate(machine.actors):
        if a and a["line"]:
            name, _ = machine.access(a["line"], a, me, lambda ref, node: (node, ref[1] + 1))
            rows.append(f"{me} at {a['line']} {name} holds {shown(machine.word(name))}")
    return rows


def standings(machine, words):
    """The same as an event is refused, and how soon the call of the event's ends alone."""
    me, rows = int(words[1]), stands(machine)
    if me < len(machine.actors) and machine.actors[me]["line"]:
        rows.append(f"{me} alone {alone(machine, me)}")
    return rows


def made(setup, events):
    """The machine after events, which of them is refused first, and what it is refused; or how many they are, and nothing."""
    machine = Machine(*setup)
    for at, words in enumerate(events):
        try:
            make(machine, words)
        except Refused as refused:
            return made(setup, events[:at])[0], at, str(refused)
    return machine, len(events), ""


def run(text):
    """The lines of the trace of the text of a schedule; where the actors stand behind it, as an event is refused or at the end; and the
    line of the fault by which one of its events is refused, or nothing."""
    lines = text.split("\n")[:-1]
    version = lines[0].split()[2]
    bits = "24" if version == "1" else lines[2].split()[1]
    sizes = [line.split()[1] for line in lines[3 if version == "2" else 2 :][:3]]
    kind = lines[1].split()[1]
    first = 8 if version == "2" else 7
    events = [line.split() for line in lines[first - 1 :]]
    machine, at, refused = made((kind, *map(int, sizes)), events)
    head = ["msq trace 1", f"queue {kind}", f"bits {bits}", f"nodes {sizes[0]}", f"limit {sizes[1]}", f"actors {sizes[2]}", f"steps {machine.steps}"]
    behind = standings(machine, events[at]) if refused else stands(machine)
    return head + machine.rows, behind, f"fault {refused} line {first + at}\n" if refused else ""


def told(text):
    """What is written of the text of a schedule, and the line of the fault by which one of its events is refused, or nothing."""
    lines, behind, fault = run(text)
    return "".join(f"{line}\n" for line in lines + (behind if fault else [])), fault


def paged(text):
    """What the page of a schedule tells of its run."""
    lines, behind, fault = run(text)
    return "".join(f"{line}\n" for line in lines + behind) + fault


def due(text):
    """The trace of the text of a schedule, or the line of the fault by which it is refused."""
    written, fault = told(text)
    return fault or written
