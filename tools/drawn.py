"""The picture that is due of a schedule, by its trace as traced.py finds it, docs/LINES.md and docs/PICTURES.md alone; the
timeline of a history; the picture of a reason, by what is told of it."""
import os
import re

import traced

NAMES = {"1": "NoNode", "2": "WornOut", "3": "Busy", "16": "Closed"}
ROW = re.compile(r"(\d+) (\d+) (\w+) (?:(gives)|(.+) found (.+) now (.+?))(?: reply (.+))?")
STAND = re.compile(r"(\d+) at (\w+) (.+) holds (.+)")
TIMES = re.compile(r".* (?:first|from) (\d+) (?:last|to) (-|\d+)(?: at (-|\d+))? reply .*")
OPERATION = re.compile(r"(\d+) (enq \d+|deq|shut) first (\d+) last (-|\d+) at (-|\d+) reply (.+)")


def content(word, text):
    """What a word holds, as a picture tells it."""
    parts = text.split()
    if len(parts) == 1:
        return text
    return ("({},{})" if word.startswith("value") else "<{},{}>").format(*parts).replace("closed", "shut")


def name(word):
    return re.sub(r"(next|value) (\d+)", r"\2.\1", word)


def named(reply):
    """A reply, behind which the name of a refusal stands."""
    words = reply.split()
    return f"{reply} ({NAMES[words[1]]})" if words[0] == "refused" else reply


def expected(machine, me):
    """What the next step of an actor expects to find, as a trace tells it; nothing where that is no compare-exchange."""
    a = machine.actors[me]
    _, swap = machine.access(a["line"], a, me, lambda ref, node: (node, ref[1] + 1))
    return traced.shown(swap.old) if isinstance(swap, traced.Exchange) else ""


def state(words):
    """What stands beside a row: both chains, with an arrow before the node that Tail names, and who holds the locks."""
    told, tail, is_shown = [], words["Tail"][0], False
    for first in ("Head", "Free"):
        text, node, many = first, words[first][0], 0
        if node == 0:
            text += " -"
        while node not in (0, "end") and many < 5:
            text += f" >{node}" if node == tail else f" {node}"
            is_shown = is_shown or node == tail
            node, many = words.get(f"next {node}", (0, 0))[0], many + 1
        told.append(text + {0: "", "end": " shut"}.get(node, " ..."))
    if not is_shown:
        told.append(f"Tail {tail}")
    told += [f"{lock} {words[lock]}" for lock in ("T_lock", "H_lock") if words[lock]]
    return " | " + ", ".join(told)


def operations(rows):
    """The operations of a trace's rows, in the order of their first steps."""
    begun, open_calls = [], {}
    for row in rows:
        number, me, line, gives, _, found, now, reply = ROW.fullmatch(row).groups()
        if me not in open_calls:
            open_calls[me] = {"actor": me, "first": number, "last": "-", "at": "-", "reply": "-", "look": None}
            begun.append(open_calls[me])
        call = open_calls[me]
        if line in ("E9", "D13", "A5", "B5", "S4", "S8") and not gives and found != now:
            call["at"] = number
        if line in ("D4", "B3"):
            call["look"] = number
        if reply:
            at = call["look"] if reply == "empty" else number
            call.update(last=number, reply=reply, at=at if call["at"] == "-" else call["at"])
            del open_calls[me]
    return begun


def effects(rows):
    """The numbers at which operations take effect, by the rows of a trace."""
    return {int(it["at"]) for it in operations(rows) if it["at"] != "-"}


def accesses():
    """Each line with its access, as docs/LINES.md has them."""
    with open(os.path.join(os.path.dirname(os.path.abspath(__file__)), "../docs/LINES.md"), encoding="utf-8") as page:
        rows = [row.split(" | ") for row in page if re.match(r"\| [A-Z]\d+ \|", row)]
    return [(row[0][2:], row[1].replace("`", "")) for row in rows]


def told(schedule, width=80, first=1, last=0, actor=0, legend=0):
    """What is drawn of a schedule, and the line of the fault by which one of its events is refused, or nothing."""
    trace, fault = traced.told(schedule)
    lines = schedule.split("\n")[:-1]
    at = 3 if lines[0].endswith("2") else 2
    kind, (nodes, limit, actors) = lines[1].split()[1], [line.split()[1] for line in lines[at : at + 3]]
    bits = lines[2].split()[1] if at == 3 else "24"
    steps = int(trace.split("\n")[6].split()[1])
    marked = effects(trace.split("\n")[7 : 7 + steps])
    stands = [STAND.fullmatch(line) for line in trace.split("\n")[7 + steps : -1]]
    refused = int(fault.split()[-1]) if fault else len(lines) + 1
    width = max(40, min(width, 190))
    room = width * 5 // 8
    many = 1 if actor else min(int(actors), (room - 7) // 8)
    side = min(room, 25 + 12 * many)
    begin, end = actor or 1, last or first + 99
    column = lambda me: 7 + (me - begin) * min((room - 7) // many, 12)
    machine = traced.Machine(kind, int(nodes), int(limit), int(actors))
    rows = [f"queue {kind}, bits {bits}, nodes {nodes}, limit {limit}, actors {actors}"]
    heading = " actor"
    for me in range(begin, begin + many):
        heading = heading.ljust(column(me) + 1) + str(me)
    put = lambda text: rows.append(text if len(text) <= width else text[: width - 1] + "~")
    put(heading)
    used = set()
    seen = lambda number, me: first <= number <= end and begin <= me < begin + many

    def step(me, move):
        before, wanted = state(machine.words), expected(machine, me)
        move()
        number, _, line, gives, word, found, now, reply = ROW.fullmatch(machine.rows[-1]).groups()
        after = state(machine.words)
        if not seen(machine.steps, me):
            return
        if gives:
            did = " gives"
        else:
            found, now = content(word, found), content(word, now)
            did = f" {name(word)}" + (f" := {now}" if found != now else f" {now} lost, not {content(word, wanted)}" if wanted else f" {now}")
        used.add(line)
        cell = ("*" if machine.steps in marked else " ") + line + did + (f" -> {named(reply)}" if reply else "")
        text = (number.rjust(6) + " ").ljust(column(me)) + cell
        put(text.ljust(side) + after if machine.steps == first or before != after else text)

    for line in lines[at + 4 : refused - 1]:
        words = line.split()
        me = int(words[1])
        if words[0] == "begin":
            machine.begin(me, words[2:])
            if seen(machine.steps + 1, me):
                put(" " * (column(me) + 1) + " ".join(words[2:]))
        elif words[0] == "steps":
            for _ in range(int(words[2])):
                step(me, lambda: machine.step(me))
        elif words[0] == "step":
            step(me, lambda: machine.step(me, words[2]))
        else:
            step(me, lambda: machine.give(me))
    for me, line, word, holds in (it.groups() for it in stands if it):
        if begin <= int(me) < begin + many:
            put(f"{' ' * column(int(me))} at {line} {name(word)} {content(word, holds)}")
    rows.append(f"steps {first} to {min(end, steps)} of {steps}, actors {begin} to {begin + many - 1} of {actors}")
    for line, access in accesses() if legend else []:
        if line in used:
            put(line.ljust(4) + access)
    return "".join(f"{row}\n" for row in rows), fault


def due(schedule, **view):
    """The picture of a schedule, or the line of the fault by which it is refused."""
    written, fault = told(schedule, **view)
    return fault or written


def scaled(ops, first, to, columns, actor=0):
    """Which of operations, each an actor, a first and a last number and its place, are shown from one number to another, and their
    bars."""
    place = lambda n: max(n - first, 0) * columns // (max(to - first, 0) + 1)
    for index, (me, f, l, at) in enumerate(ops):
        if f > to or l is not None and l < first or actor not in (0, me):
            continue
        bar = [" "] * columns
        goes_on = l is None or l > to
        start, stop = place(f), columns - 1 if goes_on else place(l)
        bar[start : stop + 1] = "=" * (stop + 1 - start)
        if start <= stop:
            bar[start] = "<" if f < first else "|"
            bar[stop] = ">" if goes_on else "|"
        if at is not None and first <= at <= to:
            bar[place(at)] = "*"
        yield index, "".join(bar)


def number(text):
    return None if text == "-" else int(text)


def greatest(ops):
    """The greatest number of operations."""
    return max([0] + [n for op in ops for n in op[1:] if n])


def timeline(history, width=80, first=1, last=0, actor=0, legend=0):
    """The timeline of a history's text."""
    told = [OPERATION.fullmatch(line).groups() for line in history.split("\n")[1:-1]]
    ops = [(int(me), int(f), number(l), number(at)) for me, _, f, l, at, _ in told]
    end = greatest(ops)
    width = max(40, min(width, 190))
    to = min(last or first + 99, end)
    rows = []
    for index, bar in scaled(ops, first, to, width // 2, actor):
        me, call, *_, reply = told[index]
        text = f"{me:>6} {bar} {call} -> {named(reply)}"
        rows.append(text if len(text) <= width else text[: width - 1] + "~")
    rows.append(f"steps {first} to {to} of {end}, operations {len(rows)} of {len(ops)}")
    return "".join(f"{row}\n" for row in rows)


def reason(text, why, width=80, first=1, last=0, actor=0):
    """The picture of a reason of a recorded history's text, by what `msq place --why` writes: the line that tells the reason, and
    the lines of its operations with their numbers."""
    head, *told = why.splitlines()
    of_reason = {int(line.split()[0]) for line in told}
    before = 2 if text.startswith("msq") else 1
    lines, ops = text.split("\n")[before:-1], []
    for line in lines:
        f, l, at = TIMES.fullmatch(line).groups()
        # Each operation of a recording is the actor 1's.
        ops.append((1 if before == 2 else int(line.split()[0]), int(f), number(l), number(at or "-")))
    own = [op for index, op in enumerate(ops) if index + 1 + before in of_reason]
    first, end = max(first, min(n for op in own for n in op[1:3] if n)), greatest(own)
    to = min(last or end, end)
    rows = [head]
    for index, bar in scaled(ops, first, to, max(40, min(width, 190)) // 2, actor):
        at = index + 1 + before
        rows.append(f"{'!' if at in of_reason else ' '} {bar} {at} {lines[index]}")
    rows.append(f"times 0 to {max(to - first, 0)} from {first}, operations {len(rows) - 1} of {len(ops)}")
    return "".join(f"{row}\n" for row in rows)


LOOKS = {"usual": "\033[0m", "bright": "\033[0;1;32m", "dim": "\033[0;2m"}


def coloured(text, kind):
    """What is drawn of a picture, a timeline or a reason with its colours: a code wherever bytes look otherwise than the one before."""
    told, last = "", "usual"
    for row in text.splitlines(keepends=True):
        star, bar = row.find("*"), row.find(" |") + 1
        for column, byte in enumerate(row):
            look = "usual"
            if kind == "reason":
                look = "bright" if row[0] == "!" and byte != "\n" else "usual"
            elif byte == "*" or kind == "picture" and 0 <= star < column and byte != "\n":
                look = "bright"
            if kind == "picture" and 0 < bar <= column and byte != "\n":
                look = "dim"
            told, last = told + (LOOKS[look] if look != last else "") + byte, look
    return told


def normal(text):
    """A text with its codes, but for those behind which bytes look as before."""
    told, last, code = "", LOOKS["usual"], LOOKS["usual"]
    for part in re.split(r"(\033\[[\d;]*m)", text):
        if part.startswith("\033"):
            code = part
        elif part:
            told, last = told + (code if code != last else "") + part, code
    return told
