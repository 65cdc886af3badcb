#!/usr/bin/env python3
"""The schedule that is due of a recipe, a schedule of version 3, by the tables of docs/LINES.md and the texts of docs/FORMATS.md
alone; and recipes by chance.

    tools/expanded.py --trials N [--seed S] [--program PATH]

Recipe I of seed S is the same in each run; each fourth one is changed, so that most of these are faulty. The program has to write
the schedule that is due, or to tell the fault that is, and of the recipe and of that schedule the trace of its steps and their history;
where an act is refused, the trace up to that. The last line is 'N passed, M failed'."""
import argparse
import os
import pathlib
import random
import re
import subprocess
import sys

sys.dont_write_bytecode = True
sys.path.insert(0, str(pathlib.Path(__file__).resolve().parent))

import drawn
import traced

TOP = pathlib.Path(__file__).resolve().parent.parent
MOST = 10**6
# As how many steps acts count, each at least and all at most, and how many one takes up to a line or an end.
LEAST, ALL, ALONE = 100, 10**8, 64
NUMBER = "(0|[1-9][0-9]*)"
ACTOR, BODY = (1, 65535), (0, 2**48 - 1)
NAMES = "|".join(sorted(traced.LINES))


class Faulty(Exception):
    """The text is no recipe's: its first faulty line, and what is wrong with it."""


def header(bits):
    """What is due before the acts, where so many bits hold a node: the form of a line, and the range of its number."""
    return [
        ("queue (two-lock|nonblocking)", None),
        (f"bits {NUMBER}", (16, 32)),
        (f"nodes {NUMBER}", (2, 2**bits - 2)),
        (f"limit {NUMBER}", (1, 2 ** (64 - bits) - 1)),
        (f"actors {NUMBER}", ACTOR),
    ]


ACTS = [
    (f"begin {NUMBER} enq {NUMBER}", ACTOR, BODY),
    (f"begin {NUMBER} (?:deq|shut)", ACTOR),
    (f"step {NUMBER} (?:{NAMES})", ACTOR),
    (f"steps {NUMBER} {NUMBER}", ACTOR, (1, MOST)),
    (f"give {NUMBER}", ACTOR),
    (f"until {NUMBER} (?:{NAMES})", ACTOR),
    (f"finish {NUMBER}", ACTOR),
]
REPEAT = (f"repeat {NUMBER}", (1, MOST))


def is_within(number, low, high):
    """Whether a number of any length is in a range; 20 digits are more than any range has."""
    return low <= int(number[:20]) <= high


def spoken(line):
    """What a line says before its comment: its words, one space between two."""
    said = line.removesuffix("\r").partition("#")[0]
    return " ".join(word for word in re.split("[ \t]+", said) if word)


def is_recipe(text):
    """Whether the first line of a text is a recipe's."""
    return spoken(text.split("\n")[0]) == "msq schedule 3"


def read(text):
    """The header's words and numbers, and the acts of a recipe, each as (line's number, words), so often as it is done."""
    lines = text.split("\n")
    whole = lines[:-1]
    sizes, acts, body, times, bits = [], [], None, 1, 24
    counted = 0
    for number, line in enumerate(whole, 1):
        said = spoken(line)
        if number == 1:
            if said != "msq schedule 3":
                raise Faulty("line 1 Form")
            continue
        if not said:
            continue
        if len(sizes) == 1 and said.startswith("nodes "):
            sizes.append(str(bits))
        if len(sizes) < 5:
            form, within = header(bits)[len(sizes)]
            found = re.fullmatch(form, said)
            if not found:
                raise Faulty(f"line {number} Form")
            if within and not is_within(found[1], *within):
                raise Faulty(f"line {number} Range")
            bits = int(found[1]) if len(sizes) == 1 else bits
            sizes.append(found[1])
            continue
        if said == "end":
            if body is None:
                if number < len(whole) or lines[-1]:
                    raise Faulty(f"line {number + 1} Extra")
                return sizes, acts
            acts, body, times = acts + body * times, None, 1
            continue
        for form, *ranges in ACTS + ([REPEAT] if body is None else []):
            if found := re.fullmatch(form, said):
                break
        else:
            raise Faulty(f"line {number} Form")
        if not all(is_within(it, *within) for it, within in zip(found.groups(), ranges)):
            raise Faulty(f"line {number} Range")
        words = said.split()
        if words[0] == "repeat":
            times, body = int(words[1]), []
            continue
        counted += times * (max(LEAST, int(words[2])) if words[0] == "steps" else LEAST)
        if counted > ALL:
            raise Faulty(f"line {number} Range")
        (acts if body is None else body).append((number, words))
    raise Faulty(f"line {len(whole) + 1} End")


def walk(machine, me, is_there):
    """Steps of an actor up to where it is to come, and how many; None where it doesn't come there."""
    machine.actor(me)
    for count in range(ALONE + 1):
        line = machine.actors[me]["line"]
        if is_there(line):
            return count
        if line is None or count == ALONE or is_stuck(machine, me):
            return None
        machine.step(me)


def is_stuck(machine, me):
    """Whether an actor waits for a lock that another one holds: no number of its steps changes that."""
    lock = {"A3": "T_lock", "S6": "T_lock", "B1": "H_lock"}.get(machine.actors[me]["line"])
    return lock is not None and machine.word(lock) not in (0, me)


def act(machine, words):
    """Does an act, and answers the events that it stands for."""
    me = int(words[1])
    if words[0] in ("until", "finish"):
        at = words[2] if words[0] == "until" else None
        count = walk(machine, me, lambda line: line == at)
        if count is None:
            raise traced.Refused("8 NotHere" if at else "7 ActorBusy")
        return [f"steps {me} {count}"] if count else []
    if words[0] == "begin":
        machine.begin(me, words[2:])
    elif words[0] == "step":
        machine.step(me, words[2])
    elif words[0] == "steps":
        for _ in range(int(words[2])):
            machine.step(me)
    else:
        machine.give(me)
    return [" ".join(words)]


def history(calls, rows):
    """The text of a history, by the calls of each actor in turn, and the rows of a trace."""
    done = drawn.operations(rows)
    lines = [f"{it['actor']} {calls[it['actor']].pop(0)} first {it['first']} last {it['last']} at {it['at']} reply {it['reply']}" for it in done]
    return "".join(f"{line}\n" for line in [f"history {len(lines)}", *lines])


def calls_in(events):
    """The calls that events begin, of each actor in turn."""
    calls = {}
    for words in (event.split(" ", 2) for event in events):
        if words[0] == "begin":
            calls.setdefault(words[1], []).append(words[2])
    return calls


def refused_event(words, cause):
    """An event that is refused for the same cause as an act."""
    if words[0] == "until":
        return f"step {words[1]} {words[2]}"
    if words[0] == "finish":
        return f"begin {words[1]} deq" if cause == "7 ActorBusy" else f"steps {words[1]} 1"
    return " ".join(words)


def due(text):
    """The text of the schedule that a recipe stands for, the rows of the trace of its steps, and their history. If it is refused, the
    line of the fault, nothing, and the schedule of the acts before it and an event that is refused as the act is, if one is."""
    try:
        (kind, bits, *sizes), acts = read(text)
    except Faulty as faulty:
        return f"fault 10 Text {faulty}\n", None, None
    machine = traced.Machine(kind, *map(int, sizes))
    events = []
    for number, words in acts:
        try:
            events += act(machine, words)
        except traced.Refused as refused:
            stopped = [*events, refused_event(words, str(refused))]
            return f"fault {refused} line {number}\n", None, schedule(kind, bits, sizes, stopped)
    return schedule(kind, bits, sizes, events), machine.rows, history(calls_in(events), machine.rows)


def schedule(kind, bits, sizes, events):
    """The text of a schedule."""
    is_first = bits == "24" and not any(it.endswith(" shut") or re.fullmatch("step .* S.", it) for it in events)
    lines = [f"msq schedule {1 if is_first else 2}", f"queue {kind}", *([] if is_first else [f"bits {bits}"])]
    lines += [f"{name} {size}" for name, size in zip(("nodes", "limit", "actors"), sizes)]
    lines += [f"events {len(events)}", *events]
    return "".join(f"{line}\n" for line in lines)


def act_by_chance(chance, kind, actors, is_open):
    """A line that an act, a repeat or an end may have."""
    me = chance.randint(1, actors)
    deed = chance.random()
    if deed < 0.06:
        return "end" if is_open else f"repeat {chance.randint(1, 3)}"
    if deed < 0.35:
        return f"begin {me} " + chance.choice((f"enq {chance.randint(0, 9)}", f"enq {chance.randint(0, 9)}", "deq", "deq", "shut" if deed > 0.33 else "deq"))
    if deed < 0.55:
        return f"finish {me}"
    if deed < 0.8:
        return f"until {me} {chance.choice(LINES[kind])}"
    return f"steps {me} {chance.randint(1, 4)}" if deed < 0.96 else f"give {me}"


LINES = {
    kind: [it for it in sorted(traced.LINES) if it[0] in letters and (it[0] != "S" or (it in ("S6", "S7", "S8", "S9")) == (kind == "two-lock"))]
    for kind, letters in (("two-lock", "NFABS"), ("nonblocking", "NFEDS"))
}


def blanked(chance, line):
    """The same line with spaces and tabs that say nothing."""
    between = "".join(chance.choice((" ", " ", "  ", "\t", " \t ")) if it == " " else it for it in line)
    return chance.choice(("", "", " ", "\t", "    ")) + between + chance.choice(("", "", " ", "\t", " \t"))


def recipe(chance):
    """A recipe by chance, of which mostly no act is refused; most of its lines have no comment."""
    kind, actors = chance.choice(("two-lock", "nonblocking")), chance.randint(1, 4)
    lines = ["msq schedule 3", f"queue {kind}"] + [f"bits {chance.randint(16, 32)}"] * chance.choice((0, 1, 1)) + [f"nodes {chance.randint(2, 5)}"]
    lines += [f"limit {chance.choice((1, 2, 3, 100))}", f"actors {actors}"]
    is_open = False
    for _ in range(chance.randint(0, 40)):
        line = act_by_chance(chance, kind, actors, is_open)
        now_open = line.startswith("repeat") or (is_open and line != "end")
        longer = [*lines, line] + ["end"] * (2 if now_open else 1)
        if due("".join(f"{it}\n" for it in longer))[1] is not None or chance.random() < 0.01:
            lines.append(line)
            is_open = now_open
    lines += ["end"] * (2 if is_open else 1)
    comments = ["", "", "", " #", " # a comment # of two marks", "# step 1 E9"]
    spaced = chance.random() < 0.5
    lines = [(blanked(chance, line) if spaced else line) + chance.choice(comments) + ("\r" if spaced and chance.random() < 0.2 else "") for line in lines]
    for _ in range(chance.randint(0, 3)):
        lines.insert(chance.randint(1, len(lines) - 1), chance.choice(("", "#", "# begin 1 deq")))
    return "".join(f"{line}\n" for line in lines)


EDGES = (0, 1, 2, 15, 16, 32, 33, 65535, 65536, MOST, MOST + 1, 2**24 - 2, 2**24 - 1, 2**40, 2**48, 2**64, "00", "01", "")


def changed(chance, text):
    """A text that is like a recipe: it is cut off, or a line, a byte or a number of it is another one."""
    lines, deed = text.split("\n"), chance.randrange(5)
    if deed == 0:
        return text[: chance.randrange(len(text))]
    if deed == 1:
        lines.pop(chance.randrange(len(lines)))
    if deed == 2:
        lines.insert(chance.randrange(len(lines)), chance.choice([*lines, "repeat 2", "end", "until 1", "finish 1 1", "events 0"]))
    if deed == 3:
        at = chance.randrange(len(text))
        return text[:at] + chance.choice("# 0159\n\t\rAEq\0") + text[at + chance.randint(0, 1) :]
    if deed == 4:
        found = chance.choice(list(re.finditer("[0-9]+", text)))
        return text[: found.start()] + str(chance.choice(EDGES)) + text[found.end() :]
    return "\n".join(lines)


def is_right(program, text):
    """Whether the program writes what is due of a recipe, and of the schedule for which it stands."""

    def does(given, words, *wanted):
        ran = subprocess.run([program, *words, "-"], input=given, capture_output=True, text=True, timeout=60)
        return (ran.returncode, ran.stdout, ran.stderr) == wanted

    wanted, rows, run = due(text)
    if rows is None:
        trace = traced.told(run)[0] if run else ""
        told = [(["run", "--expand"], ""), (["run"], ""), (["trace"], trace)]
        # With another version the text isn't read as a recipe.
        read_as = told if spoken(text.split("\n")[0]).split(" ")[:3] == ["msq", "schedule", "3"] else told[:1]
        return all(does(text, words, 1, written, wanted) for words, written in read_as)
    trace = traced.due(wanted)
    if trace.split("\n")[7:-1] != rows or not does(text, ["run", "--expand"], 0, wanted, ""):
        return False
    return all(does(given, ["trace"], 0, trace, "") and does(given, ["run"], 0, run, "") for given in (text, wanted))


def main():
    given = argparse.ArgumentParser()
    given.add_argument("--trials", type=int, default=1000)
    given.add_argument("--seed", default="1")
    given.add_argument("--program", default=str(TOP / "crates/msq/out/msq"))
    asked = given.parse_args()
    failed = 0
    for number in range(asked.trials):
        chance = random.Random(f"{asked.seed} {number}")
        text = recipe(chance)
        if number % 4 == 3:
            text = changed(chance, text)
        if not is_right(asked.program, text):
            failed += 1
            print(f"recipe {number} of seed {asked.seed} is expanded wrongly:\n{text}{due(text)[0]}", end="")
    print(f"{asked.trials - failed} passed, {failed} failed")
    sys.exit(failed > 0)


if __name__ == "__main__":
    main()
