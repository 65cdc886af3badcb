"""What the page of a run shows before the first step and after each one, by the machine of traced.py, docs/LINES.md and docs/PICTURES.md
alone."""
import re

import drawn
import traced

SETS = {"N1": "f", "N2": "top", "N3": "next", "F1": "top", "E3": "mark", "E5": "tail", "E6": "next", "D2": "head", "D3": "tail", "D4": "next", "D12": "val",
        "A4": "tail", "B2": "head", "B3": "next", "B4": "val", "S1": "tail", "S2": "next", "S7": "tail"}
TAKES = {"N4", "N5", "D13", "B5"}
TESTS = {"E7": "tail", "D5": "head", "S3": "tail"}
STORES = {"F2", "E2", "A1", "A6", "A7", "B5", "B6", "S9"}
CLEARS = {"E3", "A2"}
ORDER = ["f", "top", "head", "tail", "next", "val", "node", "mark"]


def content(word, it):
    """What a word or a register holds, as a page tells it."""
    if isinstance(it, tuple):
        return ("({},{})" if word.startswith("val") else "<{},{}>").format("shut" if it[0] == "end" else it[0], it[1])
    return str(it)


def spoken(word):
    return re.sub(r"^(next|value) (\d+)$", r"\2→\1", word)


def answer(reply):
    words = reply.split()
    if words[0] == "value":
        return f"value ({words[1]},{words[2]})"
    return " ".join(["refused", drawn.NAMES[words[1]], *words[2:]]) if words[0] == "refused" else reply


def shortly(call, reply):
    if not reply:
        return call
    return f"{call} → {reply.split()[2] if reply.startswith('value') else answer(reply)}"


class Viewed:
    """A run as a page views it: the machine, and beside it what each actor holds and which registers its call has set."""

    def __init__(self, setup, points):
        self.points = points
        self.machine = traced.Machine(*setup)
        self.actors = {}
        self.calls, self.done = [], []

    def actor(self, me):
        return self.machine.actors[me]

    def begin(self, me, words):
        had = self.actor(me)["pocket"]
        self.machine.begin(me, words)
        held = bool(had) and words[0] != "shut"
        has = "hand" if held else self.actors.get(me, {}).get("has", "")
        self.actors[me] = {"has": has, "set": (["node", "mark"] if has else []) + (["val"] if words[0] == "enq" else [])}
        if has == "pocket":
            self.actor(me)["node"], self.actor(me)["mark"] = had
        self.calls.append({"actor": me, "call": " ".join(words), "begun": self.machine.steps, "first": None, "at": None, "last": None, "reply": "", "look": None})

    def call(self, me):
        return next((it for it in reversed(self.calls) if it["actor"] == me and not it["last"]), None)

    def step(self, me, gives=False):
        """Makes a step or a give, and returns what it touched: line, word, what it expected, found and wrote, and the reply."""
        a, mine, it = self.actor(me), self.actors[me], self.call(me)
        line, number = a["line"], self.machine.steps + 1
        it["first"] = it["first"] or number
        word, old, new, found, now = None, None, None, None, None
        if gives:
            self.machine.give(me)
        else:
            word, swap = self.machine.access(line, a, me, lambda ref, node: (node, ref[1] + 1))
            old, new = (swap.old, swap.new) if isinstance(swap, traced.Exchange) else (a[TESTS[line]], None) if line in TESTS else (None, None)
            found = self.machine.word(word)
            self.machine.step(me)
            now = self.machine.words[word]
            won = old is not None and found == old
            self.hold(line, a, mine, won, found)
            if line in ("E9", "D13", "A5", "S4", "S8") and won or line == "B5":
                it["at"] = number
            if line in ("D4", "B3"):
                it["look"] = number
        reply = self.machine.rows[-1].partition(" reply ")[2]
        if reply:
            mine["has"] = "pocket" if a["pocket"] else mine["has"] if mine["has"] == "pocket" else ""
            it.update(last=number, reply=reply, at=it["at"] or (it["look"] if reply == "empty" else number))
        return line, word, old, new, found, now, reply

    def hold(self, line, a, mine, won, found):
        sets = [SETS[line]] if line in SETS else ["node", "mark"] if line in TAKES and (won or line == "B5") else []
        mine["set"] += [name for name in sets if name not in mine["set"]]
        if line in TAKES and (won or line == "B5"):
            mine["has"] = "hand"
        if line in ("E9", "A5", "F3") and won or line in ("F1", "E3") and found[1] == self.machine.limit:
            mine["has"] = ""

    def running(self):
        return [it for it in self.calls if not it["last"]]

    def chain(self, word):
        nodes, node = [], self.machine.words[word][0]
        while node not in (0, "end"):
            nodes.append(node)
            node = self.machine.words.get(f"next {node}", (0, 0))[0]
        return nodes, {0: "NULL", "end": "shut"}[node]

    def card(self, me):
        """An actor's call, line, what its next exchange or test would find, and its registers."""
        it, a = self.call(me), self.actor(me)
        title, due = f"{me} {it['call'] if it else 'no call'}", None
        if it:
            line = a["line"]
            title += f" stands at {line}"
            word, swap = self.machine.access(line, a, me, lambda ref, node: (node, ref[1] + 1))
            holds = self.machine.word(word)
            if isinstance(swap, traced.Exchange):
                wins = holds == swap.old
                title += " would win" if wins else " would lose"
                due = f"CAS({spoken(word)}, {content(word, swap.old)}, {content(word, swap.new)})" + ("" if wins else f" holds {content(word, holds)}")
            elif line in TESTS:
                title += " would be the same" if holds == a[TESTS[line]] else " would differ"
                due = f"{TESTS[line]} = {word}? {word} holds {content(word, holds)}"
        mine = self.actors.get(me)
        registers = [[name, content(name, a[name])] for name in ORDER if mine and name in mine["set"]]
        if mine and mine["has"]:
            registers.append([mine["has"], f"node {a['node'] if mine['has'] == 'hand' else a['pocket'][0]}"])
        return [title, due, registers]

    def picture(self):
        """The chains in words."""
        queue, end = self.chain("Head")
        free, _ = self.chain("Free")
        words, shown = self.machine.words, queue[:5]
        nodes = [f"node {node}" + (f" with {content('value', words[f'value {node}'])}" if index else ", the dummy") for index, node in enumerate(shown)]
        return "; ".join([f"Queue: {', then '.join(nodes)}, then {end if len(queue) <= 5 else 'more'}", f"Head {content('', words['Head'])}", f"Tail {content('', words['Tail'])}",
                          f"Free list: {', then '.join(f'node {node}' for node in free[:5]) or 'no node'}, Free {content('', words['Free'])}"])

    def order(self):
        """The operations by their points, and the queue that these leave."""
        done = sorted((it for it in self.calls if it["at"] and (it["last"] or it["at"] != it["look"])), key=lambda it: it["at"])
        values = []
        for it in done:
            if it["call"].startswith("enq") and not it["reply"].startswith("refused"):
                values.append(f"({it['actor']},{it['call'].split()[1]})")
            elif it["call"] == "deq" and (it["reply"] or "value").startswith("value"):
                values.pop(0)
        told = [f"{it['actor']} {shortly(it['call'], it['reply'])} ({it['at']})" for it in done[-6:]]
        effects = "none so far" if not done else ("… " if len(done) > 6 else "") + " → ".join(told)
        queue = " ".join((["…"] if len(values) > 12 else []) + values[-12:]) or "empty"
        return f"Order of effects: {effects} The queue by these: {queue} ✓ as in the list"

    def look(self, actors, made=None):
        """What a page shows now, behind this step."""
        stands = {}
        for it in self.running():
            line = self.actor(it["actor"])["line"]
            stands[line] = stands.get(line, []) + [str(it["actor"])]
        return {"words": self.words(), "what": self.said(made), "cells": self.cells(made), "at": made[1][0] if made else None, "stands": stands, "cards": [self.card(me) for me in actors],
                "picture": self.picture(), "order": self.order()}

    def words(self):
        """What the words hold, but those that nothing was written into."""
        told = {word: it if isinstance(it, int) else f"{'closed' if it[0] == 'end' else it[0]} {it[1]}" for word, it in self.machine.words.items()}
        return {word: str(it) for word, it in told.items() if str(it) not in ("0", "0 0")}

    def said(self, made):
        if not made:
            return "Before the first step."
        me, (line, word, old, new, found, now, reply) = made
        it = next(it for it in reversed(self.calls) if it["actor"] == me and it["first"])
        if word is None:
            did = "gives up before it"
        elif new is not None:
            did = f"compare-exchange of {spoken(word)} " + ("✓ won" if found == old else "✗ lost" + (" ABA" if isinstance(old, tuple) and found[0] == old[0] else ""))
        elif line in TESTS:
            did = f"reads {word} again: " + ("still as it was read ✓ same" if found == old else "it has changed ✗ differs")
        elif line in STORES:
            did = f"stores into {spoken(word)}"
        elif line in CLEARS:
            did = f"clears the node bits of {spoken(word)}, keeps its count"
        else:
            did = f"reads {spoken(word)} into {SETS[line]}"
        effect = " ◆ takes effect" if self.machine.steps in self.points else ""
        return f"{me} {it['call']} · {line} {did}{effect}" + (f" → {answer(reply)}" if reply else "")

    def cells(self, made):
        if not made or made[1][1] is None:
            return []
        line, word, old, new, found, now, _ = made[1]
        if new is not None:
            return [["expected", "found", "now" if found == old else "would write"], [content(word, it) for it in (old, found, new)]]
        if line in TESTS:
            return [[f"{TESTS[line]} as read", "found"], [content(word, old), content(word, found)]]
        if line in STORES | CLEARS:
            return [["before", "now"], [content(word, found), content(word, now)]]
        return [[f"{spoken(word)} holds"], [content(word, found)]]


def setup_of(text):
    lines = text.split("\n")
    sizes = {words[0]: words[1] for words in (line.split() for line in lines[1:7] if line)}
    return sizes["queue"], int(sizes["nodes"]), int(sizes["limit"]), int(sizes["actors"])


def events_of(text):
    lines = text.split("\n")[:-1]
    return [line.split() for line in lines if line.split()[0] in ("begin", "step", "steps", "give")]


def followed(text, events, points):
    """The run behind these events."""
    run = Viewed(setup_of(text), points)
    for words in events:
        if words[0] == "begin":
            run.begin(int(words[1]), words[2:])
        for _ in range({"begin": 0, "steps": int(words[2]) if words[0] == "steps" else 0}.get(words[0], 1)):
            run.step(int(words[1]), words[0] == "give")
    return run


def looks(text):
    """What a page shows of the text of a schedule before the first step and after each one; and the steps at which operations take effect,
    and those whose compare-exchanges are lost. An empty answer takes effect before it is given."""
    events = events_of(text)
    points = {it["at"] for it in followed(text, events, set()).calls}
    run = Viewed(setup_of(text), points)
    actors = sorted({int(words[1]) for words in events if words[0] == "begin"})[:8]
    seen, made, misses = [], None, []
    for words in events:
        me = int(words[1])
        if words[0] == "begin":
            run.begin(me, words[2:])
            continue
        for _ in range(int(words[2]) if words[0] == "steps" else 1):
            seen.append(run.look(actors, made))
            made = (me, run.step(me, words[0] == "give"))
            line, word, old, new, found, *_ = made[1]
            misses += [run.machine.steps] if new is not None and found != old else []
    seen.append(run.look(actors, made))
    return seen, sorted(it["at"] for it in run.calls if it["at"]), misses


def by_chance(chance, kind, nodes, limit, actors, most):
    """The text of a schedule of this many steps at most, of any calls and gives."""
    machine, events, steps = traced.Machine(kind, nodes, limit, actors), [], 0
    while steps < most:
        me = chance.randint(1, actors)
        if not machine.actors[me]["line"]:
            call = chance.choice(["enq", "enq", "enq", "deq", "deq", "deq", "shut"] if chance.random() < 0.1 else ["enq", "deq"])
            call = [call, str(chance.randint(0, 99))] if call == "enq" else [call]
            machine.begin(me, call)
            events.append(["begin", str(me), *call])
            continue
        line = machine.actors[me]["line"]
        if line in ("N1", "E5", "D2", "F1", "A3", "B1", "S1", "S6") and chance.random() < 0.06:
            machine.give(me)
            events.append(["give", str(me)])
            steps += 1
            continue
        for _ in range(chance.choice([1, 1, 1, 2, 5])):
            if machine.actors[me]["line"] and steps < most:
                machine.step(me)
                steps += 1
                if events[-1][0] == "steps" and events[-1][1] == str(me):
                    events[-1][2] = str(int(events[-1][2]) + 1)
                else:
                    events.append(["steps", str(me), "1"])
    lines = ["msq schedule 2", f"queue {kind}", "bits 24", f"nodes {nodes}", f"limit {limit}", f"actors {actors}", f"events {len(events)}"]
    return "".join(f"{line}\n" for line in lines + [" ".join(words) for words in events])


def moves(run, last, points, misses):
    """Where keys and buttons lead."""
    def goes(at, move, count):
        there = []
        for _ in range(count):
            at = move(at)
            there.append(at)
        return there

    mine = [number for number, line in enumerate(traced.run(run)[0][7:], 1) if line.split()[1] == "2"]
    after = lambda list, none: lambda at: min([it for it in list if it > at], default=none(at))
    return {"2": goes(0, after(mine, lambda at: at), 5), "n": goes(0, after(points, lambda at: last), 9), "p": goes(last, lambda at: max([it for it in points if it < at], default=0), 9),
            "x": goes(0, after(misses, lambda at: misses[0] if misses else at), 5), "PageUp": [max(0, last - 1), max(0, last - 2)], "PageDown": [min(1, last), min(2, last)], "ends": [0, last], "play": [0, last > 0, False],
            "buttons": [0, min(1, last), *buttons(points, last)]}


def buttons(points, last):
    point = min([it for it in points if it > 1], default=last)
    before = max([it for it in points if it < point - 1], default=0)
    return [point, max(0, point - 1), before, last]
