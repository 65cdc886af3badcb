"""What the page of a history or a recording shows at each number, by its text and the answer of `msq place --why`."""
import re

import drawn

OPERATION = re.compile(r"(\S+) (enq \S+|deq|shut) (?:first|from) (\d+) (?:last|to) (-|\d+)(?: at (-|\d+))? reply (.+)")


class History:
    """A history or a recording, and what is found of it."""

    def __init__(self, given, found, causes):
        self.causes = causes
        lines, self.found = given.splitlines(), found.splitlines()
        self.is_recording = lines[0].startswith("msq")
        self.header = header = 2 if self.is_recording else 1
        self.operations = [OPERATION.fullmatch(line).groups() for line in lines[header:]]
        has_own = any(it[4] not in (None, "-") for it in self.operations)
        placed = [OPERATION.fullmatch(line).groups() for line in self.found[1:]] if self.found[0].startswith("history") and not has_own else None
        self.has_own, self.named = has_own, self.found[1:] if self.found[0].startswith("no ") else []
        self.in_reason = {int(line.split()[0]) - 1 - header for line in self.named}
        self.drawn = [tuple(None if it[at] in (None, "-") else int(it[at]) for at in (2, 3, 4)) for it in placed or self.operations]
        self.is_spread = any((a[2], a[3]) != (b[2], b[3]) for a, b in zip(placed or self.operations, self.operations))
        self.numbers = sorted({number for it in self.drawn for number in it if number is not None})
        self.points = sorted((it[2], index) for index, it in enumerate(self.drawn) if it[2] is not None)

    def answered(self, reply):
        words = reply.split()
        if words[0] == "value" and len(words) == 3:
            return f"value ({words[1]},{words[2]})"
        if words[0] == "refused" and words[1:] and words[1] in drawn.NAMES:
            return " ".join(["refused", drawn.NAMES[words[1]]] + words[2:])
        return "no reply" if reply == "-" else reply

    def sentence(self, place):
        if place == 0:
            return "Before the first number."
        number, told = self.numbers[place - 1], []
        for part, word in enumerate(("begins", "takes effect", "ends")):
            for index, it in enumerate(self.operations):
                if self.drawn[index][(0, 2, 1)[part]] != number:
                    continue
                said = f"{'' if self.is_recording else 'actor '}{it[0]}'s {it[1]} {word}"
                said += f": {self.answered(it[5])}" if word == "ends" else ""
                told.append(said + (", which the reason names" if part == 0 and index in self.in_reason else ""))
        rest = f"; and {len(told) - 6} more" if len(told) > 6 else ""
        head = f"Number {place} of {len(self.numbers)}" + (": " if self.is_spread else f", {number}: ")
        return head + "; ".join(told[:6]) + rest + "."

    def queue(self, place):
        """The queue that the points leave, and whether a queue does that."""
        items, is_shut, is_one = [], False, True
        now = self.numbers[place - 1] if place else -1
        for at, index in self.points:
            who, call, *_, reply = self.operations[index]
            if at > now:
                continue
            if reply in ("refused 16", "closed"):
                is_one = is_one and is_shut and not (items and call == "deq")
            elif reply == "-" and (is_shut and call != "deq" or call == "deq" and not items):
                # A pending operation does what the queue lets it do.
                pass
            elif call.startswith("enq") and not reply.startswith("refused"):
                is_one = is_one and not is_shut
                items.append(call.split()[1] if self.is_recording else f"({who},{call.split()[1]})")
            elif call == "shut":
                is_one, is_shut = is_one and not is_shut, True
            elif reply == "empty":
                is_one = is_one and not items and not is_shut
            elif call == "deq" and not reply.startswith("refused"):
                taken = reply.split()[1:]
                is_one = is_one and items[:1] in ([taken[0] if self.is_recording else "({},{})".format(*taken)] if taken else items[:1] or [None],)
                items = items[1:]
        told = items[:40] or ["empty" if self.points else "no operation has a point"]
        told += [f"and {len(items) - 40} more"] if len(items) > 40 else []
        return " ".join(told + (["shut"] if is_shut else []) + ([] if is_one else ["as no queue does by these points"]))

    def rows(self, place):
        span = min(len(self.numbers), 60)
        begin = max(1, place - span + 1)
        head = ["caller" if self.is_recording else "actor", "call", f"the last {span} numbers" if span < len(self.numbers) else "all numbers",
                "from", "to", *(["takes effect at", "as"] if self.points else []), "reply"] + (["in the reason"] if self.named else [])
        where = {number: index + 1 for index, number in enumerate(self.numbers)}
        told = []
        for index, (who, call, first, last, _, reply) in enumerate(self.operations):
            start, end, point = (where.get(number, 1e9) for number in self.drawn[index])
            if start > place:
                continue
            left, right = (1000 * (max(number, begin) - begin) / max(1, span - 1) for number in (start, min(end, place)))
            shown = min(end, place) >= begin
            bar = [round(left) if shown else None, None, max(10, round(right - left)) if shown else None]
            if begin <= point <= place:
                bar[1] = round(1000 * (point - begin) / max(1, span - 1))
            order = [at for at, _ in enumerate(self.points) if self.points[at][1] == index and point <= place]
            effect = [str(self.drawn[index][2]) if order and not self.is_spread else "", str(order[0] + 1) if order else ""] if self.points else []
            cells = [who, call, bar, first, last if end <= place else "", *effect, self.answered(reply) if end <= place else "pending"]
            told.append((start, cells + (["yes" if index in self.in_reason else ""] if self.named else [])))
        told = [row for _, row in sorted(told, key=lambda it: it[0])]
        assert len(told) <= 12, "more operations than this test draws"
        return f"History so far: {len(told)} of {len(self.operations)} operations have begun", [head] + told

    def lanes(self, place):
        """The callers with operations in the picture, with how many and how many points; fewer than there are lanes for."""
        begin = max(1, place - min(len(self.numbers), 60) + 1)
        where = {number: index + 1 for index, number in enumerate(self.numbers)}
        lanes = {}
        for (who, *_), drawn_at in zip(self.operations, self.drawn):
            first, last, point = (where.get(number, 1e9) for number in drawn_at)
            if first <= place and last >= begin:
                bars, points = lanes.get(who, (0, 0))
                lanes[who] = (bars + 1, points + (begin <= point <= place))
        assert len(lanes) <= 12, "more callers than lanes"
        names = sorted(lanes, key=lambda who: (int(who), "") if who.isdigit() else (0, who))
        return [[("" if self.is_recording else "actor ") + who, *lanes[who]] for who in names]

    def heads(self):
        words = self.found[0].split()
        said = "It is one of a queue."
        if words[0] == "no":
            said = f"It is not one of a queue. Line {int(words[1]) + self.header}, operation {words[1]}: {self.causes[words[2]]}"
        elif words[0] == "open":
            said = f"Whether it is one of a queue is open: {self.causes[words[1]]}"
        elif self.operations:
            said += " The stars are the points that it came with." if self.has_own else " The stars are points that were found."
        table = [["line", "which says"]] + [line.split(" ", 1) for line in self.named] if self.named else []
        title = f"A {'recording' if self.is_recording else 'history'} of {len(self.operations)} operations"
        return [title, said, table, not self.named]

    def moves(self):
        """Where keys lead: to points, from the end back, to the reason's operations, and back; where it opens, and by an address."""
        last, where = len(self.numbers), {number: index + 1 for index, number in enumerate(self.numbers)}
        points = sorted({where[number] for number, _ in self.points})
        marks = sorted({where[self.drawn[index][0]] for index in self.in_reason})
        nexts, backs, named, at, back, mark = [], [], [], 0, last, 0
        for _ in range(4):
            at = min([point for point in points if point > at], default=last)
            back = max([point for point in points if point < back], default=0)
            mark = min([point for point in marks if point > mark], default=marks[0] if marks else last)
            nexts, backs, named = nexts + [at], backs + [back], named + [mark]
        return [nexts, backs, named, [max(0, last - 1), max(0, last - 2)], [marks[0] if marks else 0, min(2, last)]]
