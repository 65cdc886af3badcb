"""Recorded histories made by chance, and what msq place may write of one, for tools/fuzz and tools/judged."""
import collections
import re

# Of how many operations all orders are tried.
MOST = 8
NO = re.compile(r"no \d+ (Unshut|(Late|Twice) \d+|(Sooner|Stuck|(Order|Full|Undrained) \d+)( \d+)*)\n")


Operation = collections.namedtuple("Operation", "actor call first last at reply")


def operations_in(text):
    """The operations of a history's text that is in its grammar."""
    for line in text.split(b"\n")[1:-1]:
        actor, *words = line.decode().split(" ")
        call = " ".join(words[: words.index("first")])
        _, first, _, last, _, at, _, *reply = words[words.index("first") :]
        yield Operation(actor, call, int(first), None if last == "-" else int(last), None if at == "-" else int(at), " ".join(reply))


def recording(count, rng, values=0, has_shuts=False):
    """Lines of a recorded history: a run of a queue with times around it, some of it pending, now and then with another reply. Its values
    are so many, or mostly one each; some calls shut the queue, if it has shuts."""
    queue, lines, is_shut = [], [], False
    for number in range(count):
        time = 3 * number // 2 + 5
        actor, first, last = rng.randint(1, 3), time - rng.randrange(5), time + rng.randrange(5)
        if has_shuts and rng.randrange(8) == 0:
            call, reply, is_shut = "shut", "refused 16" if is_shut else "done", True
        elif rng.randrange(2):
            actor, body = (1, rng.randrange(values)) if values else (actor, number if rng.randrange(8) else 0)
            call, reply = f"enq {body}", "refused 16" if is_shut else "done"
            queue += [f"value {actor} {body}"] * (not is_shut)
        else:
            call, reply = "deq", queue.pop(0) if queue else "refused 16" if is_shut else "empty"
        if rng.randrange(15) == 0:
            reply = rng.choice(["empty", "refused 3", "refused 16", "value 1 0", *queue])
        if rng.randrange(8) == 0:
            last = reply = "-"
        lines.append(f"{actor} {call} first {first} last {last} at {rng.choice(['-', number + 1])} reply {reply}")
    rng.shuffle(lines)
    return lines


def fault_of(it):
    """What is wrong with an operation by itself, but for its place; or None."""
    if (it.last is None) != (it.reply == "-"):
        return "Shape"
    if it.last is not None and it.last < it.first:
        return "Span"
    never = {"deq": ["done"]}.get(it.call, ["value", "empty"])
    return "Reply" if it.reply.split(" ")[0] in never else None


def has_order(operations):
    """Whether the operations have an order that keeps time and is a run of a queue: by trying all."""
    before = [sum(1 << at for at, other in enumerate(operations) if other.last is not None and other.last < it.first) for it in operations]
    told = sum(1 << at for at, it in enumerate(operations) if it.reply != "-")
    shuts = sum(1 << at for at, it in enumerate(operations) if it.call == "shut" and not it.reply.startswith("refused"))
    seen, rest = set(), [(0, ())]
    while rest:
        done, queue = state = rest.pop()
        if done & told == told:
            return True
        if state in seen:
            continue
        seen.add(state)
        for at, it in enumerate(operations):
            if done >> at & 1 or before[at] & ~done:
                continue
            shut = done & shuts
            if it.reply == "refused 16":
                if shut and not (it.call == "deq" and queue):
                    rest.append((done | 1 << at, queue))
            elif it.reply.startswith("refused"):
                rest.append((done | 1 << at, queue))
            elif it.call != "deq":
                if not shut:
                    value = () if it.call == "shut" else (f"value {it.actor} {it.call[4:]}",)
                    rest.append((done | 1 << at, (*queue, *value)))
            elif it.reply in ("-", queue[0] if queue else "-" if shut else "empty"):
                rest.append((done | 1 << at, queue[1:]))
    return False


def is_spread(given, new):
    """Whether operations are others but for their places, and for stamps by which the same ended before others began."""
    same = [[(it.actor, it.call, it.reply, it.last is None) for it in operations] for operations in (given, new)]
    ended = [[a.last is not None and a.last < b.first for a in operations for b in operations] for operations in (given, new)]
    return same[0] == same[1] and ended[0] == ended[1]


def is_due(given, status, wrote, new):
    """Whether this may be written of these operations; new: those written, where they are a history that is judged yes."""
    for number, it in enumerate(given, 1):
        if cause := fault_of(it):
            return (status, wrote) == (3, f"no {number} {cause}\n")
    order = has_order(given) if len(given) <= MOST else None
    match status, wrote:
        case 0, _:
            return order is not False and new is not None and is_spread(given, new)
        case 3, _:
            return order is not True and NO.fullmatch(wrote) is not None
    return False
