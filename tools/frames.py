"""The frames of pages, as crates/page_engine has them in Rust, from the files of crates/page_engine/page. tools/pages prints and compares.

A frame is an HTML file. Its line `<!-- style NAME.css -->` stands for that file, `<!-- script NAME.js .. -->` for those files in one
script, `lines` among them for the table of the lines, which is made of page/lines.table and docs/LINES.md; `<!-- given -->` and
`<!-- told -->` are where a page has its texts. What isn't ASCII is escaped, and indentation is left out, with the comments of a script.
"""
import re

PAGE = "crates/page_engine/page"
LINES = "docs/LINES.md"
TABLE = f"{PAGE}/lines.table"
FRAMES = {"crates/page_engine/src/run_frame.rt": ("run", "RUN_FRAME", "a run"),
          "crates/page_engine/src/history_frame.rt": ("history", "HISTORY_FRAME", "a history or a recording")}
PACKED = 1500

ACCESS = re.compile(r"^\| ([A-Z]\d+) \| (.*?) \|", re.MULTILINE)
CAS = re.compile(r"CAS\((.*?), (<.*?>|[^,]*), (.*)\)")
# `docs/LINES.md` has the words and values of accesses in these forms.
VALUES = {"val": "me.val", "0": '"0"', "own number": "actor", "f+1": "String(Number(me.f) + 1)", "<0,0>": '"0 0"', "<node,0>": "ref(me.node, 0)"}


def word(text):
    """The word that an access names, by an actor's registers."""
    found = re.fullmatch(r"(next|value) of (?:(\w+)'s )?node", text)
    if not found:
        return f'() => "{text}"'
    of = f"node(me.{found[2]})" if found[2] else "me.node"
    return f'(me) => "{found[1]} " + {of}'


def part(text, raised):
    if text == "2^B - 1":
        return '"closed"'
    if text in ("node", "0"):
        return {"node": "me.node", "0": "0"}[text]
    name, _, which = text.partition(".")
    if which == "count+1":
        return raised(name)
    return f"{which}(me.{name})" if which else f"me.{name}"


def value(text):
    """The value that an access expects or writes, by an actor's registers and number."""
    if text in VALUES:
        return f"(me, actor) => {VALUES[text]}"
    pair = re.fullmatch(r"<(.*), ?(.*)>", text)
    if not pair:
        return f"(me) => me.{text}"
    return f"(me) => ref({part(pair[1], None)}, {part(pair[2], lambda name: f'count(me.{name}) + 1')})"


def access(text):
    """What a line does, by its access in docs/LINES.md."""
    text = text.replace("`", "").split("; the number of this step")[0]
    swap = CAS.fullmatch(text)
    if swap:
        return f'does: "swap", word: {word(swap[1])}, old: {value(swap[2])}, now: {value(swap[3])}'
    same = re.fullmatch(r"load (\w+), compare with (\w+)", text)
    if same:
        return f'does: "same", word: {word(same[1])}, of: "{same[2]}"'
    clear = re.fullmatch(r"fetch_and on (.*), clearing the node bits.*", text)
    if clear:
        return f'does: "clear", word: {word(clear[1])}'
    left, right = text.split(" := ")
    if re.fullmatch("f|top|tail|head|next|val", left):
        return f'does: "load", word: {word(right)}, of: "{left}"'
    return f'does: "store", word: {word(left)}, now: {value(right)}'


def quoted(text):
    return '"' + text.strip("\n").replace("\\", "\\\\").replace('"', '\\"') + '"'


def table(tree):
    """The script's table of the lines, and the routines in which they stand."""
    accesses = dict(ACCESS.findall(tree.text(LINES).partition("\n## The ring\n")[0]))
    lines, routines = [], []
    for block in re.split(r"^## ", tree.text(TABLE), flags=re.MULTILINE)[1:]:
        head, *rows = block.rstrip().split("\n")
        queue, title = head.split(": ")
        shown = []
        for row in rows:
            name, text, *more = row.split(" | ")
            shown.append(f"[{quoted('' if name == '-' else name)}, {quoted(text)}]")
            if more:
                needs, sense = more
                lines.append(f"  {name}: {{ {access(accesses.pop(name))}, needs: {quoted(needs.strip())}, sense: {quoted(sense)} }},\n")
        routines.append(f"  {{ queue: {quoted(queue)}, title: {quoted(title)}, lines: [{', '.join(shown)}] }},\n")
    assert not accesses, f"{TABLE} leaves out {', '.join(accesses)}"
    return "// What each line does: the word that it touches, what it expects and writes, and the register that it fills or compares.\n" + \
        "const LINES = {\n" + "".join(lines) + "};\n" + "const ROUTINES = [\n" + "".join(routines) + "];\n"


def escaped(text, form):
    return "".join(it if ord(it) < 128 else form(it) for it in text)


def script(tree, names):
    texts = [table(tree) if name == "lines" else tree.text(f"{PAGE}/{name}") for name in names]
    lines = [line.strip() for text in texts for line in text.split("\n")]
    return escaped("".join(f"{line}\n" for line in lines if line and not line.startswith("//")), lambda it: "\\u{:04x}".format(ord(it)))


def page(tree, name):
    """The text of a frame, with the lines where its texts stand."""
    lines = []
    for line in escaped(tree.text(f"{PAGE}/{name}.html"), lambda it: f"&#{ord(it)};").splitlines(keepends=True):
        found = re.fullmatch(r"<!-- (style|script) (.*) -->\n", line)
        if not found:
            lines.append(line)
        elif found[1] == "style":
            lines += ["<style>\n", tree.text(f"{PAGE}/{found[2]}"), "</style>\n"]
        else:
            lines += ['<script>\n"use strict";\n', script(tree, found[2].split()), "</script>\n"]
    # (a string of Rust leaves out the blanks at the start of a line that it goes on in)
    return "".join(f"{line.strip()}\n" for line in "".join(lines).splitlines())


def parts(tree, name):
    """What a frame has before the given text, between the texts, and behind them."""
    before, mark, rest = page(tree, name).partition("<!-- given -->\n")
    between, told, after = (rest if mark else before).partition("<!-- told -->\n")
    assert told, f"{name}.html has no place for what is told"
    return (before, between, after) if mark else (between, "", after)


def literal(text):
    """A string of Rust, some lines of the text in one of the source."""
    rows, row = [], ""
    for line in text.replace("\\", "\\\\").replace('"', '\\"').splitlines(keepends=True):
        row += line.replace("\n", "\\n")
        if len(row) > PACKED:
            rows, row = rows + [row], ""
    return '"' + "\\\n".join(rows + [row] if row else rows) + '"'


def printed(tree, path):
    """The source in Rust of a frame."""
    name, static, what = FRAMES[path]
    before, between, after = (literal(it) for it in parts(tree, name))
    return f"""//! The frame of the page of {what}, which tools/pages writes from {PAGE}.
use crate::engine::Frame;

/// What the page of {what} has around its texts.
pub static {static}: Frame<'static> = Frame {{
    before: {before},
    between: {between},
    after: {after},
}};
"""


def wrong(tree):
    """Which sources aren't those that are printed."""
    for path in FRAMES:
        if path in tree.paths and tree.text(path) != printed(tree, path):
            yield f"{path} is stale: tools/pages writes it"


def luminance(colour):
    colour = colour[1:] if len(colour) == 7 else "".join(2 * it for it in colour[1:])
    linear = [it / 12.92 if it <= 0.03928 else ((it + 0.055) / 1.055) ** 2.4 for it in (int(colour[at : at + 2], 16) / 255 for at in (0, 2, 4))]
    return 0.2126 * linear[0] + 0.7152 * linear[1] + 0.0722 * linear[2]


def contrasts(css):
    """The colours of a style that are used together, in the light and in the dark, and their contrast."""
    pairs = [("ink", it) for it in "paper panel wash mark w1 w2 w3 w4 w5 w6 lost-wash won-wash".split()] + [("soft", it) for it in "paper panel wash w1 w2 w3 w4 w5 w6".split()]
    pairs += [("lost", it) for it in "panel paper lost-wash".split()] + [("won", it) for it in "panel won-wash".split()] + [("panel", "ink")]
    pairs += [pair for it in "123456" for pair in ((f"a{it}", "panel"), (f"a{it}", f"w{it}"))]
    for name, block in re.findall(r"^(:root(?:\[data-theme=\"dark\"\])?) \{(.*?)^\}", css, re.S | re.M):
        colours = dict(re.findall(r"--([\w-]+): (#\w+);", block))
        for one, other in pairs:
            dark, light = sorted((luminance(colours[one]), luminance(colours[other])))
            yield f"{name}: {one} on {other}", (light + 0.05) / (dark + 0.05)
