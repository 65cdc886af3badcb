"""Sources: where functions, macros and constants stand, and what functions call."""
import dataclasses
import re
from collections.abc import Collection, Iterable

Texts = dict[str, str]


class Homes(dict[str, list[str]]):
    """The files in which types are declared, by their names, and how many parameters a type has of which the last has a default."""

    def __init__(self) -> None:
        super().__init__()
        self.parameters: dict[str, int] = {}


# Comments, strings and characters, which hold no code. A name may end in ', as in a clause's x'.
NO_CODE = re.compile(r"//[^\n]*|/\*.*?\*/|b?r#*\".*?\"#*|b?\"(?:\\.|[^\"\\])*\"|(?<![\w'])b?'(?:\\[^']*|[^'\\\n])'", re.DOTALL)
CLAUSE = re.compile(r"\b(?:requires|ensures|ghost|decreases|invariant)\b")
OPENS_ITEM = re.compile(r"\b(impl|trait|mod|fn)\b")


def blanked(text: str) -> str:
    """Returns the text with all that is no code as spaces, each line where it was."""
    return NO_CODE.sub(lambda it: re.sub(r"[^\n]", " ", it[0]), text)


@dataclasses.dataclass(frozen=True)
class Function:
    """A function of a source file: its name with that of its block, as Line/push, its first and last line, and where its body begins and ends."""

    file: str
    name: str
    first: int
    last: int
    calls: frozenset[str]
    begins: int
    ends: int
    head: str
    is_of_trait: bool
    home: str

    def simple(self) -> str:
        return self.name.rpartition("/")[2]

    def path(self) -> list[str]:
        """Returns the names down to it that the checker knows it by: Line, push, or from its crate down. A block may stand in another module than its type."""
        if "/" in self.name:
            return self.name.split("/")[-2:]
        return self.place()

    def place(self) -> list[str]:
        """Returns the folder of its proof below proofs/, where its block stands in its type's module."""
        inside = self.home.removeprefix("src/").removesuffix(".rt").removesuffix("/mod")
        return [*([] if inside in ("lib", "main") else inside.split("/")), *self.name.split("/")]

    def can_be_empty(self) -> bool:
        """Returns whether its body says nothing to those that call it: none of a constant function, a cycle of calls, or one that gives a type it doesn't name."""
        words = {*re.findall(r"\w+", self.head)}
        return self.ends - self.begins > 1 and not words & {"const", "cycle"} and "impl" not in self.head.rpartition("->")[2]


def closed(code: str, at: int) -> int:
    """Returns where the brackets that open at a place are closed, one further."""
    depth = 0
    for it in re.compile(r"[{}()\[\]]").finditer(code, at):
        depth += 1 if it[0] in "{([" else -1
        if depth == 0:
            return it.end()
    return len(code)


def body_of(code: str, at: int) -> tuple[int, int]:
    """Returns where the body of the function whose word fn ends at a place begins and ends. Clauses stand before it in braces of their own."""
    since = at
    while at < len(code):
        if code[at] == ";":
            return at, at + 1
        if code[at] == "{":
            end = closed(code, at)
            if not CLAUSE.search(code, since, at):
                return at, end
            at = since = end
        elif code[at] in "([":
            at = closed(code, at)
        else:
            at += 1
    return at, at


def without_generics(text: str) -> str:
    while "<" in text:
        shorter = re.sub(r"<[^<>]*>", "", text.replace("->", "  "))
        if shorter == text:
            return text
        text = shorter
    return text


def arguments(text: str) -> list[str]:
    """Returns the arguments, or the parameters, in the angle brackets that a text begins with, without lifetimes; none where it doesn't."""
    found: list[str] = []
    depth, since = 0, 1
    for it in re.finditer(r"->|[<>(){}\[\],]", text if text.startswith("<") else ""):
        if it[0] in ">)}]" and depth == 1 or it[0] == "," and depth == 1:
            found.append(text[since : it.start()].strip())
            since = it.end()
        depth += (it[0] in "<({[") - (it[0] in ">)}]")
        if depth == 0:
            break
    return [it for it in found if it and not it.startswith("'")]


def after_arguments(text: str) -> str:
    """Returns what stands behind the angle brackets that a text begins with."""
    depth = 0
    for it in re.finditer(r"->|[<>]", text if text.startswith("<") else ""):
        depth += (it[0] == "<") - (it[0] == ">")
        if depth == 0:
            return text[it.end() :]
    return text


def words_of(types: str, own: Collection[str]) -> list[str]:
    """Returns the words of types as the name of a block of a trait has them: of a path its end, and neither lifetimes nor the block's own parameters."""
    words = re.findall(r"&|\w+", re.sub(r"'\w+|\bmut\b|\bdyn\b", "", re.sub(r"\w+\s*::\s*(?=\w)", "", types)))
    return ["Ref" if it == "&" else it[0].upper() + it[1:] for it in words if it not in own]


def block_name(kind: str, head: str, parameters: dict[str, int]) -> str:
    """Returns how the checker names a block: a trait, whatever stands above it, by its name; an impl Type, or Type+ARGUMENTS where these aren't its own
    parameters, one for each of the type's; an impl of a trait by the words of the type, the trait, and the words of the trait's arguments, but for
    Drop, which it names Type."""
    if kind == "trait":
        return (re.findall(r"\w+", without_generics(head).partition(":")[0]) or [""])[-1]
    own = [(re.findall(r"\w+", it.removeprefix("const ")) or [""])[0] for it in arguments(head.strip())]
    first, _, of = after_arguments(head.strip()).partition(" where ")[0].partition(" for ")
    name, given = first.partition("<")[0].strip().rpartition("::")[2], first[len(first.partition("<")[0]) :]
    if of and name != "Drop":
        return "".join([*words_of(of, own), name, *words_of(given, own)])
    if of:
        return of.partition("<")[0].strip().rpartition("::")[2]
    told = arguments(given)
    is_whole = len(told) >= parameters.get(name, 0) and {*told} <= {*own}
    return name if is_whole else "+".join([name, *re.findall(r"\w+", re.sub(r"'\w+", "", given))])


TYPE = re.compile(r"^\s*(?:pub(?:\([^)]*\))?\s+)?(?:struct|enum|union)\s+(\w+)(<[^<>]*>)?", re.MULTILINE)


def homes_of(texts: Texts) -> Homes:
    """Returns the files in which each type is declared, by its name."""
    homes = Homes()
    for file, text in texts.items():
        for name, parameters in TYPE.findall(blanked(text)):
            homes.setdefault(name, []).append(file)
            if "=" in parameters:
                homes.parameters[name] = len(arguments(parameters))
    return homes


def functions_of(file: str, text: str, homes: Homes) -> list[Function]:
    """Returns the functions of a source file, those in blocks and modules too. homes are the files in which types are declared."""
    code = blanked(text)
    found: list[Function] = []
    line = lambda at: code.count("\n", 0, at) + 1

    def first_of(at: int) -> int:
        """Returns where an item begins: its attributes and comments are its own."""
        lines, n = text[:at].split("\n"), line(at)
        while n > 1 and re.match(r"\s*(///|//|#\[)", lines[n - 2]):
            n -= 1
        return n

    def walk(at: int, end: int, inside: list[str], is_of_trait: bool = False) -> None:
        while True:
            it = OPENS_ITEM.search(code, at, end)
            if not it:
                return
            if it[1] == "fn":
                name = re.compile(r"\s+(\w+)").match(code, it.end())
                if not name:
                    at = it.end()
                    continue
                begins, ends = body_of(code, name.end())
                calls = frozenset(re.findall(r"\b(\w+)\s*(?:::\s*<[^;{}()]*>\s*)?\(", code[begins:ends]))
                first = first_of(it.start())
                head = code[sum(len(it) + 1 for it in code.split("\n")[: first - 1]) : begins]
                files = homes.get(inside[-1] if inside else "", [])
                home = files[0] if len(files) == 1 else file
                found.append(Function(file, "/".join([*inside, name[1]]), first, line(ends - 1), calls, begins, ends, head, is_of_trait, home))
                at = ends
                continue
            opens = re.compile(r"[{;]").search(code, it.end(), end)
            if not opens or opens[0] == ";":
                at = it.end()
                continue
            head, ends = code[it.end() : opens.start()], closed(code, opens.start())
            is_trait = it[1] == "trait" or re.search(r"\bfor\b", without_generics(head)) is not None
            walk(opens.end(), ends - 1, [*inside, block_name(it[1], head, homes.parameters)], is_of_trait or is_trait)
            at = ends

    walk(0, len(code), [])
    return found


@dataclasses.dataclass(frozen=True)
class Item:
    """A macro or a constant of a source file, outside of its blocks: its name, its lines, and where it begins and ends."""

    name: str
    first: int
    last: int
    begins: int
    ends: int


def items_of(text: str) -> list[Item]:
    """Returns the macros and constants that stand in a source file itself."""
    code = blanked(text)
    found: list[Item] = []
    for it in re.finditer(r"^(?:pub(?:\([^)]*\))? )?(macro_rules!|const)\s+(\w+)", code, re.MULTILINE):
        at = it.end()
        while at < len(code) and code[at] != ";" and (it[1] == "const" or code[at] not in "{(["):
            at = closed(code, at) if code[at] in "{([" else at + 1
        ends = at + 1 if it[1] == "const" else closed(code, at)
        found.append(Item(it[2], code.count("\n", 0, it.start()) + 1, code.count("\n", 0, ends) + 1, it.start(), ends))
    return found


def names_one(items: Iterable[Item], text: str) -> bool:
    """Returns whether a text names one of these items."""
    return any(re.search(rf"(?<![\w'.$]){it.name}(?![\w'])", text) for it in items)


def renamed(items: Iterable[Item], text: str, number: int) -> str:
    """Returns a text in which these items have the names of an edit's copies of them."""
    for it in items:
        text = re.sub(rf"(?<![\w'.$]){it.name}(?![\w'])", f"{it.name}_edit_{number}", text)
    return text
