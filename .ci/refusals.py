#!/usr/bin/env python3
"""Writes docs/REFUSALS.md: what each public call refuses, by which clauses of its contract, and what then stands.

usage: .ci/refusals.py            prints the page
       .ci/refusals.py --check    fails where docs/REFUSALS.md is another page, or where a cell is empty that OPEN does not name

It reads the sources of all crates in crates.txt, those of tests and examples aside. A call is public where its crate's lib.rt
hands it out: a function, a function of a type or a trait. A clause is classed by its own words: one that says what a value is
where the answer is `Ok` says nothing of refusals; one that names the answer else says when refusals come; one that names a
value after the call says what stands.
"""
import dataclasses, os, re, sys

ROOT = os.path.join(os.path.dirname(os.path.abspath(__file__)), "..")
PAGE = os.path.join(ROOT, "docs", "REFUSALS.md")
ROOMS = {"has_room", "room", "room_kept", "never_lowers", "cost"}
ROOM_WORDS = re.compile(r"\b(LeavesAppended|MayAppend|LeavesGround|LeavesStep|PlaysOrRefuses|TakesOrRejects|IsBegun)\b")  # they speak of room too
ALONE = "the one clause"
SHARED = {"RoundError", "SumcheckError", "GenericDegreeError"}  # types of which each call answers its own refusals

# What contracts leave open of a value, and the calls of which that is so.
OPEN = [
    ("challenger", "what a challenger has that was lent to a driver, where memory for the driver's seed was refused: the borrow is gone, "
     "and the calls that make a seed and a driver one after the other say all", {"Transcript::new", "ZkTranscript::new"}),
    ("challenger", "what a challenger has that is the job's own, and is dropped with its answer", {"FieldJobs::answer"}),
]


@dataclasses.dataclass
class Call:
    name: str
    file: str
    answer: str
    values: list  # parameters that the call may write
    clauses: list  # (name, text) of what it ensures
    docs: str


# ---- reading sources

def closed(text, at, pair):
    """The place after the bracket that closes the one at this place."""
    depth = 0
    for at in range(at, len(text)):
        depth += (text[at] == pair[0]) - (text[at] == pair[1])
        if depth == 0:
            return at + 1
    raise ValueError(f"no {pair[1]}")


def without_comments(text):
    return re.sub(r"//[^\n]*", "", text)


def parts(text):
    """What stands between the commas of a list that are in no brackets."""
    found, depth = [""], 0
    for c in text:
        depth += (c in "(<[{") - (c in ")>]}")
        if c == "," and depth == 0:
            found.append("")
        else:
            found[-1] += c
    return [part.strip() for part in found if part.strip()]


def written(parameters):
    for part in parts(parameters):
        if part.startswith("&mut self"):
            yield "self"
        elif found := re.match(r"(\w+): &(?:'\w+ )?mut ", part):
            yield found.group(1)


def handed_out(text):
    """The names that a crate's lib.rt hands out."""
    text = without_comments(text)
    names = {name for found in re.finditer(r"pub use ([^;]+);", text) for name in re.findall(r"\w+", found.group(1))}
    return names | set(re.findall(r"pub (?:struct|enum|trait|fn|const fn|extern \"C\" fn) (\w+)", text))


def other_names(texts, names):
    """Of each type that is handed out under other names: these, each with the last word of what it stands for."""
    found = {}
    for text in texts:
        for alias, kind, rest in re.findall(r"pub type (\w+)[^=]*=\s*(\w+)<([^;]*)>;", text):
            if alias in names:
                found.setdefault(kind, []).append((alias, re.findall(r"\w+", rest)[-1]))
    return found


def scopes(text):
    """Start, end, whether it is a trait, name and head of each trait and each type's own functions in a source."""
    for found in re.finditer(r"(?m)^[ \t]*(pub )?(impl|trait)\b([^{;]*)\{", text):
        head = found.group(3).strip()
        if head.startswith("<"):
            head = head[closed(head, 0, "<>"):].strip()
        is_trait = found.group(2) == "trait"
        if (found.group(1) if is_trait else not re.search(r"\bfor\b", head)):
            yield found.start(), closed(text, found.end() - 1, "{}"), is_trait, re.match(r"\w+", head).group(), head


def ensured(text, at):
    """Name and text of each clause that stands from this place on."""
    while found := re.compile(r"\s*(?:(requires|ensures)\*?\s*(\w*)\s*\{|where\b[^{]*?(?=\n\s*(?:requires|ensures)))").match(text, at):
        at = found.end()
        if found.group(1):
            at = closed(text, at - 1, "{}")
            if found.group(1) == "ensures":
                yield found.group(2) or ALONE, " ".join(text[found.end():at - 1].split())


def docs_before(lines, number):
    """The documentation that stands over the line of this number, from 0."""
    found = []
    while number > 0 and re.match(r"\s*(///|#\[|//)", lines[number - 1]):
        number -= 1
        found.insert(0, lines[number].strip())
    return "\n".join(line[3:].strip() for line in found if line.startswith("///"))


def owner_name(owner, aliases):
    """The name under which a type's function is known: of the other names the one whose last word stands in the head."""
    fitting = [alias for alias, last in aliases.get(owner[3], []) if re.search(rf"\b{last}\b", owner[4])]
    return fitting[0] if len(fitting) == 1 else owner[3]


def calls_in(file, raw, names, aliases):
    text, lines = without_comments(raw), raw.split("\n")
    places = list(scopes(text))
    for found in re.finditer(r"(?m)^[ \t]*(pub )?(?:const |extern \"C\" )?fn (\w+)", text):
        inside = [it for it in places if it[0] < found.start() < it[1]]
        start = text.index("(", found.end())
        end = closed(text, start, "()")
        answer = re.compile(r"\s*(?:->\s*([^{;]*?))?\s*(?=\{|;|\brequires\b|\bensures\b|\bwhere\b)").match(text, end)
        owner = inside[-1] if inside else None
        shown = (owner[2] or found.group(1)) and (owner[3] in names or owner[3] in aliases) if owner else found.group(1) and found.group(2) in names
        if shown:
            name = f"{owner_name(owner, aliases)}::{found.group(2)}" if owner else found.group(2)
            docs = docs_before(lines, text.count("\n", 0, found.start()))
            yield Call(name, file, " ".join((answer.group(1) or "").split()), list(written(text[start + 1:end - 1])), list(ensured(text, answer.end())), docs)


def sources(crate):
    base = os.path.join(ROOT, "crates", crate, "src")
    for folder, _, files in sorted(os.walk(base)):
        for name in sorted(files):
            if name.endswith(".rt"):
                path = os.path.join(folder, name)
                yield os.path.relpath(path, base), open(path, encoding="utf-8").read()


def crates():
    for line in open(os.path.join(ROOT, "crates.txt"), encoding="utf-8"):
        crate = re.match(r"(\w+)[^:#]*:", line)
        if crate and not re.search(r"_tests$|_common$|^example_", crate.group(1)):
            if os.path.exists(os.path.join(ROOT, "crates", crate.group(1), "src", "lib.rt")):
                yield crate.group(1)


def calls_of(crate):
    files = dict(sources(crate))
    names = handed_out(files["lib.rt"])
    aliases = other_names(files.values(), names)
    return [call for file, raw in files.items() for call in calls_in(file, raw, names, aliases)]


def refusal_types():
    """The variants of each public type of refusals, in order, each with the first sentence on it."""
    found = {}
    for crate in crates():
        for _, raw in sources(crate):
            for it in re.finditer(r"(?m)^pub enum (\w*(?:Error|Fault|Misread|Unread|NoValue))\b[^{]*\{", raw):
                found[it.group(1)] = crate, list(variants(raw[it.end():closed(raw, it.end() - 1, "{}") - 1]))
    return found


def variants(body):
    for it in re.finditer(r"((?:^    ///[^\n]*\n)+)(?:^    #[^\n]*\n)*^    (\w+)", body, re.M):
        told = " ".join(line.strip()[3:].strip() for line in it.group(1).strip().split("\n"))
        yield it.group(2), re.split(r"(?<=[.:])\s", told)[0].rstrip(".:")


# ---- what a call's clauses say

def refused_type(call):
    found = re.search(r", ([\w:]+)>$", call.answer) if "Result<" in call.answer else None
    return found.group(1).replace("S::Error", "RoundError") if found else None


def refusals(call, types):
    """The refusals of a call in order: as its documentation names them, else as their type does."""
    kind = refused_type(call)
    if kind is None or kind not in types:
        return [kind] if kind else []
    named = [name for name, _ in types[kind][1]]
    before, _, errors = call.docs.partition("# Errors")
    docs = errors or (before if kind in SHARED else "")
    told = [name for name in dict.fromkeys(re.findall(r"\w+", docs)) if name in named]
    return told if len(told) > 1 else [f"those of `{kind}`"]


def is_value(clause):
    return re.match(r"(let .*? in )?(IfOk|OnOk) \(?result", clause) is not None


def is_room(name, clause):
    return name in ROOMS or re.search(r"(^|→ )IsOk result$|result ≢ Err", clause) is not None


def after(value, clause):
    """Whether the clause says what the value is after the call; what is lent from a value is said by its ends."""
    return re.search(rf"\b{value}\.(new|exit)|\b(LendsValues|Rests|IsLent) .*\b{value}\.entry", clause) is not None


def classed(call):
    """The names of the clauses on room, on when refusals come, and on what stands after them."""
    rooms = [name for name, text in call.clauses if is_room(name, text) or ROOM_WORDS.search(text)]
    rest = [(name, text) for name, text in call.clauses if not is_room(name, text) and not is_value(text)]
    come = [name for name, text in rest if "result" in text and not text.startswith("OnErr result") and refused_type(call)]
    stand = [name for name, text in rest if any(after(value, text) for value in call.values)]
    return rooms, come, stand


def never_refuses(call):
    return any(text == "IsOk result" for _, text in call.clauses)


def unsaid(call):
    """What no clause says: the refusals, or a value after the call."""
    _, come, _ = classed(call)
    if refused_type(call) not in (None, "NoMemory", "Failed") and not come:
        yield "refusals"
    for value in call.values:
        if not never_refuses(call) and not any(after(value, text) for _, text in call.clauses if not is_value(text)):
            yield value


# ---- the page

def code(names):
    return ", ".join(name if name in (ALONE,) or name.startswith("those of") else f"`{name}`" for name in names)


def called(call, calls):
    """The call's name, with its source where there are two of the name."""
    return f"`{call.name}`" + (f" ({call.file})" if sum(it.name == call.name for it in calls) > 1 else "")


def row(call, calls, types):
    rooms, come, stand = classed(call)
    kind = refused_type(call)
    if never_refuses(call):
        refused, by = "none", "`" + next(name for name, text in call.clauses if text == "IsOk result") + "`"
    else:
        refused = code(refusals(call, types)) if kind else "none"
        by = "want of memory" if kind == "NoMemory" and not come else code(come)
    return f"| {called(call, calls)} | {refused} | {by} | {code(stand) if call.values else 'nothing is written'} | {code(rooms)} |"


def table(crate, types):
    calls = calls_of(crate)
    shown = [call for call in calls if refused_type(call) or call.values]
    if shown:
        yield from ("", f"## `{crate}`", "", "| Call | Refusals | They come by | After it stands | Room |", "|---|---|---|---|---|")
        yield from (row(call, calls, types) for call in shown)
    rest = sorted({call.name for call in calls} - {call.name for call in shown})
    if shown and rest:
        yield from ("", f"No refusal, nothing written: {code(rest)}.")


HEAD = """# What each call refuses

One line for each public call that can refuse or that writes something, made from the sources by `.ci/refusals.py`; the gate
holds that no call is missing. The names in the columns are clauses of the call's contract, which stands over its body.

- **Refusals**: in the order in which they are tested, as the call's documentation names them.
- **They come by**: the clauses that say when each comes. Want of memory comes where a growth was refused, which no clause can
  say; the tests show that ample memory is enough.
- **After it stands**: the clauses that say what each value that the call may write is after it, also after a refusal.
- **Room**: the clauses by which a call does not answer want of memory, and what it takes of the room that was made.

A call that answers no `Result` takes no memory and refuses nothing. What it needs is a condition of its contract, and a test
of that condition is offered."""


def page():
    types = refusal_types()
    yield from HEAD.split("\n")
    yield from ("", "Left open, and why in [DECISIONS](DECISIONS.md):", "")
    yield from (f"- {what} ({code(sorted(names))})" for _, what, names in OPEN)
    yield from ("", "## Refusals in their order")
    for kind, (crate, them) in types.items():
        yield from ("", f"`{kind}` of `{crate}`:", "")
        yield from (f"- `{name}`: {told}" for name, told in them)
    for crate in crates():
        yield from table(crate, types)


def is_open(call, value):
    return any(value == of and call.name in names for of, _, names in OPEN)


def main(words):
    text = "".join(line + "\n" for line in page())
    if words != ["--check"]:
        print(text, end="")
        return 0
    missing = [f"{crate}: {call.name} says nothing of {value}" for crate in crates() for call in calls_of(crate) for value in unsaid(call)
               if not is_open(call, value)]
    if text != open(PAGE, encoding="utf-8").read():
        missing.append("docs/REFUSALS.md is another page than .ci/refusals.py prints")
    print("\n".join(missing), end="\n" if missing else "")
    return 1 if missing else 0


if __name__ == "__main__":
    sys.exit(main(sys.argv[1:]))
