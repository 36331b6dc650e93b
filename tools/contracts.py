#!/usr/bin/env python3
"""contracts.py [--write]: checks docs/CONTRACTS.md and docs/PROMISES.md against the source.

docs/CONTRACTS.md lists each `pub fn` of crates/*/src, methods included, with its contract; --write makes the page anew. A `pub(crate)` function is
used by its own crate alone and is not listed. It is an error if
  - the page is not the list of today's contracts;
  - a public function has no `ensures` with an equation, has one under a condition, or has a `requires`, and docs/PROMISES.md does not name it
    among the exceptions;
  - a public function's `ensures` says of memory that it is lent nothing, its length alone, or only what a view of it shows, and docs/PROMISES.md
    does not say why;
  - one of the three promises of which the demands say that nothing else satisfies it is not the contract's own equation;
  - a definition of crates/*/specs is used nowhere;
  - docs/PROMISES.md names a must-fail edit that does not exist, or leaves one out, or an edit's text does not occur once in its file;
  - a function has more than 40 lines, or a file of crates/ more than 400;
  - code, a contract or a definition writes a limit of the scope document as a number (see `numbers`).
The last line is 'N passed, M failed'."""
import pathlib, re, sys

ROOT = pathlib.Path(__file__).resolve().parent.parent
CRATES = ROOT / "crates"
PAGE = ROOT / "docs" / "CONTRACTS.md"
PROMISES = ROOT / "docs" / "PROMISES.md"
FUNCTION_LINES, FILE_LINES = 40, 400

HEAD = """# Contracts

Made by `tools/contracts.py --write`; the gate (`.ci/run`) checks that it is up to date. Every public function of every crate with its contract: what it
asks for (nothing, unless a `requires` says so), what it answers and what the memory that it is lent then holds. A contract that is an equation of
the answer and of all that is lent fixes both: nothing else would satisfy it. A function whose contract is no equation, stands under a condition,
asks for something, or says of lent memory only what a view of it shows, is listed with the reason in [PROMISES](PROMISES.md).
"""

# A view of memory shows a part of it, or shows it in another form: the numbers of links, nodes and fates, a part.
VIEWS = r"links_in|nodes_in|fates_in|reaches_in|order_in|judged_in|take|length"

# The limits of the scope document, and where the code and the definitions give them names.
LIMITS = re.compile(r"(?<![\w.'])(512|1_?023|1_?024|2_?047|128|64|40|32|24|16)(?![\w'])")
NAMED = ("sheet/src/limits.rt", "sheet/src/narrow.rt", "sheet/src/wide.rt", "sheet/specs/Editions.antt")
# Other places that may write one of these numbers: the file, what the line has (nothing: any line), and why.
ALLOWED = [
    ("clause/specs/Denote.antt", "word = 64", "the digits of a machine word; the crate stands below the limits"),
    ("clause/src/lib.rt", "WORD: u8 = 64", "the same in the code"),
    ("sheet/specs/Reasons.antt", "number_of NotHeld = 16", "the number of a refusal"),
    ("sheet/src/lib.rt", "NotHeld = 16", "the number of a refusal"),
    ("demands/specs/Starred.antt", "", "worked sheets, byte by byte"),
    ("demands/specs/Telling.antt", "", "worked sheets, byte by byte"),
    ("demands/specs/Wide.antt", "", "worked sheets, byte by byte"),
    ("demands/specs/Recyclings.antt", "", "worked sheets, byte by byte"),
    ("demands/specs/Lowerings.antt", "", "worked sheets, byte by byte"),
    ("demands/specs/Univalents.antt", "", "worked sheets, byte by byte"),
    ("demands/specs/Orders.antt", "", "worked sheets, byte by byte"),
    ("cases_run/src/lib.rt", "const HEADER: usize = 16;", "the bytes before a case of a stream, and no size of a sheet"),
    ("demands/specs/Cases.antt", "needed Narrow n = 48 * n - 24", "the document's own numbers, which the tables compare with what the press asks for"),
    ("demands/specs/Cases.antt", "needed Wide n = 80 * n - 40", "the same for the wide edition"),
    ("demands/specs/Limits.antt", "PressLimit Narrow 1024 1025", "the document's own numbers; the proof compares them with the named limit"),
    ("demands/specs/Limits.antt", "ReplayLimit Narrow 2047 2048", "the same for the replay"),
    ("demands/specs/Limits.antt", "PressLimit Wide 512 513", "the same for the wide edition"),
    ("demands/specs/Limits.antt", "ReplayLimit Wide 1023 1024", "the same for its replay"),
    ("stdio/src/text.rt", "WORD_DIGITS: usize = 16", "the hex digits of a word"),
    ("stdio/src/text.rt", "% 16", "the base of hex digits"),
    ("stdio/src/text.rt", "/ 16", "the base of hex digits"),
]


class Function:
    """A function of a source file: its name (with its type's, if it is a method), where it begins, its length, its contract, and the parameters that
    it is lent by `&mut`."""

    def __init__(self, name, public, lines, at, end):
        head = lines[at : next((i for i in range(at, end) if lines[i].strip() == "{"), end)]
        self.name, self.public, self.at, self.length = name, public, at + 1, end + 1 - at
        self.requires = [line.strip() for line in head if line.strip().startswith("requires")]
        self.ensures = [line.strip() for line in head if line.strip().startswith("ensures")]
        signature = "\n".join(line for line in head if not line.strip().startswith(("requires", "ensures")))
        self.lent = re.findall(r"(\w+): &mut", signature) + re.findall(r"&mut (self)\b", signature)


def functions(path):
    """The functions of a source file, and the methods of its `impl` blocks."""
    lines = path.read_text().split("\n")
    owner = ""
    for at, line in enumerate(lines):
        block = re.match(r"impl(?:<[^>]*>)? (\w+)", line)
        owner = f"{block[1]}::" if block else "" if line == "}" else owner
        found = re.match(r'( {4})?(pub )?(?:pub\(crate\) )?(?:extern "C" )?fn (\w+)', line)
        if found and bool(found[1]) == bool(owner):
            close = (found[1] or "") + "}"
            end = next(i for i in range(at, len(lines)) if lines[i] == close or (i == at and line.endswith("}")))
            yield Function(owner + found[3], bool(found[2]), lines, at, end)


def sources():
    """The files of code and proofs, but not the copies that a check keeps in out/."""
    return sorted(p for p in CRATES.glob("*/**/*") if p.suffix in (".rt", ".antt") and p.relative_to(CRATES).parts[1] != "out")


def path_of(path):
    crate = path.relative_to(CRATES).parts[0]
    module = path.relative_to(CRATES / crate / "src").with_suffix("").parts
    return "::".join([crate, *(m for m in module if m not in ("lib", "main"))])


def exceptions():
    """The functions that docs/PROMISES.md lists under the headings for exceptions, or crates and modules as `a::b::*`."""
    text = PROMISES.read_text()
    out = {}
    titles = {
        "requires": "## A `requires` on a public function",
        "condition": "## An equation under a condition",
        "lent": "## Lent memory that a contract leaves open",
        "equation": "## A public function without an equation",
    }
    for kind, title in titles.items():
        part = text.split(title, 1)[1].split("\n## ", 1)[0] if title in text else ""
        out[kind] = [name for row in part.split("\n") if row.startswith("| `") for name in re.findall(r"`([\w:*]+)`", row.split("|")[1])]
    return out


def named(function, names):
    return any(function == n or (n.endswith("::*") and function.startswith(n[:-1])) for n in names)


def conditional(ensures):
    """Whether an equation stands under a condition: an arrow that follows no binder."""
    return any("→" in re.sub(r"\([^():]* : [^()]*\) →", "", clause) for clause in ensures)


def left_open(ensures, lent):
    """Whether a parameter lent by `&mut` has its last value in no clause but under a view."""
    seen = re.sub(rf"(?:{VIEWS})(?: «?\w+»?\.(?:now|old|new))+|take \w+ «?\w+»?\.new", "", "\n".join(ensures))
    return any(not re.search(rf"(?<!\w)«?{p}»?\.new", seen) for p in lent)


def faults(function, name, allowed):
    """What is wrong with the contract of a public function."""
    found = {
        "equation": (not any("≡" in clause for clause in function.ensures), "has no equation"),
        "condition": (conditional(function.ensures), "has an equation under a condition"),
        "lent": (left_open(function.ensures, function.lent), "leaves open what lent memory holds"),
        "requires": (bool(function.requires), "has a requires"),
    }
    for kind, (there, what) in found.items():
        if there and not named(name, allowed[kind]):
            yield f"{name} {what}, and docs/PROMISES.md does not say why"


def unused():
    """Definitions that are named nowhere but where they are made."""
    texts = {p: p.read_text() for p in sources() if "must-fail" not in p.parts}
    for path in sorted(CRATES.glob("*/specs/**/*.antt")):
        for name in re.findall(r"^(?:abbrev |unfoldable )?pub (?:record |data )?([^\s:({]+)", texts[path], re.M):
            if name == "mod":
                continue
            word = re.compile(r"(?<![\w·'₀-₉-])" + re.escape(name) + r"(?![\w'₀-₉-])")
            own = sum(1 for line in texts[path].split("\n") if word.search(line) and not re.match(rf"(?:(?:abbrev |unfoldable )?pub (?:record |data )?)?{re.escape(name)}[ :]", line))
            if not own and not any(word.search(text) for p, text in texts.items() if p != path):
                yield f"{path.relative_to(ROOT)}: {name} is used nowhere"


def retold():
    """The promises in the demands that are not their functions' contracts, word for word but for brackets and the names of modules and parameters."""
    demands = (CRATES / "demands/specs/Demands.antt").read_text()
    for crate, promise in (("press", "PressPromise"), ("replay", "ReplayPromise"), ("replay_step", "StepPromise")):
        statement = re.search(rf"^{promise} [^=]*=(.*?)\n\n", demands, re.M | re.S)[1]
        contracts = re.findall(r"^    ensures \{ (.*) \}", (CRATES / crate / "src/lib.rt").read_text(), re.M)
        contract = next(c for c in contracts if ".new" in c)
        contract = re.sub(r"(\w+)\.(?:now|old)\b", r"\1", re.sub(r"(\w+)\.new\b", r"\1'", contract))
        for old, new in ((r"\bedition\b", "e"), (r"number\.0", "k"), (r"\bresult\b", "r"), (r"\btally\b", "t")):
            contract = re.sub(old, new, contract)
        words = [re.sub(r"\b[A-Z]\w*\.|[()]", "", text).split() for text in (statement, contract)]
        if words[0] != words[1]:
            yield f"{promise} of the demands differs from the contract in crates/{crate}/src/lib.rt"


def edits():
    """Must-fail edits that a row of docs/PROMISES.md names (`crate: label, label`, or `crate: all`) and that do not exist, and the other way round."""
    there = {(p.parts[-3], p.stem) for p in CRATES.glob("*/must-fail/*.edit")}
    told = set()
    for row in PROMISES.read_text().split("\n"):
        if row.startswith("| "):
            for crate, labels in re.findall(r"\b(\w+): (\w+(?:, \w+)*)", row.split("|")[-2]):
                if (CRATES / crate).is_dir():
                    told |= {e for e in there if e[0] == crate} if labels == "all" else {(crate, l) for l in labels.split(", ")}
    for path in sorted(CRATES.glob("*/must-fail/*.edit")):
        name, old, texts = "", "", {}
        for line in path.read_text().split("\n"):
            kind, _, rest = line.partition(": ")
            if kind == "file":
                name = rest
                texts.setdefault(name, (path.parent.parent / name).read_text())
            elif kind == "old":
                old = rest
                if texts[name].count(old) != 1:
                    yield f"{path.relative_to(ROOT)}: its text occurs {texts[name].count(old)} times in {name}, and must occur once"
            elif kind == "new":
                texts[name] = texts[name].replace(old, rest, 1)
    yield from (f"docs/PROMISES.md names the edit {c}: {l}, which does not exist" for c, l in sorted(told - there))
    yield from (f"docs/PROMISES.md does not name the edit {c}: {l}" for c, l in sorted(there - told))


def numbers():
    """Places in code, contracts and definitions that write a limit of the scope document as a number. Comments do not count."""
    for path in sorted(p for p in CRATES.glob("*/*/**/*") if p.suffix in (".rt", ".antt") and p.relative_to(CRATES).parts[1] in ("src", "specs")):
        where = path.relative_to(CRATES).as_posix()
        if where in NAMED:
            continue
        for at, line in enumerate(path.read_text().split("\n"), 1):
            text = re.sub(r"(^|\s)(//|--).*", "", line)
            for file, what, _ in ALLOWED:
                text = text.replace(what or text, "") if file == where else text
            found = LIMITS.search(text)
            if found:
                yield f"crates/{where}:{at}: {found[0]} has a name in crates/{' or crates/'.join(NAMED)}"


def main():
    wrong, page, checked = [], HEAD, 0
    allowed = exceptions()
    for path in sorted(CRATES.glob("*/src/**/*.rt")):
        made = [*functions(path)]
        page += f"\n## {path_of(path)}\n" if any(f.public for f in made) else ""
        for function in made:
            name = f"{path_of(path)}::{function.name}"
            checked += 1
            if function.length > FUNCTION_LINES:
                wrong.append(f"{name} has {function.length} lines, and at most {FUNCTION_LINES} are allowed")
            if function.public:
                wrong += faults(function, name, allowed)
                contract = "".join(f"    {clause}\n" for clause in [*function.requires, *function.ensures])
                link = f"[`{function.name}`](../{path.relative_to(ROOT)}#L{function.at})"
                page += f"\n{link}" + (f"\n\n{contract}" if contract else ": no contract\n")
    if sys.argv[1:] == ["--write"]:
        PAGE.write_text(page)
    elif not PAGE.exists() or PAGE.read_text() != page:
        wrong.append("docs/CONTRACTS.md is out of date: run tools/contracts.py --write")
    for path in sources():
        checked += 1
        count = path.read_text().count("\n")
        if count > FILE_LINES:
            wrong.append(f"{path.relative_to(ROOT)} has {count} lines, and at most {FILE_LINES} are allowed")
    wrong += [*unused(), *edits(), *retold(), *numbers()]
    finish(checked + len([*CRATES.glob("*/must-fail/*.edit")]), wrong)


def finish(checked, wrong):
    for line in wrong:
        print(line)
    print(f"{checked} passed, {len(wrong)} failed")
    sys.exit(bool(wrong))


main()
