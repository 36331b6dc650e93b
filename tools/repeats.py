#!/usr/bin/env python3
"""repeats.py: finds text that is written twice: six lines or more that two places of the sources share.

Reads the .rt, .antt, .rs and .py files. Not counted: blank lines, comments, lines that bring names in, brackets, and a name or a parameter alone on
its line, which is how the formatters lay out a long list. In a proof, what the check asks for by name (`x : goal.x`, and answers of one tactic) is not
counted either: another proof's are other goals. The last line is 'N passed, 0 failed', N the files."""
import pathlib, re, subprocess, sys

ROOT = pathlib.Path(__file__).resolve().parent.parent
LEAST = 6
COMMENT = {".rt": "//", ".rs": "//", ".antt": "--", ".py": "#"}

BRINGS = re.compile(r"(pub )?(ghost )?(use|mod|import|from) ")
LAYOUT = re.compile(r"[\W_]*(?:[\w'«»·+-]+(: [&\w\[\]; ]+)?,?)?[\W_]*")
ASKED = re.compile(r": goal\.|= (search rules|omega arith|grind \(arith, common_steps\))$|^unfolding ")


def lines_of(path):
    """The lines that count, each with its number."""
    mark = COMMENT[path.suffix]
    for number, line in enumerate(path.read_text().split("\n"), 1):
        line = " ".join(re.sub(rf"(^|\s){re.escape(mark)}.*", "", line).split())
        if line and not (BRINGS.match(line) or LAYOUT.fullmatch(line) or path.suffix == ".antt" and ASKED.search(line)):
            yield number, line


def main():
    names = subprocess.run(["git", "ls-files"], cwd=ROOT, capture_output=True, text=True, check=True).stdout.split()
    paths = [ROOT / n for n in names if pathlib.Path(n).suffix in COMMENT and (ROOT / n).exists()]
    texts = {path: list(lines_of(path)) for path in paths}
    first, wrong = {}, []
    for path, text in texts.items():
        at = 0
        while at + LEAST <= len(text):
            run = tuple(line for _, line in text[at : at + LEAST])
            there, then = first.setdefault(run, (path, at))
            if (there, then) == (path, at) or there == path and then + LEAST > at:
                at += 1
                continue
            length = LEAST
            while at + length < len(text) and then + length < len(texts[there]) and text[at + length][1] == texts[there][then + length][1]:
                length += 1
            here = f"{path.relative_to(ROOT)}:{text[at][0]}-{text[at + length - 1][0]}"
            wrong.append(f"{here}: the same {length} lines are at {there.relative_to(ROOT)}:{texts[there][then][0]}")
            at += length
    print(*wrong, sep="\n", end="\n" if wrong else "")
    print(f"{len(paths)} passed, {len(wrong)} failed")
    sys.exit(bool(wrong))


main()
