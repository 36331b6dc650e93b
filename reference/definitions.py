#!/usr/bin/env python3
"""definitions.py [--seed S] [--count N] [--edition narrow|wide]: has antt compute the definitions of press and replay on random cases of the
second program, of both editions if none is named. A press is of the recycling and the lowering that the case names.

Writes a scratch repository (the crates, and one crate more whose statements are the cases) outside the tree and checks it. A case is
right if the answer, every byte of output and marks, every slot, and the tally and the slots after each record are what the second
program says."""
import argparse, pathlib, shutil, subprocess, sys, tempfile

ROOT = pathlib.Path(__file__).resolve().parent.parent
BATCH = 25
EDITIONS = ["narrow", "wide"]
LOWERINGS = {"nothing": "None", "units": "(Some Units)", "univalents": "(Some Univalents)"}
ORDERS = {"bottom-up": 0, "top-down": 1}


def numbers(values):
    return "(" + "".join(f"{v} ∷ " for v in values) + "[])"


def byte_list(text):
    data = b"" if text == "-" else bytes.fromhex(text)
    return f"(bytes {len(data)} {int.from_bytes(data, 'little')})", len(data)


def answer(words):
    """The numbers of an answer line, and whether it is a refusal."""
    if words[1] == "refused":
        return [int(words[2]), int(words[3])], True
    return [int(words[2], 16), int(words[3], 16)] + [ORDERS[w] if w in ORDERS else int(w) for w in words[5::2]], False


def slot(word):
    if word == "-":
        return [0, 0, 0, 0]
    node, positive, negative = word.split(":")
    return [1, int(node), int(positive, 16), int(negative, 16)]


def trace(lines):
    out = []
    for line in lines:
        words = line.split()
        out += [int(w) for w in words[1:5]]
        for word in words[6:]:
            out += slot(word)
    return out


def case(block):
    words = block[0].split()
    said, refused = answer(block[1].split())
    edition = words[1].capitalize()
    if words[0] == "press":
        passes = f"{words.pop(2).capitalize()} {LOWERINGS[words.pop(2)]}"
    sheet, _ = byte_list(words[2])
    rules, _ = byte_list(words[3])
    if words[0] == "press":
        room, marks = int(words[4]), int(words[5])
        out, wrote = (f"(junk {room})", 0) if refused else byte_list(block[2].split()[1])
        marked, count = (f"(junk {marks})", 0) if refused else byte_list(block[3].split()[1])
        if not refused:
            out = f"({out} ++ junk {room - wrote})"
            marked = f"({marked} ++ junk {marks - count})"
        return f"pressed {edition} {passes} {sheet} {rules} {room} {marks} {numbers(said)} {out} {marked}"
    slots = int(words[4])
    after = "dirty" if refused and said[0] <= 4 else "clean"
    replayed = f"replayed {edition} {sheet} {rules} {slots} {numbers(said)} ({after} {slots})"
    if refused and said[0] <= 4:
        return replayed
    return f"({replayed} && traced {edition} {sheet} {rules} {slots} {numbers(trace(block[2:]))})"


HEAD = """use Rattle.std.specs.Prelude.{ℕ, zero, suc, ◌/◌, Bool, true, ◌&&◌, List, [], ◌∷◌, ◌++◌, T, None, Some, length}
use Rattle.base.specs.Bytes.{bytes, flat}
use Rattle.sheet.specs.Editions.{record_bytes}
use Rattle.sheet.specs.declared.edition.Edition.{Edition}
use Rattle.sheet.specs.declared.edition.Edition.TheVariants.{EDITIONS}
use Rattle.sheet.specs.Fields.{record_at}
use Rattle.replay_spec.specs.Step.{State, Turn, goes, stops, turn}
use Rattle.replay_spec.specs.Slots.{Slot}
use Rattle.replay_spec.specs.Replay as Replay
use Rattle.replay_spec.specs.Replay.{start}
use Rattle.press_spec.specs.declared.Recycling.{Recycling}
use Rattle.press_spec.specs.declared.Recycling.TheVariants.{Reset, Intersection}
use Rattle.press_spec.specs.declared.Lowerable.TheVariants.{Units, Univalents}
use Rattle.press_spec.specs.Plans.{Lowering, plan}
use Rattle.press_spec.specs.Press as Press
use Rattle.demands.specs.Cases as Cases
use Rattle.demands.specs.Cases.{press_is, replay_is, junk, dirty, clean, slot_numbers, equal}
use Rattle.demands.proofs.Computing.{computing}
"""

TRACE = """
unfoldable pub pressed : Edition → Recycling → Lowering → List ℕ → List ℕ → ℕ → ℕ → List ℕ → List ℕ → List ℕ → Bool
pressed e how what sheet rules room marks said out marked =
    press_is (Press.press (plan e how what) (Press.call sheet rules (junk room) (junk marks))) said out marked

unfoldable pub replayed : Edition → List ℕ → List ℕ → ℕ → List ℕ → List Slot → Bool
replayed e sheet rules slots said after = replay_is (Replay.replay e sheet rules (dirty slots)) said after

unfoldable pub state_numbers : State → List ℕ
state_numbers s = s.tally.next ∷ s.tally.held ∷ s.tally.peak ∷ s.tally.steps ∷ flat slot_numbers s.slots

unfoldable pub states : Edition → List ℕ → List ℕ → ℕ → ℕ → State → List ℕ
states e sheet rules zero k s = []
states e sheet rules (suc m) k s =
    elim (turn e rules (record_at e sheet k) s) [ goes t ↦ state_numbers t ++ states e sheet rules m (suc k) t | stops why ↦ [] ]

unfoldable pub traced : Edition → List ℕ → List ℕ → ℕ → List ℕ → Bool
traced e sheet rules slots want = equal (states e sheet rules (length sheet / record_bytes e) 0 (start (dirty slots))) want
"""

OPEN = "unfolding computing Cases.press_says Cases.replay_says Cases.equal Cases.junk Cases.dirty Cases.clean Cases.slot_numbers Cases.press_is Cases.replay_is"


def main():
    words = argparse.ArgumentParser()
    words.add_argument("--seed", default="1")
    words.add_argument("--count", type=int, default=300)
    words.add_argument("--edition", choices=EDITIONS)
    args = words.parse_args()
    build = ["cargo", "build", "--quiet", "--release", "--offline", "--manifest-path", str(ROOT / "reference/Cargo.toml")]
    subprocess.run(build, check=True)
    draw = [str(ROOT / "reference/target/release/reference"), "cases", "--seed", args.seed, "--count", str(args.count), "--small", "--trace"]
    draw += ["--edition", args.edition] if args.edition else []
    blocks = subprocess.run(draw, check=True, capture_output=True, text=True).stdout.strip().split("\n\n")
    cases = [case(block.split("\n")) for block in blocks]
    with tempfile.TemporaryDirectory() as place:
        scratch = pathlib.Path(place)
        shutil.copytree(ROOT / "crates", scratch / "crates")
        names = [line for line in (ROOT / "crates.txt").read_text().splitlines() if line.strip()]
        names.append("scratch: base clause sheet replay_spec press_spec demands")
        (scratch / "crates.txt").write_text("\n".join(names) + "\n")
        specs = scratch / "crates/scratch/specs"
        specs.mkdir(parents=True)
        (scratch / "crates/scratch/src").mkdir()
        (scratch / "crates/scratch/src/lib.rt").write_text("// statements only\n")
        batches = [cases[i : i + BATCH] for i in range(0, len(cases), BATCH)]
        mods = ["Trace"] + [f"Batch{i}" for i in range(len(batches))]
        (specs / "Lib.antt").write_text("".join(f"pub mod {m}\n" for m in mods))
        named = [args.edition] if args.edition else EDITIONS
        head = HEAD.replace("EDITIONS", ", ".join(edition.capitalize() for edition in named))
        (specs / "Trace.antt").write_text(head + TRACE)
        for i, batch in enumerate(batches):
            text = head + "use Rattle.scratch.specs.Trace.{pressed, replayed, state_numbers, states, traced}\n"
            for j, one in enumerate(batch):
                text += f"\ncase{j} : T ({one})\n{OPEN} pressed replayed state_numbers states traced\ncase{j} = tt\n"
            (specs / f"Batch{i}.antt").write_text(text)
        run = subprocess.run(["rt", "check"], cwd=specs.parent, capture_output=True, text=True)
        if run.returncode != 0:
            sys.stdout.write(run.stdout[-4000:] + run.stderr[-4000:])
            sys.exit(1)
    print(f"{len(cases)} random cases computed by the definitions, all as the second program says")


main()
