"""The cases of program.py."""
import errno, os, struct, subprocess, threading, time

from failures import Interrupts, can_fail, can_interrupt, failing, file_limit, no_output, stack_limit
from folders import FOLDER, PARTS, Link, second_program

REFERENCE = second_program()
OLD = b"old" * 167  # 501 bytes, longer than what is written over it here
MOST = 1024  # records of a sheet
STACK = 384 * 1024  # bytes that the program runs in, as docs/MEMORY.md states


# ---- sheets and rule tables


def sets(words):
    """The two sets of a clause in words, as '+0 -3'."""
    positive = sum(1 << int(w[1:]) for w in words.split() if w[0] == "+")
    negative = sum(1 << int(w[1:]) for w in words.split() if w[0] == "-")
    return struct.pack("<QQ", positive, negative)


def given(line, words, kind=1, zeros=(0, 0, 0)):
    return struct.pack("<BBHHH", kind, *zeros, line) + sets(words)


def step(pivot, left, right, words, zero=0):
    return struct.pack("<BBHHH", 2, pivot, left, right, zero) + sets(words)


def drop(node):
    return struct.pack("<BBH", 3, 0, node) + bytes(20)


def table(*lines):
    return b"".join(sets(line) for line in lines)


def worked():
    """The worked sheets of the second program: by name the rule table, the sheet, and what the press writes."""
    lines = subprocess.run([REFERENCE, "sheets"], check=True, capture_output=True, text=True).stdout.splitlines()
    return {name: tuple(bytes.fromhex(word) for word in words) for name, *words in (line.split() for line in lines)}


WORKED = worked()
RULES, PAIR, PAIR_OUT = WORKED["pair"]
GIVENS = PAIR[:48]
PAIR_OK = "ok records 5 nodes 3 steps 1 peak 3 core 2"
# 1,021 records that are placed 913 deep
DEEP_RULES, DEEP, DEEP_OUT = WORKED["deep"]
DEEP_OK = "ok records 2041 nodes 1021 steps 936 peak 40 core 85"


def files(sheet=PAIR, rules=RULES, **more):
    return {"rules.bin": rules, "sheet.bin": sheet, **({"pressed.bin": more["pressed"]} if "pressed" in more else {})}


# ---- what is pressed


def accepted(t):
    lines = {
        "lone": "ok records 1 nodes 1 steps 0 peak 1 core 1",
        "irregular": "ok records 9 nodes 5 steps 2 peak 3 core 3",
        "deep": DEEP_OK,
    }
    for name, (rules, sheet, out) in WORKED.items():
        t.answers(name, files(sheet, rules), lines.get(name, PAIR_OK), out)
    last_line = files(given(1023, "+5"), bytes(1023 * 16) + sets("+5"))
    t.answers("the last of 1,024 lines", last_line, "ok records 1 nodes 1 steps 0 peak 1 core 1", given(1023, "+5"))
    t.answers("an older, longer pressed.bin keeps no tail", files(pressed=OLD), PAIR_OK, PAIR_OUT)
    t.answers("an older, shorter pressed.bin", files(pressed=b"o"), PAIR_OK, PAIR_OUT)
    t.answers("a pressed.bin that can be written and not read", files(pressed=OLD), PAIR_OK, PAIR_OUT, modes=[("pressed.bin", 0o200)])
    t.answers("a pressed.bin that leads nowhere", files(pressed=Link("nowhere/at/all")), PAIR_OK, PAIR_OUT)
    t.answers("rules.bin and sheet.bin can only be read", files(), PAIR_OK, PAIR_OUT, modes=[("rules.bin", 0o400), ("sheet.bin", 0o400)])
    linked(t)
    named_like_a_part(t)
    in_place(t)
    in_pieces(t)
    interrupted(t)
    with t.folder(files()) as place:
        subprocess.run(t.words, cwd=place, preexec_fn=no_output, stderr=subprocess.DEVNULL)
        t.check("standard output closed", ("pressed.bin", (place / "pressed.bin").read_bytes(), PAIR_OUT))


def linked(t):
    """A link in the place of pressed.bin is replaced, and what it leads to stays as it is."""
    with t.folder({**files(), "other": OLD, "pressed.bin": Link("other")}) as place:
        t.check(
            "pressed.bin is a link",
            ("the line", t.run(place), PAIR_OK + "\n"),
            ("pressed.bin", (place / "pressed.bin").read_bytes(), PAIR_OUT),
            ("what it led to", (place / "other").read_bytes(), OLD),
            ("the folder", sorted(os.listdir(place)), ["other", "pressed.bin", "rules.bin", "sheet.bin"]),
        )


def named_like_a_part(t):
    """A file of the user's that has a name of the part's stays as it is."""
    for what, made in [("a file", OLD), ("a folder", FOLDER), ("a link", Link("sheet.bin")), ("a link to nowhere", Link("nowhere/at/all"))]:
        t.answers(f"{what} named like the part", {**files(), PARTS[0]: made}, PAIR_OK, PAIR_OUT)
        t.answers(f"{what} named like the part, over a pressed.bin", {**files(pressed=OLD), PARTS[0]: made}, PAIR_OK, PAIR_OUT)
    for count in [9, 10]:
        taken = {name: OLD for name in PARTS[:count]}
        t.answers(f"{count} of the part's names taken", {**files(), **taken}, PAIR_OK, PAIR_OUT)
        t.answers(f"{count} of the part's names taken, over a pressed.bin", {**files(pressed=OLD), **taken}, PAIR_OK, PAIR_OUT)


def in_place(t):
    """No file can be made beside pressed.bin, or filled, or none may take its name, and it can be written: nothing of the old bytes is left. Where
    it cannot be written whole, the old bytes come back."""
    closed = {"folder_mode": 0o555}
    t.answers("a folder that cannot be written, a pressed.bin that can", files(pressed=OLD), PAIR_OK, PAIR_OUT, **closed)
    t.answers("the same, and it cannot be read", files(pressed=OLD), PAIR_OK, PAIR_OUT, modes=[("pressed.bin", 0o200)], **closed)
    t.answers("the same, of no bytes", files(pressed=b""), PAIR_OK, PAIR_OUT, **closed)
    with t.folder({**files(), "other": OLD, "pressed.bin": Link("other")}) as place:
        place.chmod(0o555)
        t.check("in place, through a link", ("the line", t.run(place), PAIR_OK + "\n"), ("other", (place / "other").read_bytes(), PAIR_OUT))
    t.answers("the same, of 100 MB", files(pressed=100 * 1024 * 1024), PAIR_OK, PAIR_OUT, **closed)
    if can_fail():
        t.answers("rename fails", files(), PAIR_OK, PAIR_OUT, before=failing("rename", errno.EPERM))
        t.answers("rename fails, over a pressed.bin", files(pressed=OLD), PAIR_OK, PAIR_OUT, before=failing("rename", errno.EPERM))


def interrupted(t):
    """A call that a signal interrupts is made again; a close is not, and does no harm."""
    if not can_interrupt():
        print("not run: calls that are interrupted (the system takes no filter that asks)")
        return
    read, written = ["rules.bin", "sheet.bin"], ["pressed.bin", PARTS[0]]
    of = {"open": [*read, *written], "read": read, "write": [PARTS[0], "standard output"], "fsync": written, "close": [*read, *written]}
    for call, names in of.items():
        calls = Interrupts(call)
        t.answers(f"{call} is interrupted", files(pressed=OLD), PAIR_OK, PAIR_OUT, before=calls)
        t.check(f"{call} was interrupted", ("of", sorted(calls.seen), sorted(names)))
        calls = Interrupts(call)
        t.answers(f"{call} is interrupted, in place", files(pressed=OLD), PAIR_OK, PAIR_OUT, before=calls, folder_mode=0o555)
    t.answers("a long file, read with interruptions", files(24 * 6000), "refused 3", before=Interrupts("read"))


def in_pieces(t):
    """Named pipes, fed a few bytes at a time: a read brings less than it asks for, and the file is not at its end."""

    def feed(path, data, size):
        with open(path, "wb", buffering=0) as pipe:
            for at in range(0, len(data), size):
                pipe.write(data[at : at + size])
                time.sleep(0.002)

    long = given(0, "+0") * (MOST + 90)
    for name, sheet, line in [("pair", PAIR, PAIR_OK), ("a long sheet", long, "refused 3"), ("a long sheet less a byte", long[:-1], "refused 1")]:
        with t.folder({}) as place:
            feeders = []
            for file, data, size in [("rules.bin", RULES, 5), ("sheet.bin", sheet, max(7, len(sheet) // 40))]:
                os.mkfifo(place / file)
                feeders.append(threading.Thread(target=feed, args=(place / file, data, size), daemon=True))
            for feeder in feeders:
                feeder.start()
            t.check(f"{name}, in pieces", ("the line", t.run(place), line + "\n"))
            for feeder in feeders:
                feeder.join(5)


# ---- what is refused: 1 to 9 and 11 to 14, but 5, which needs buffers that the program does not have


def refused(t):
    def case(name, line, sheet=PAIR, rules=RULES):
        t.answers(name, files(sheet, rules), line)
        t.answers(f"{name}, over a pressed.bin", files(sheet, rules, pressed=OLD), line)

    case("a byte too many", "refused 1", PAIR + b"\0")
    case("a byte", "refused 1", b"\1")
    case("ragged, and the table too", "refused 1", PAIR[:-1], RULES[:-1])
    case("an empty sheet", "refused 2", b"")
    case("an empty sheet and a ragged table", "refused 2", b"", RULES[:-1])
    case("a record too many", "refused 3", given(0, "+0") * (MOST + 1))
    case("a record too many and a ragged table", "refused 3", given(0, "+0") * (MOST + 1), RULES[:-1])
    case("a ragged table", "refused 4", rules=RULES[:-1])
    case("1,025 lines", "refused 4", rules=RULES + bytes(1023 * 16))
    case("the most records and 1,025 lines", "refused 4", given(0, "+0") * MOST, RULES + bytes(1023 * 16))
    case("kind 0", "refused 6 at 2", GIVENS + bytes(24))
    case("kind 4", "refused 6 at 1", given(0, "+0") + given(0, "+0", kind=4))
    case("a drop", "refused 6 at 0", drop(0) + PAIR)
    case("a malformed drop", "refused 6 at 3", PAIR + drop(0)[:-1] + b"\1")
    for at in range(1, 6):
        case(f"byte {at} of a given record", "refused 7 at 0", PAIR[:at] + b"\1" + PAIR[at + 1 :])
    case("byte 6 of a step", "refused 7 at 2", GIVENS + step(0, 0, 1, "", zero=1))
    case("byte 7 of a step", "refused 7 at 2", GIVENS + step(64, 9, 9, "", zero=256))
    case("pivot 64", "refused 8 at 2", GIVENS + step(64, 0, 1, ""))
    case("pivot 255", "refused 8 at 2", GIVENS + step(255, 9, 1, ""))
    case("forward", "refused 9 at 2", GIVENS + step(0, 2, 1, ""))
    case("forward on the right", "refused 9 at 2", GIVENS + step(1, 0, 65535, ""))
    case("the first record names itself", "refused 9 at 0", step(0, 0, 0, "") + PAIR)
    case("+p missing on the left", "refused 11 at 2", GIVENS + step(0, 1, 1, ""))
    case("-p missing on the right", "refused 11 at 2", GIVENS + step(0, 0, 0, "+7"))
    case("a literal too many", "refused 18 at 2", GIVENS + step(0, 0, 1, "+0"))
    rules, sheet, _ = WORKED["irregular"]
    for words, number in [("+1", 12), ("+1 +2 -7", 18), ("+1 -7", 12)]:
        case(f"{words} for +1 +2", f"refused {number} at 2", sheet[:48] + step(0, 0, 1, words), rules)
    case("a line beyond the table", "refused 13 at 1", given(0, "+0") + given(2, "-0"))
    case("an empty table", "refused 13 at 0", rules=b"")
    case("another clause than the line's", "refused 14 at 1", given(0, "+0") + given(1, "+0"))
    twice = given(0, "+0 -0") + step(0, 0, 0, "+0 -0")
    case("twice", "refused 17 at 0", twice, table("+0 -0"))
    case("a given clause with variable 63 both ways", "refused 17 at 1", given(0, "+0") + given(1, "+63 -63"), table("+0", "+63 -63"))
    case("the same, and it differs from its line", "refused 14 at 0", twice, table("+0"))
    t.answers("a line with a variable both ways that no record names", files(rules=RULES + sets("+5 -5")), PAIR_OK, PAIR_OUT)
    case("the first bad record answers", "refused 14 at 0", given(1, "+0") + bytes(24))
    case("pair's own output", "refused 6 at 3", PAIR_OUT)


# ---- lengths


def lengths(t):
    ok = "ok records 1 nodes 1 steps 0 peak 1 core 1"
    t.answers("the most records", files(given(0, "+0") * MOST), ok, given(0, "+0"))
    t.answers("deep, over a longer file", files(DEEP, DEEP_RULES, pressed=bytes(60000)), DEEP_OK, DEEP_OUT)
    t.answers("1,024 lines", files(PAIR, RULES + bytes(1022 * 16)), PAIR_OK, PAIR_OUT)
    most = 100 * 1024 * 1024
    t.answers("100 MB, not a multiple of 24", files(most), "refused 1")
    t.answers("100 MB, a multiple of 24", files(most - most % 24), "refused 3")
    t.answers("100 MB of sheet and of rules", files(most - most % 24, most), "refused 3")
    t.answers("100 MB of rules, a multiple of 16", files(PAIR, most), "refused 4")
    t.answers("100 MB of rules and a byte", files(PAIR, most + 1), "refused 4")
    t.answers("100 MB of rules, no sheet", files(b"", most), "refused 2")
    # what is read past the buffers is read in pieces of 65,536 bytes
    piece = 65536 // 24
    for records in [MOST + past for past in [1, 2, MOST - 1, MOST, piece, piece + 1, piece + 2]]:
        t.answers(f"{records} records", files(24 * records), "refused 3")
        t.answers(f"{records} records and a byte", files(24 * records + 1), "refused 1")
    for lines in [1025, 1026, 5119, 5120, 5121]:
        t.answers(f"{lines} lines", files(rules=16 * lines), "refused 4")
        t.answers(f"{lines} lines less a byte", files(rules=16 * lines - 1), "refused 4")
    in_little_stack(t)


def in_little_stack(t):
    """The deepest sheet with the longest table, in the stack that docs/MEMORY.md states."""
    rules = DEEP_RULES.ljust(1024 * 16, b"\0")
    t.answers("deep, in little stack", files(DEEP, rules), DEEP_OK, DEEP_OUT, before=stack_limit(STACK))
    old = files(DEEP, rules, pressed=OLD)
    t.answers("the same, in place", old, DEEP_OK, DEEP_OUT, before=stack_limit(STACK), folder_mode=0o555)


# ---- what cannot be read


def unreadable(t):
    def case(name, line, what, **more):
        t.answers(name, what, line, **more)
        t.answers(f"{name}, over a pressed.bin", {**what, "pressed.bin": OLD}, line, **more)

    no_rules, no_sheet = "unreadable rules.bin", "unreadable sheet.bin"
    case("no files", no_rules, {})
    case("no rules.bin", no_rules, {"sheet.bin": PAIR})
    case("no rules.bin and a sheet that would be refused", no_rules, {"sheet.bin": b"\1"})
    case("no sheet.bin", no_sheet, {"rules.bin": RULES})
    case("no sheet.bin and a table that would be refused", no_sheet, {"rules.bin": b"\1"})
    case("no sheet.bin and a table of 100 MB", no_sheet, {"rules.bin": 100 * 1024 * 1024})
    case("a folder for rules.bin", no_rules, {"rules.bin": FOLDER, "sheet.bin": PAIR})
    case("a folder for sheet.bin", no_sheet, {"rules.bin": RULES, "sheet.bin": FOLDER})
    case("folders for both", no_rules, {"rules.bin": FOLDER, "sheet.bin": FOLDER})
    case("rules.bin leads nowhere", no_rules, {"rules.bin": Link("nowhere"), "sheet.bin": PAIR})
    case("sheet.bin leads to itself", no_sheet, {"rules.bin": RULES, "sheet.bin": Link("sheet.bin")})
    case("rules.bin without permission", no_rules, files(), modes=[("rules.bin", 0)])
    case("sheet.bin without permission", no_sheet, files(), modes=[("sheet.bin", 0o200)])
    case("both without permission", no_rules, files(), modes=[("rules.bin", 0), ("sheet.bin", 0)])
    if not can_fail():
        print("not run: reads that fail half way (the system takes no filter of calls)")
        return
    # a read asks for what is left of the buffer, so the second read of a short file is known by its size
    case("rules.bin fails half way", no_rules, files(), before=failing("read", errno.EIO, 16384 - len(RULES)))
    case("sheet.bin fails half way", no_sheet, files(), before=failing("read", errno.EIO, 24 * MOST - len(PAIR)))
    case("a long sheet.bin fails half way", no_sheet, files(24 * (MOST + 90)), before=failing("read", errno.EIO, 65536))
    case("a long rules.bin fails half way", no_rules, files(rules=16 * 2000), before=failing("read", errno.EIO, 65536))
    case("both fail half way", no_rules, files(24 * (MOST + 90), 16 * 2000), before=failing("read", errno.EIO, 65536))


# ---- what cannot be written


def unwritable(t, disk):
    line = "unwritable pressed.bin"

    def case(name, what, **more):
        t.answers(name, what, line, **more)

    def both(name, **more):
        case(name, files(), **more)
        case(f"{name}, over a pressed.bin", files(pressed=OLD), **more)

    case("a pressed.bin that can only be read", files(pressed=OLD), modes=[("pressed.bin", 0o444)])
    case("a pressed.bin without permission", files(pressed=OLD), modes=[("pressed.bin", 0)])
    case("a folder for pressed.bin", files(pressed=FOLDER))
    case("a device for pressed.bin", files(pressed=Link("/dev/full")))
    case("a pressed.bin that leads to itself", files(pressed=Link("pressed.bin")))
    case("a folder that cannot be written, and no pressed.bin", files(), folder_mode=0o555)
    case("the same, and a pressed.bin that can only be read", files(pressed=OLD), folder_mode=0o555, modes=[("pressed.bin", 0o444)])
    # The disk is full at some byte: the first, some in the middle, the last. The old bytes are put back, so that the file is another in its times.
    for most in [0, 1, 48, 119]:
        case(f"no room after {most} bytes", files(), before=file_limit(most))
        for old in [b"", b"old", OLD[:119], OLD]:
            for mode in [0o700, 0o555]:
                t.answers(f"no room after {most} of {len(old)} bytes", files(pressed=old), line, old, before=file_limit(most), folder_mode=mode)
    t.answers("room for all bytes", files(pressed=OLD), PAIR_OK, PAIR_OUT, before=file_limit(len(PAIR_OUT)))
    deep = files(DEEP, DEEP_RULES, pressed=OLD)
    t.answers("no room for the last of 2,041 records", deep, line, OLD, before=file_limit(len(DEEP_OUT) - 1))
    if disk:
        # a page each for rules.bin, sheet.bin and pressed.bin, and none for the part
        t.answers("a full disk, over a pressed.bin", files(pressed=OLD), PAIR_OK, PAIR_OUT, at=disk)
        case("a full disk, and no pressed.bin", {**files(), "other": OLD}, at=disk)
        t.answers("a disk with a page left", files(), PAIR_OK, PAIR_OUT, at=disk)
    else:
        print("not run: a full disk of its own (only root may mount one); a limit on the size of files stands in for it")
    if not can_fail():
        print("not run: calls that fail (the system takes no filter of calls)")
        return
    fails = failing("write", errno.ENOSPC, len(PAIR_OUT))
    case("a write fails", files(), before=fails)
    t.answers("a write fails, over a pressed.bin", files(pressed=OLD), line, OLD, before=fails)
    both("fsync fails", before=failing("fsync", errno.EIO))


def run_all(t, disk):
    for group in [accepted, refused, lengths, unreadable]:
        group(t)
    unwritable(t, disk)


# ---- the second program


def draw(t, seed, count):
    """The sheets and rule tables of random cases, those for the replay too: most of their drops are refused by 6."""
    words = [t.reference, "cases", "--seed", str(seed), "--count", str(count), "--edition", "narrow"]
    blocks = subprocess.run(words, check=True, capture_output=True, text=True).stdout.strip().split("\n\n")
    return [inputs(block.split("\n")[0].split()) for block in blocks]


def inputs(words):
    """The sheet and the rule table of a case's first line, which come after the edition, and of a press after the recycling and the lowering."""
    start = 4 if words[0] == "press" else 2
    return [bytes.fromhex(w) if w != "-" else b"" for w in words[start : start + 2]]


def compare(t, seed, count):
    ok = 0
    for number, (sheet, rules) in enumerate(draw(t, seed, count)):
        with t.folder({"rules.bin": rules, "sheet.bin": sheet, "pressed.bin": OLD}) as theirs:
            line = subprocess.run([t.reference, "press", str(theirs)], check=True, capture_output=True, text=True).stdout.rstrip("\n")
            pressed = (theirs / "pressed.bin").read_bytes()
        ok += line.startswith("ok")
        t.answers(f"seed {seed}, case {number}", files(sheet, rules, pressed=OLD), line, pressed if line.startswith("ok") else None)
    print(f"{count} cases of the second program at seed {seed}: {ok} accepted, {count - ok} refused")
