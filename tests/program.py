#!/usr/bin/env python3
"""program.py [--seed S] [--count N]: runs the built program (crates/tempuquile/out/tempuquile) in folders made for it.

Each case is a folder with files; what the program prints, the bytes of pressed.bin and every name left in the folder are checked. N random
cases of the second program are compared with it. Nothing here runs as root: where root starts it, a child becomes nobody first.
The last line is 'N passed, M failed'; the exit status is 1 where something failed, 2 where nothing could be run."""
import argparse, os, pathlib, shutil, subprocess, sys, tempfile

sys.dont_write_bytecode = True
sys.path.insert(0, str(pathlib.Path(__file__).resolve().parent))
import cases, folders

ROOT = pathlib.Path(__file__).resolve().parent.parent
NOBODY = 65534


def fail(text):
    print(f"program.py: {text}", file=sys.stderr)
    sys.exit(2)


def become_nobody():
    os.setgroups([])
    os.setgid(NOBODY)
    os.setuid(NOBODY)


def small_disk(room):
    """A file system of three pages, where root starts the tests and may mount one."""
    place = room / "small"
    place.mkdir()
    if os.getuid() != 0:
        return None
    words = ["mount", "-t", "tmpfs", "-o", f"size={3 * os.sysconf('SC_PAGE_SIZE')},mode=777", "tempuquile", str(place)]
    return place if subprocess.run(words, capture_output=True).returncode == 0 else None


def run_cases(room, disk, seed, count):
    tests = folders.Tests([str(room / "tempuquile")], room / "reference", room / "work")
    cases.run_all(tests, disk)
    cases.compare(tests, seed, count)
    return tests.finish()


def main():
    words = argparse.ArgumentParser()
    words.add_argument("--seed", type=int, default=1)
    words.add_argument("--count", type=int, default=300)
    args = words.parse_args()
    program = ROOT / "crates/tempuquile/out/tempuquile"
    if not program.exists():
        fail("the program is not built: rt run in crates/tempuquile, or ./press")
    room = pathlib.Path(tempfile.mkdtemp(prefix="tempuquile-"))
    disk = None
    try:
        room.chmod(0o755)
        shutil.copy(program, room / "tempuquile")
        shutil.copy(cases.REFERENCE, room / "reference")
        (room / "work").mkdir()
        disk = small_disk(room)
        root = os.getuid() == 0
        if root:
            os.chown(room / "work", NOBODY, NOBODY)
        sys.stdout.flush()
        child = os.fork()
        if child == 0:
            status = 2
            try:
                if root:
                    become_nobody()
                status = run_cases(room, disk, args.seed, args.count)
                sys.stdout.flush()
            finally:
                os._exit(status)
        sys.exit(os.waitstatus_to_exitcode(os.waitpid(child, 0)[1]))
    finally:
        if disk:
            subprocess.run(["umount", str(disk)])
        shutil.rmtree(room, ignore_errors=True)


if __name__ == "__main__":
    main()
