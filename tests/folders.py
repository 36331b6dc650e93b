"""Folders for the program, and what it prints and leaves there."""
import contextlib, os, pathlib, shutil, subprocess, traceback

from failures import Interrupts

PARTS = [f"pressed.bin.part{digit}" for digit in range(10)]
FOLDER = object()  # in the place of a file's bytes


def second_program():
    """Builds the second program, and says where it is."""
    package = pathlib.Path(__file__).resolve().parent.parent / "reference"
    subprocess.run(["cargo", "build", "--quiet", "--release", "--offline", "--manifest-path", str(package / "Cargo.toml")], check=True)
    return package / "target/release/reference"


class Link:
    """In the place of a file's bytes: a link that leads there."""

    def __init__(self, to):
        self.to = str(to)


class Tests:
    def __init__(self, words, reference, work):
        self.words, self.reference, self.work = words, str(reference), pathlib.Path(work)
        self.passed = self.failed = self.made = 0

    def check(self, name, *seen):
        """One case: each of what was seen is (what, what it was, what is right)."""
        wrong = [s for s in seen if s[1] != s[2]]
        for what, got, want in wrong:
            print(f"FAILED {name}: {what} is {got!r:.300} and not {want!r:.300}")
        self.failed += 1 if wrong else 0
        self.passed += 0 if wrong else 1

    @contextlib.contextmanager
    def folder(self, files, at=None):
        """A new folder with these files: bytes, a length (a file of so many zeros that takes no room), FOLDER or a Link."""
        self.made += 1
        place = (at or self.work) / f"case{self.made}"
        place.mkdir()
        try:
            for name, what in files.items():
                path = place / name
                if what is FOLDER:
                    path.mkdir()
                elif isinstance(what, Link):
                    path.symlink_to(what.to)
                elif isinstance(what, int):
                    with open(path, "wb") as f:
                        f.truncate(what)
                else:
                    path.write_bytes(what)
            yield place
        finally:
            place.chmod(0o700)
            shutil.rmtree(place)

    def run(self, place, before=None):
        """What the program prints, with what it should not do beside it: another status, words on standard error."""
        with before.serving(place) if isinstance(before, Interrupts) else contextlib.nullcontext():
            # restore_signals=False: a signal that `before` has ignored stays ignored
            done = subprocess.run(self.words, cwd=place, capture_output=True, preexec_fn=before, restore_signals=False, timeout=120)
        line = done.stdout.decode(errors="replace")
        if done.returncode or done.stderr:
            return f"{line} (status {done.returncode}, standard error {done.stderr!r:.200})"
        return line

    def answers(self, name, files, line, pressed=None, before=None, modes=(), folder_mode=0o700, at=None):
        """The line, the bytes of pressed.bin after it (None: as before, or still none), every other file as before, and no other name left."""
        try:
            with self.folder(files, at) as place:
                for file, mode in modes:
                    (place / file).chmod(mode)
                before_run = {name: state(place / name) for name in [*files, "pressed.bin"]}
                place.chmod(folder_mode)
                seen = [("the line", self.run(place, before), line + "\n")]
                place.chmod(0o700)
                if pressed is not None:
                    del before_run["pressed.bin"]
                    seen.append(("pressed.bin", bytes_of(place / "pressed.bin"), pressed))
                seen += [(name, state(place / name), old) for name, old in before_run.items()]
                names = set(files) | ({"pressed.bin"} if pressed is not None else set())
                seen.append(("the folder", sorted(os.listdir(place)), sorted(names)))
                self.check(name, *seen)
        except Exception:
            self.failed += 1
            print(f"FAILED {name}: {traceback.format_exc()}")

    def finish(self):
        print(f"{self.passed} passed, {self.failed} failed")
        return 1 if self.failed or not self.passed else 0


def bytes_of(path):
    if not path.is_file():
        return None
    path.chmod(0o600)
    return path.read_bytes()


def state(path):
    """What a call could change of a name: which file it is, when it was changed, where a link leads, the bytes."""
    if not os.path.lexists(path):
        return None
    s = path.lstat()
    bytes_ = path.read_bytes() if os.path.isfile(path) and os.access(path, os.R_OK) else None
    return s.st_ino, s.st_mode, s.st_size, s.st_mtime_ns, os.readlink(path) if path.is_symlink() else None, bytes_
