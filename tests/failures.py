"""For a child, before it runs: calls of the system that fail, calls that are interrupted, and limits."""
import contextlib, ctypes, errno, fcntl, os, resource, select, signal, socket, struct, subprocess, threading

# the numbers of the system's calls on the machine that the program is built for
CALLS = {
    "x86_64": {"open": [2, 257], "read": [0], "write": [1], "close": [3], "fsync": [74], "rename": [82, 264, 316], "seccomp": [317]},
}

# what a filter of calls answers
FAIL, ASK, ALLOW = 0x00050000, 0x7FC00000, 0x7FFF0000  # SECCOMP_RET_ERRNO, _USER_NOTIF, _ALLOW

LIBRARY = ctypes.CDLL(None, use_errno=True)
LIBRARY.prctl.argtypes = [ctypes.c_int] + [ctypes.c_ulong] * 4
LIBRARY.syscall.argtypes = [ctypes.c_long] * 4


def numbers(call):
    return CALLS[os.uname().machine][call]


class Filter:
    """A filter of calls: this answer to this call, where its third argument is `count` if that is said."""

    def __init__(self, call, answer, count=None):
        load, equal, leave = 0x20, 0x15, 0x06  # BPF_LD|W|ABS, BPF_JMP|JEQ|K, BPF_RET|K

        def instruction(code, yes, no, k):
            return struct.pack("=HBBI", code, yes, no, k)

        lines = []
        for number in numbers(call):
            test = [] if count is None else [instruction(load, 0, 0, 32), instruction(equal, 0, 1, count)]
            lines += [instruction(load, 0, 0, 0), instruction(equal, 0, len(test) + 1, number)] + test
            lines += [instruction(leave, 0, 0, answer)]
        lines += [instruction(leave, 0, 0, ALLOW)]
        self.code = ctypes.create_string_buffer(b"".join(lines))
        self.program = ctypes.create_string_buffer(struct.pack("@HP", len(lines), ctypes.addressof(self.code)))

    def install(self, flags=0):
        """From now on, and in what this process becomes. With the flag 8 the answer is a descriptor that is asked."""
        done = LIBRARY.prctl(38, 1, 0, 0, 0)  # PR_SET_NO_NEW_PRIVS
        done = done or LIBRARY.syscall(numbers("seccomp")[0], 1, flags, ctypes.addressof(self.program))
        if done < 0:
            raise OSError(ctypes.get_errno(), "no filter")
        return done


def failing(call, error, count=None):
    """The system answers `error` to this call, where its third argument is `count` if that is said."""
    filter_ = Filter(call, FAIL | error, count)
    return lambda: filter_.install() and None


class Interrupts:
    """The first two calls of a kind on each file of the folder, and on standard output, are interrupted: the system asks this process about
    each such call, which answers EINTR or lets it go on."""

    def __init__(self, call):
        self.call, self.filter = call, Filter(call, ASK)
        self.seen = {}

    def __call__(self):
        listener = self.filter.install(8)  # SECCOMP_FILTER_FLAG_NEW_LISTENER
        socket.send_fds(self.ours[1], [b"."], [listener])

    @contextlib.contextmanager
    def serving(self, place):
        self.ours, self.place, self.ended = socket.socketpair(), str(place), False
        server = threading.Thread(target=self.serve, daemon=True)
        server.start()
        try:
            yield
        finally:
            self.ended = True
            server.join(5)
            for end in self.ours:
                end.close()

    def serve(self):
        self.ours[0].settimeout(5)
        with contextlib.suppress(OSError):
            self.ask(socket.recv_fds(self.ours[0], 1, 1)[1][0])

    def ask(self, listener):
        asked = select.poll()
        asked.register(listener, select.POLLIN)
        while not self.ended:
            for _, what in asked.poll(20):
                if what & select.POLLIN:
                    self.answer(listener)
        os.close(listener)

    def answer(self, listener):
        question = bytearray(80)  # struct seccomp_notif: id, pid, flags, then number, machine, address and six arguments of the call
        with contextlib.suppress(OSError):  # the child has ended meanwhile
            fcntl.ioctl(listener, 0xC0502100, question)  # SECCOMP_IOCTL_NOTIF_RECV
            id_, pid, _, number, _, _, *arguments = struct.unpack("=QIIiIQ6Q", question)
            name = self.name(pid, number, arguments)
            if name:
                self.seen[name] = self.seen.get(name, 0) + 1
            interrupted = name is not None and self.seen[name] <= 2
            response = struct.pack("=QqiI", id_, 0, *((-errno.EINTR, 0) if interrupted else (0, 1)))  # SECCOMP_USER_NOTIF_FLAG_CONTINUE
            fcntl.ioctl(listener, 0xC0182101, response)  # SECCOMP_IOCTL_NOTIF_SEND

    def name(self, pid, number, arguments):
        """The file of the folder that the call is of, or none."""
        if self.call == "open":
            is_old = number == 2 and os.uname().machine == "x86_64"  # open, and not openat
            with open(f"/proc/{pid}/mem", "rb", buffering=0) as memory:
                memory.seek(arguments[0 if is_old else 1])
                name = memory.read(64).split(b"\0")[0].decode(errors="replace")
            return name if "/" not in name else None
        try:
            to = os.readlink(f"/proc/{pid}/fd/{arguments[0]}")
        except OSError:  # a descriptor that is not open
            return None
        if to.startswith("pipe:") and arguments[0] == 1 and self.call == "write":
            return "standard output"
        return os.path.basename(to) if os.path.dirname(to) == self.place else None


def is_taken(before):
    try:
        subprocess.run(["true"], preexec_fn=before, check=True)
        return True
    except (OSError, subprocess.SubprocessError):
        return False


def can_fail():
    """Whether the system takes a filter that fails calls."""
    return os.uname().machine in CALLS and is_taken(failing("fsync", errno.EIO))


def can_interrupt():
    """Whether it takes one that asks."""
    if not can_fail():
        return False
    calls = Interrupts("fsync")
    with calls.serving("/"):
        return is_taken(calls)


def file_limit(most):
    """No file that the child writes grows past so many bytes, as on a full disk."""

    def before():
        signal.signal(signal.SIGXFSZ, signal.SIG_IGN)
        resource.setrlimit(resource.RLIMIT_FSIZE, (most, most))

    return before


def stack_limit(most):
    """The child's stack has no more than so many bytes."""
    return lambda: resource.setrlimit(resource.RLIMIT_STACK, (most, most))


def no_output():
    """Standard output is closed."""
    os.close(1)
