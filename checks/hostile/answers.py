"""Programs that are run on files of a folder of its own: what they answer, what is there then, and what they took."""
import os
import resource
import shutil
import signal
import struct
import subprocess
import tempfile
from collections import namedtuple

Answer = namedtuple("Answer", "status output error files")
Taken = namedtuple("Taken", "seconds mebibytes")
MOST_SECONDS, MOST_MEBIBYTES = 10, 2048
# Addresses that a program may ask for; by the clock a case may take several times what the processor does.
MOST_ADDRESSES = 16 << 30
MOST_CLOCK = 120
# Large lists of zeros come from the system in each case, as in a fresh process. Else glibc, once it had freed such a
# list, would write the zeros of the next.
ZEROS = {"MALLOC_MMAP_THRESHOLD_": str(1 << 17)}
# The time of change of the files that a folder is given, in nanoseconds: what is written later has another.
MARK = 1_000_000_000


class TooLong(Exception):
    pass


def _ring(*_):
    raise TooLong


def limited(pid):
    """Limits the addresses and the processor time of a process."""
    try:
        resource.prlimit(pid, resource.RLIMIT_AS, (MOST_ADDRESSES, MOST_ADDRESSES))
        resource.prlimit(pid, resource.RLIMIT_CPU, (4 * MOST_SECONDS, 4 * MOST_SECONDS))
    except ProcessLookupError:
        pass


def waited(pid):
    """The status of a process that was started, and what it took. One that takes too long by the clock is killed."""
    signal.alarm(MOST_CLOCK)
    try:
        _, status, used = os.wait4(pid, 0)
    except TooLong:
        os.kill(pid, signal.SIGKILL)
        _, status, used = os.wait4(pid, 0)
    signal.alarm(0)
    return os.waitstatus_to_exitcode(status), Taken(used.ru_utime + used.ru_stime, used.ru_maxrss / 1024)


def content(file, size=1 << 16):
    """All bytes of an open file."""
    found, at = [], 0
    while piece := os.pread(file, size, at):
        found.append(piece)
        at += len(piece)
        if len(piece) < size:
            break
    return b"".join(found)


class Files:
    """The files of a folder, of which only those are written and read that differ from what is known to be there."""

    def __init__(self, folder):
        self.folder, self.known, self.changed = folder, {}, set()

    def give(self, files):
        """Makes these the folder's only files."""
        for name in (self.known.keys() | self.changed) - files.keys():
            os.unlink(os.path.join(self.folder, name))
            self.known.pop(name, None)
        for name, bytes_ in files.items():
            if self.known.get(name) != bytes_:
                file = os.open(os.path.join(self.folder, name), os.O_WRONLY | os.O_CREAT | os.O_TRUNC, 0o600)
                os.write(file, bytes_)
                os.utime(file, ns=(MARK, MARK))
                os.close(file)
            self.known[name] = bytes_
        self.changed = set()

    def found(self):
        """The files that are there, by their names. One that was not written since it was given is not read."""
        there = {}
        for entry in os.scandir(self.folder):
            if entry.name in self.known and entry.stat().st_mtime_ns == MARK:
                there[entry.name] = self.known[entry.name]
            else:
                with open(entry.path, "rb") as file:
                    there[entry.name] = file.read()
                self.changed.add(entry.name)
                self.known.pop(entry.name, None)
        for name in self.known.keys() - there.keys():
            del self.known[name]
        return there


class Runner:
    """Runs programs in a folder of its own, which is this process's from then on."""

    def __init__(self):
        place = "/dev/shm" if os.access("/dev/shm", os.W_OK) else None
        self.folder = tempfile.mkdtemp(prefix="hpc-hostile-", dir=place)
        inside = os.path.join(self.folder, "files")
        os.mkdir(inside)
        os.chdir(inside)
        self.files, self.server = Files(inside), None
        self.streams = [os.open(os.path.join(self.folder, name), os.O_RDWR | os.O_CREAT | os.O_APPEND, 0o600)
                        for name in ("out", "err")]
        self.nothing, self.environment = os.open(os.devnull, os.O_RDONLY), dict(os.environb)
        signal.signal(signal.SIGALRM, _ring)

    def close(self):
        if self.server:
            self.ended()
        for file in (*self.streams, self.nothing):
            os.close(file)
        os.chdir("/")
        shutil.rmtree(self.folder, ignore_errors=True)

    def run(self, program, words, files):
        """What the program answers to words in a folder with these files, and what it took."""
        self.files.give(files)
        for file in self.streams:
            os.truncate(file, 0)
        places = [(os.POSIX_SPAWN_DUP2, file, place) for place, file in enumerate((self.nothing, *self.streams))]
        pid = os.posix_spawn(program, [program, *words], self.environment, file_actions=places,
                             setsigdef=(signal.SIGPIPE,))
        limited(pid)
        status, taken = waited(pid)
        return Answer(status, *map(content, self.streams), self.files.found()), taken

    # ---- a server that answers as a program would

    def ask(self, server, words, files):
        """What a server answers to words in a folder with these files: see bench/baseline/serve.rs. One that ends is
        started anew for the next words."""
        self.files.give(files)
        if self.server is None:
            self.server = subprocess.Popen([server], stdin=subprocess.PIPE, stdout=subprocess.PIPE,
                                           env={**os.environ, **ZEROS})
            resource.prlimit(self.server.pid, resource.RLIMIT_AS, (MOST_ADDRESSES, MOST_ADDRESSES))
        signal.alarm(MOST_CLOCK)
        try:
            told = [word.encode(errors="surrogateescape") for word in words]
            self.server.stdin.write(b"".join(struct.pack("<I", len(word)) + word for word in told) + b"\xff" * 4)
            self.server.stdin.flush()
            status, *texts = self.replied()
        except (TooLong, EOFError, BrokenPipeError):
            status, texts = self.ended(), (b"", b"")
        signal.alarm(0)
        return Answer(status, *texts, self.files.found())

    def replied(self):
        """The status of a reply, its output and its line."""
        status, *sizes = struct.unpack("<III", self.received(12))
        return status, *map(self.received, sizes)

    def received(self, size):
        found = self.server.stdout.read(size)
        if len(found) < size:
            raise EOFError
        return found

    def ended(self):
        """Ends the server, and says its status."""
        server, self.server = self.server, None
        server.stdin.close()
        try:
            server.wait(timeout=2)
        except subprocess.TimeoutExpired:
            server.kill()
            server.wait()
        server.stdout.close()
        return server.returncode
