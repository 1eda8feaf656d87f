"""Runs of the program, many a second, and what each wrote."""

import os
import shutil
import signal
import struct
import subprocess
import tempfile
from pathlib import Path

SECONDS = 60
# The streams by which tests/forks.c is asked for runs, and answers.
ASKED, ANSWERED = 198, 199


class Runner:
    """Runs the program over and over, its standard input empty; a run that lasts longer than a minute is ended by SIGALRM. Where there is
    gcc the program is loaded once, and each run is a fork of it from before its `main`."""

    def __init__(self, program):
        self.program = program
        self.streams = [tempfile.TemporaryFile() for _ in range(2)]
        self.files = [(os.POSIX_SPAWN_OPEN, 0, "/dev/null", os.O_RDONLY, 0)]
        self.files += [(os.POSIX_SPAWN_DUP2, stream.fileno(), number) for number, stream in enumerate(self.streams, 1)]
        self.child = self.asked = self.answers = None
        signal.signal(signal.SIGALRM, lambda *_: os.kill(self.child, signal.SIGALRM))
        if shutil.which("gcc"):
            self.load()

    def start(self, words, environment, more=()):
        files = self.files + list(more)
        self.child = os.posix_spawn(self.program, words, environment, file_actions=files, setsigdef=[signal.SIGPIPE])

    def load(self):
        """Starts the program, and has it wait before its `main` until runs are asked for."""
        (asked, self.asked), (answers, answered) = os.pipe(), os.pipe()
        self.answers = open(answers, "rb")
        with tempfile.TemporaryDirectory() as room:
            library, source = room + "/forks.so", Path(__file__).resolve().parent.parent / "forks.c"
            subprocess.run(["gcc", "-shared", "-fPIC", "-O1", "-o", library, source, "-ldl"], check=True)
            ends = [(os.POSIX_SPAWN_DUP2, asked, ASKED), (os.POSIX_SPAWN_DUP2, answered, ANSWERED)]
            self.start([self.program], {"LD_PRELOAD": library}, ends)
            os.close(asked)
            os.close(answered)
            # The library is loaded once a run was made.
            self.run("--version")

    def spawned(self, words):
        """The status of a run, and how far its streams are written."""
        signal.alarm(SECONDS)
        self.start([self.program, *words], {})
        status = os.waitpid(self.child, 0)[1]
        signal.alarm(0)
        return status, *(os.lseek(stream.fileno(), 0, os.SEEK_CUR) for stream in self.streams)

    def forked(self, runs):
        """The same of each of these runs, of which no more are asked for than have room in a pipe."""
        for words in runs:
            text = b"".join(os.fsencode(word) + b"\0" for word in [self.program, *words])
            request = struct.pack("=I", len(text)) + text
            while request:
                request = request[os.write(self.asked, request) :]
        return [struct.unpack("=iii", self.answers.read(12)) for _ in runs]

    def run_each(self, runs):
        """Of each of these runs, each the program's words, the status, negative for a signal, and what was written to standard output and
        standard error."""
        for stream in self.streams:
            os.ftruncate(stream.fileno(), 0)
            os.lseek(stream.fileno(), 0, os.SEEK_SET)
        ended = self.forked(runs) if self.asked else [self.spawned(words) for words in runs]
        texts = [os.pread(stream.fileno(), os.fstat(stream.fileno()).st_size, 0) for stream in self.streams]
        outs, errs = ([0, *(run[at] for run in ended)] for at in (1, 2))
        for at, run in enumerate(ended):
            yield os.waitstatus_to_exitcode(run[0]), texts[0][outs[at] : outs[at + 1]], texts[1][errs[at] : errs[at + 1]]

    def run(self, *words):
        """That of one run."""
        (ended,) = self.run_each([words])
        return ended


class Count:
    """What passed and what failed, of which the first few are shown."""

    def __init__(self, counts=()):
        self.passed, self.failed = (sum(one) for one in ([count.passed for count in counts], [count.failed for count in counts]))

    def is_right(self, right, *said):
        if right:
            self.passed += 1
            return
        self.failed += 1
        if self.failed <= 20:
            print("FAILED", *said, flush=True)

    def end(self):
        print(f"{self.passed} passed, {self.failed} failed")
        return 0 if self.passed and not self.failed else 1
