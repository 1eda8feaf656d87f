"""The sessions of tests/cases/, written as tests/sessions says: read, run, and held to what they want."""

import ast
import os
import re
import shlex
import subprocess
import tempfile
from dataclasses import dataclass, field
from pathlib import Path

CASES = Path(__file__).resolve().parent.parent / "cases"
SECONDS = "60"
# The sections that are a text, and those that are one word.
TEXTS = ("file", "stdin", "stdout", "stdout.has", "stderr")
WORDS = {"status": r"\d+", "how": "full|closed|pipe"}


class Malformed(Exception):
    """What is wrong with a session."""


@dataclass
class Case:
    """A run of the program: its words, and what its sections say, by heading."""

    name: str
    words: list = None
    sections: dict = field(default_factory=dict)

    def files(self):
        """What lies where it runs, by name."""
        return {heading[5:]: text for heading, text in self.sections.items() if heading.startswith("file ")}


def encoded(text):
    return text.encode("utf-8", "surrogateescape")


def bytes_of(text):
    """What Python has for an expression of bytes, numbers, `+` and `*`."""
    try:
        tree = ast.parse(text, mode="eval")
        known = all(isinstance(node, (ast.Expression, ast.BinOp, ast.Add, ast.Mult, ast.Constant)) for node in ast.walk(tree))
        value = eval(compile(tree, "session", "eval"), {}) if known else None
    except (SyntaxError, TypeError, ValueError):
        value = None
    if not isinstance(value, bytes):
        raise Malformed(f"no bytes as Python writes them: {text}")
    return value


def words_of(text):
    try:
        return shlex.split(text)
    except ValueError as fault:
        raise Malformed(f"no words as a shell reads them, {fault}: {text}") from None


class Reader:
    """Reads a session line by line."""

    def __init__(self, session):
        self.session, self.cases = session, {}
        # The case, its command as far as it was read, and the heading of the text that the next line belongs to.
        self.case = self.command = self.heading = None

    def read(self, line):
        kind, _, rest = line.partition(" ")
        if kind in ("|", "="):
            self.add(encoded(rest + "\n") if kind == "|" else bytes_of(rest))
        elif kind == ">" and self.command is not None and not self.case.sections:
            self.command += "\n" + rest
        elif not line or line.startswith("#"):
            self.heading = None
        elif kind == "case":
            self.end()
            self.begin(rest)
        elif self.case is None:
            raise Malformed(f"no case begins before: {line}")
        elif kind == "$" and self.command is None:
            self.command = rest
        else:
            self.begin_section(*words_of(line))

    def begin(self, name):
        if name in self.cases:
            raise Malformed(f"a second case {name}")
        if name.split("_")[0] != self.session or not re.fullmatch(r"\w+", name, re.ASCII):
            raise Malformed(f"no name for a case of {self.session}: {name}")
        self.case = self.cases[name] = Case(name)

    def begin_section(self, kind, *words):
        sections = self.case.sections
        if kind == "file" and words and words[0] and "/" not in words[0]:
            heading, words = f"file {words[0]}", words[1:]
        else:
            heading = kind
        if heading in sections:
            raise Malformed(f"a second section {heading}")
        self.heading = None
        if kind in WORDS and len(words) == 1 and re.fullmatch(WORDS[kind], words[0], re.ASCII):
            sections[kind] = encoded(words[0] + "\n")
        elif kind in TEXTS and heading != "file" and not words:
            sections[heading], self.heading = b"", heading
        elif kind in TEXTS and heading != "file" and words[:2] == ("as", "in") and len(words) == 3:
            earlier = self.cases.get(words[2], self.case).sections
            if heading not in earlier:
                raise Malformed(f"no case {words[2]} with {heading} comes before")
            sections[heading] = earlier[heading]
        else:
            raise Malformed(f"no section of a case: {' '.join((heading, *words))}")

    def add(self, text):
        if self.heading is None:
            raise Malformed("a line of a text, and no section for it directly above")
        self.case.sections[self.heading] += text

    def end(self):
        """Ends the case that was read, where there is one."""
        if self.case:
            first, *words = words_of(self.command or "") or [""]
            if first != "matedesk":
                raise Malformed(f"{self.case.name} has no line $ matedesk WORD..")
            if len(self.case.sections.keys() & {"stdout", "stdout.has", "how"}) > 1:
                raise Malformed(f"{self.case.name} has more than one of stdout, stdout.has and how")
            self.case.words = [encoded(word) for word in words]
        self.case = self.command = self.heading = None


def cases_of(session):
    """The cases of a session."""
    if session.suffix != ".session":
        raise Malformed(f"{session.name} is no session")
    reader = Reader(session.stem)
    try:
        for number, line in enumerate(session.read_bytes().decode("utf-8", "surrogateescape").split("\n"), 1):
            reader.read(line)
        reader.end()
        if not reader.cases:
            raise Malformed("the session has no case")
    except Malformed as fault:
        raise Malformed(f"{session.name}, line {number}: {fault}") from None
    return list(reader.cases.values())


def all_cases():
    """Those of all sessions, by name."""
    return sorted((case for session in CASES.iterdir() for case in cases_of(session)), key=lambda case: case.name)


def output(how):
    """Where a run writes."""
    if how == "full":
        return open("/dev/full", "wb")
    if how == "pipe":
        reader, writer = os.pipe()
        os.close(reader)
        return open(writer, "wb")
    return tempfile.TemporaryFile()


def run(case, program):
    """The status of a run of a case, as a shell tells it, and what it wrote to standard output and to standard error."""
    how = case.sections.get("how", b"").decode().strip()
    with tempfile.TemporaryDirectory() as room, tempfile.TemporaryFile() as put, output(how) as out, tempfile.TemporaryFile() as err:
        for name, text in case.files().items():
            with open(os.path.join(os.fsencode(room), encoded(name)), "wb") as file:
                file.write(text)
        put.write(case.sections.get("stdin", b""))
        put.seek(0)
        ended = subprocess.run(
            ["timeout", SECONDS, program, *case.words],
            cwd=room,
            stdin=put if "stdin" in case.sections else subprocess.DEVNULL,
            stdout=out,
            stderr=err,
            preexec_fn=(lambda: os.close(1)) if how == "closed" else None,
            check=False,
        )
        for stream in (out, err):
            if stream.seekable():
                stream.seek(0)
        status = ended.returncode if ended.returncode >= 0 else 128 - ended.returncode
        return status, out.read() if not how else b"", err.read()


def difference(name, wanted, got):
    """How the lines of two texts differ; nothing where they don't."""
    if wanted == got:
        return b""
    with tempfile.NamedTemporaryFile() as file:
        file.write(wanted)
        file.flush()
        labels = [f"--label={name} wanted", f"--label={name} got"]
        return subprocess.run(["diff", "-a", "-u", *labels, file.name, "-"], input=got, stdout=subprocess.PIPE, check=False).stdout


def differences(case, status, out, err):
    """Each way in which a run came out otherwise than its case wants."""
    wanted, found = case.sections, []
    if status != int(wanted.get("status", 0)):
        found.append(b"status wanted %d, got %d\n" % (int(wanted.get("status", 0)), status))
    if "stderr" in wanted:
        found.append(difference("stderr", wanted["stderr"], err))
    if "stdout.has" in wanted:
        lines = out.removesuffix(b"\n").split(b"\n") if out else []
        lacking = [line for line in wanted["stdout.has"].removesuffix(b"\n").split(b"\n") if not any(line in other for other in lines)]
        found += [b"stdout lacks: %s\n%s" % (line, out) for line in lacking]
    elif "how" not in wanted:
        found.append(difference("stdout", wanted.get("stdout", b""), out))
    return b"".join(found)
