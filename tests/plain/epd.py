"""EPD records and the answers to them as docs/FORMATS.md describes them: a plain second reading, but for the mates themselves."""

import functools
import re
from collections import namedtuple

from fen import fields_text, is_counter, read_fields
from moves import bare_texts

Record = namedtuple("Record", "position bound operations")  # operations: opcode and text, those that are kept, in order of opcode

OPCODE = re.compile(rb"[A-Za-z][A-Za-z0-9_]{0,14}\Z")
PRINTABLE = re.compile(rb"[ -~]*\Z")
MARK = re.compile(rb'[";]')
# A segment without what ends it: an opcode, then operands, each behind one or more spaces. It may have spaces at both ends.
STRING = rb'"[^"]{0,255}"'
SEGMENT = re.compile(rb' *([^ ";]+)((?: +(?:' + STRING + rb'|[^ ";]+))*) *\Z')
OPERAND = re.compile(STRING + rb'|[^ ";]+')
# What is dropped of a record, and said in the answer to it.
OUTCOME = (b"bm", b"c0", b"dm", b"pv")
MATE = re.compile(rb"bm [^;]+; dm ([0-9]+); pv [^;]+#;\Z")


def segments_of(text):
    """The texts between the semicolons outside strings, whether the last is ended, and whether a string is open at the end."""
    segments, start, is_open = [], 0, False
    for mark in MARK.finditer(text):
        if mark.group() == b'"':
            is_open = not is_open
        elif not is_open:
            segments.append(text[start : mark.start()])
            start = mark.end()
    rest = text[start:]
    if rest.strip(b" "):
        return segments + [rest], False, is_open
    return segments, True, is_open


def behind_fields(line):
    """The text behind the four fields, and behind the counters of FEN where they follow."""
    words = list(re.finditer(rb"[^ ]+", line))
    has_counters = len(words) >= 6 and is_counter(words[4].group()) and is_counter(words[5].group())
    return line[words[5 if has_counters else 3].end() :]


@functools.lru_cache(maxsize=4096)
def bare_names(position):
    return frozenset(text.encode() for text in bare_texts(position))


def names_move(word, position):
    bare = word[:-1] if word[-1:] in (b"+", b"#") else word
    return bare in bare_names(position)


def fault_of_bound(operands):
    if len(operands) != 1 or not operands[0].isdigit() or int(operands[0]) == 0:
        return "BadBound"
    return "BoundTooLarge" if int(operands[0]) > 15 else None


def fault_of_avoided(operands, position):
    if not operands or any(word[:1] == b'"' or not names_move(word, position) for word in operands):
        return "BadAvoid"
    return None


def fault_of_operations(segments, ended, is_open):
    """The first fault of the segments that isn't about what an operation asks for."""
    for segment in segments:
        words = segment.split()
        if not words or not OPCODE.match(words[0]):
            return "BadOpcode"
    if is_open or not all(SEGMENT.match(segment) for segment in segments):
        return "BadString"
    if not ended:
        return "MissingSemicolon"
    opcodes = [segment.split()[0] for segment in segments]
    return "DoubleOpcode" if len(set(opcodes)) < len(opcodes) else None


@functools.lru_cache(maxsize=65536)
def read_record(line, default):
    """The record that a line is and None, or None and the first fault."""
    if len(line) > 1023:
        return None, "TooLong"
    if not PRINTABLE.match(line):
        return None, "NotPrintable"
    words = [word for word in line.split(b" ") if word]
    if len(words) < 4:
        return None, "Fen FieldCount"
    position, fault = read_fields(tuple(words[:4]))
    if fault:
        return None, "Fen " + fault
    segments, ended, is_open = segments_of(behind_fields(line))
    fault = fault_of_operations(segments, ended, is_open)
    if fault:
        return None, fault
    operations = {}
    for segment in segments:
        opcode, operands = SEGMENT.match(segment).groups()
        operations[opcode] = OPERAND.findall(operands)
    fault = fault_of_bound(operations.get(b"dm", [b"1"])) or (b"am" in operations and fault_of_avoided(operations[b"am"], position))
    if fault:
        return None, fault
    bound = int(operations[b"dm"][0]) if b"dm" in operations else default
    kept = ((opcode, tuple(operands)) for opcode, operands in operations.items() if opcode not in OUTCOME)
    return Record(position, bound, tuple(sorted(kept))), None


@functools.lru_cache(maxsize=65536)
def is_answer(line, record):
    """Whether a line is an answer to it, in all but which moves mate, in how many, and how."""
    fields = fields_text(record.position).encode() + b" "
    segments, ended, _ = segments_of(line)
    if not line.startswith(fields) or not ended:
        return False
    texts = [segment.strip(b" ") + b";" for segment in [segments[0][len(fields) :], *segments[1:]]]
    opcodes = [text[:-1].split(b" ")[0] for text in texts]
    kept = [b" ".join([opcode, *operands]) + b";" for opcode, operands in record.operations]
    outcome = [text for opcode, text in zip(opcodes, texts) if opcode in OUTCOME]
    if line != fields + b" ".join(texts) or opcodes != sorted(opcodes):
        return False
    if kept != [text for opcode, text in zip(opcodes, texts) if opcode not in OUTCOME]:
        return False
    mate = MATE.match(b" ".join(outcome))
    return 1 <= int(mate[1]) <= record.bound if mate else outcome == [b'c0 "no mate in %d";' % record.bound]


def lines_of(text):
    """The lines of a text and their numbers, but for blank ones."""
    lines = text.split(b"\n")
    if not lines[-1]:
        lines.pop()
    for number, line in enumerate(lines, 1):
        line = line[:-1] if line[-1:] == b"\r" else line
        if line.strip(b" "):
            yield number, line


def replies(text, default):
    """The reply to each line of an input: the record that is to be answered, or what is said where it is refused."""
    for number, line in lines_of(text):
        record, fault = read_record(line, default)
        yield record or b"# line %d: %b" % (number, fault.encode())


def is_reply(line, wanted):
    """Whether a line says what is wanted: these bytes, or an answer to this record."""
    return line == wanted if isinstance(wanted, bytes) else is_answer(line, wanted)
