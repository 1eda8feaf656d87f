"""Gives the program inputs, and holds its status and what it writes to the plain reading."""

from pathlib import Path

from epd import bare_names, is_reply, read_record, replies
from fen import in_check, looked, read_fields
from moves import bare_texts
from scripts import replayed

# So that no search takes long, a record that asks for a mate within more moves is only read: all first moves are to be avoided; and so is
# a script: a line at fault follows.
LONGEST_SOLVED = 2
LONGEST_REPLAYED = 3


def is_text(word):
    try:
        return bool(word.decode()) or True
    except UnicodeDecodeError:
        return False


def try_fens(runner, count, fens, _room=None):
    """Looks at each, and where it is read counts and compares its moves. No word can hold a byte 0."""
    fens, read = [fen for fen in fens if 0 not in fen], []
    for fen, (status, out, err) in zip(fens, runner.run_each([("look", fen) for fen in fens])):
        text, fault = looked(fen) if is_text(fen) else (None, None)
        if text:
            read.append(fen)
            wanted = (0, text.encode(), b"")
        else:
            wanted = (1, b"", f"matedesk: {fault}\n".encode()) if fault else (2, b"", b"matedesk: a word is not text\n")
        count.is_right((status, out, err) == wanted, "look", fen, status, out, err)
    for fen, (status, out, err) in zip(read, runner.run_each([("moves", fen) for fen in read])):
        position, _ = read_fields(tuple(fen.split(b" ")[:4]))
        listed = bare_texts(position) or ["mate" if in_check(position) else "stalemate"]
        got = [line.rstrip("+#") for line in out.decode("latin-1").splitlines()]
        count.is_right((status, got, err) == (0, listed, b""), "moves", fen, status, out, err)


def short(line):
    """The line, or where it asks for a long search one that asks for a short one."""
    record, fault = read_record(line, 1)
    if fault or record.bound <= LONGEST_SOLVED or not bare_names(record.position):
        return line
    longer = line + b" am " + b" ".join(sorted(bare_names(record.position))) + b";"
    return longer if not read_record(longer, 1)[1] else line + b" am 0;"


def short_lines(text):
    """The lines of a text, each made short."""
    for line in text.split(b"\n"):
        ending = b"\r" if line[-1:] == b"\r" else b""
        yield short(line[: len(line) - len(ending)]) + ending


def try_records(runner, count, texts, room):
    """Solves all these texts, one behind the other, in one run, and serves them in another."""
    inputs = b"\n".join(line for text in texts for line in short_lines(text))
    wanted = list(replies(inputs, 1))
    place = room + "/records"
    Path(place).write_bytes(inputs)
    for words in (["solve", "--bound", "1"], ["serve", "--workers", "2", "--bound", "1"]):
        status, out, err = runner.run(*words, place)
        refused = any(isinstance(reply, bytes) for reply in wanted)
        count.is_right((status, err) == (1 if refused else 0, b""), *words, inputs[:200], status, err)
        lines = out.split(b"\n")
        count.is_right(len(lines) == len(wanted) + 1, *words, inputs[:200], len(lines), "lines in place of", len(wanted) + 1)
        for line, reply in zip(lines, wanted):
            count.is_right(is_reply(line, reply), *words, "wanted", reply, "got", line)


def short_script(script):
    """The script, or where a search would be long one that is only read, and what is to be answered."""
    replies, said, desk = replayed(script)
    if desk and any(bound > LONGEST_REPLAYED for bound in desk.bounds()):
        script += b"\nno step"
        replies, said, desk = replayed(script)
    return script, replies, said


def try_scripts(runner, count, scripts, room):
    """Replays each, or where a search would be long only reads it."""
    scripts = [short_script(script) for script in scripts]
    places = [f"{room}/{number}.script" for number in range(len(scripts))]
    for place, (script, _, _) in zip(places, scripts):
        Path(place).write_bytes(script)
    ended = runner.run_each([("replay", place) for place in places])
    for (script, wanted, said), (status, out, err) in zip(scripts, ended):
        lines = out.split(b"\n")
        right = len(lines) == len(wanted) + 1 and all(is_reply(line, reply) for line, reply in zip(lines, wanted))
        count.is_right(right and (status, err) == (1 if said else 0, said.encode()), "replay", script, status, out, err)
