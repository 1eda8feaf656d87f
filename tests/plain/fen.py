"""Positions and FEN as docs/FORMATS.md describes them: a plain second reading, of which nothing is taken from the program.

A text is bytes, a board a str. A square is a number from 0 (a1) over 7 (h1) to 63 (h8); an empty one holds "." in a board of 64 letters.
"""

import functools
from collections import namedtuple

Position = namedtuple("Position", "board white rights target")  # target: a square or None

KNIGHT = [(1, 2), (2, 1), (2, -1), (1, -2), (-1, -2), (-2, -1), (-2, 1), (-1, 2)]
STRAIGHT = [(1, 0), (-1, 0), (0, 1), (0, -1)]
OBLIQUE = [(1, 1), (1, -1), (-1, 1), (-1, -1)]
# Where each right's king and rook stand.
HOMES = {"K": ("K", 4, "R", 7), "Q": ("K", 4, "R", 0), "k": ("k", 60, "r", 63), "q": ("k", 60, "r", 56)}


def beside(square, step):
    """The square so many files and ranks on, or None beyond the edge."""
    file, rank = square % 8 + step[0], square // 8 + step[1]
    return rank * 8 + file if 0 <= file < 8 and 0 <= rank < 8 else None


def along(board, square, step):
    """The squares in a direction, up to the first man and with it."""
    square = beside(square, step)
    while square is not None:
        yield square
        if board[square] != ".":
            return
        square = beside(square, step)


def is_attacked(board, square, by_white):
    """Whether a man of this colour attacks the square."""
    man = (lambda letter: letter) if by_white else str.lower
    for step in [(-1, -1), (1, -1)] if by_white else [(-1, 1), (1, 1)]:
        at = beside(square, step)
        if at is not None and board[at] == man("P"):
            return True
    for letter, steps in (("N", KNIGHT), ("K", STRAIGHT + OBLIQUE)):
        for step in steps:
            at = beside(square, step)
            if at is not None and board[at] == man(letter):
                return True
    for letters, steps in (("RQ", STRAIGHT), ("BQ", OBLIQUE)):
        for step in steps:
            for at in along(board, square, step):
                if board[at] in [man(letter) for letter in letters]:
                    return True
    return False


def in_check(position):
    king = position.board.index("K" if position.white else "k")
    return is_attacked(position.board, king, not position.white)


def read_placement(field):
    """The board that the first field is, or None."""
    ranks = field.split(b"/")
    if len(ranks) != 8:
        return None
    board = ""
    for rank in reversed(ranks):
        row, was_digit = "", False
        for byte in rank:
            letter = chr(byte)
            if letter in "12345678" and not was_digit:
                row += "." * int(letter)
            elif letter in "PNBRQKpnbrqk":
                row += letter
            else:
                return None
            was_digit = letter in "12345678"
        if len(row) != 8:
            return None
        board += row
    return board


def square_of(text):
    return (ord(text[0]) - ord("a")) + 8 * (ord(text[1]) - ord("1"))


def name_of(square):
    return "abcdefgh"[square % 8] + "12345678"[square // 8]


def read_castling(field):
    """The rights, or None."""
    if field == b"-":
        return ""
    letters = field.decode("latin-1")
    if not letters or len(set(letters)) != len(letters) or any(letter not in "KQkq" for letter in letters):
        return None
    return "".join(letter for letter in "KQkq" if letter in letters)


def read_target(field, white):
    """The target, None where there is none, or False where it is no target."""
    if field == b"-":
        return None
    if len(field) != 2 or chr(field[0]) not in "abcdefgh" or field[1:] != (b"6" if white else b"3"):
        return False
    return square_of(field.decode())


def is_counter(word):
    return 1 <= len(word) <= 4 and all(48 <= byte <= 57 for byte in word)


def unsound(position):
    """The first fault by which the men can't stand so, or None."""
    board, white = position.board, position.white
    if board.count("K") != 1 or board.count("k") != 1:
        return "BadKings"
    if any(man in "Pp" for man in board[:8] + board[56:]):
        return "PawnOnEndRank"
    if sum(man.isupper() for man in board) > 16 or sum(man.islower() for man in board) > 16:
        return "TooManyMen"
    for right in position.rights:
        king, kings_home, rook, rooks_home = HOMES[right]
        if board[kings_home] != king or board[rooks_home] != rook:
            return "RightWithoutMen"
    if position.target is not None:
        ahead = -8 if white else 8
        if board[position.target + ahead] != ("p" if white else "P"):
            return "TargetWithoutPawn"
        if board[position.target] != "." or board[position.target - ahead] != ".":
            return "TargetWithoutPawn"
    if is_attacked(board, board.index("k" if white else "K"), white):
        return "OpponentInCheck"
    return None


@functools.lru_cache(maxsize=65536)
def read_fields(fields, counters=()):
    """The position that four fields spell, and None, or None and the first fault; `counters` are those of a whole FEN."""
    board = read_placement(fields[0])
    if board is None:
        return None, "BadPlacement"
    if fields[1] not in (b"w", b"b"):
        return None, "BadSide"
    rights = read_castling(fields[2])
    if rights is None:
        return None, "BadCastling"
    target = read_target(fields[3], fields[1] == b"w")
    if target is False:
        return None, "BadTarget"
    if not all(is_counter(counter) for counter in counters):
        return None, "BadCounter"
    position = Position(board, fields[1] == b"w", rights, target)
    fault = unsound(position)
    return (None, fault) if fault else (position, None)


def fields_text(position):
    """The four fields as they are printed."""
    rows = []
    for rank in reversed(range(8)):
        row = ""
        for man in position.board[8 * rank : 8 * rank + 8]:
            if man != ".":
                row += man
            elif row[-1:].isdigit():
                row = row[:-1] + str(int(row[-1]) + 1)
            else:
                row += "1"
        rows.append(row)
    target = "-" if position.target is None else name_of(position.target)
    return " ".join(["/".join(rows), "w" if position.white else "b", position.rights or "-", target])


def looked(fen):
    """What `look` prints for a FEN, and None, or None and the fault."""
    fields = tuple(fen.split(b" "))
    if len(fields) != 6:
        return None, "FieldCount"
    position, fault = read_fields(fields[:4], fields[4:])
    if fault:
        return None, fault
    check = "check" if in_check(position) else "no check"
    return f"{fields_text(position)} {int(fields[4])} {int(fields[5])}\n{check}\n", None
