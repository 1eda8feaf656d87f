"""Games as docs/FORMATS.md describes them: a position with its counters, what moves make of it, and how they are named."""

from fen import HOMES, Position, fields_text, in_check, name_of, read_fields
from moves import after, bare_text, legal_moves

START = "rnbqkbnr/pppppppp/8/8/8/8/PPPPPPPP/RNBQKBNR w KQkq - 0 1"
MOST = 9999


class Game:
    """A position of a game, with its halfmove clock and its fullmove number."""

    def __init__(self, position, halfmove, fullmove):
        self.position, self.halfmove, self.fullmove = position, halfmove, fullmove
        self.legal = None

    def moves(self):
        if self.legal is None:
            self.legal = legal_moves(self.position)
        return self.legal

    def fen(self):
        return f"{fields_text(self.position)} {self.halfmove} {self.fullmove}"

    def standing(self):
        if in_check(self.position):
            return "check" if self.moves() else "mate"
        return "no check" if self.moves() else "stalemate"

    def after(self, move):
        start, at, _ = move
        position = self.position
        man = position.board[start]
        takes = position.board[at] != "."
        rights = "".join(right for right in position.rights if not {start, at} & {HOMES[right][1], HOMES[right][3]})
        target = (start + at) // 2 if man in "Pp" and abs(at - start) == 16 else None
        moved = Position(after(position, move), not position.white, rights, target)
        halfmove = 0 if takes or man in "Pp" else min(self.halfmove + 1, MOST)
        return Game(moved, halfmove, self.fullmove if position.white else min(self.fullmove + 1, MOST))

    def san(self, move):
        reached = self.after(move).standing()
        return bare_text(self.position, move, self.moves()) + {"check": "+", "mate": "#"}.get(reached, "")

    def coordinates(self, move):
        start, at, kind = move
        return name_of(start) + name_of(at) + (kind or "").lower()


def start_of(fen):
    """The game that begins with a FEN."""
    fields = tuple(fen.encode().split(b" "))
    position, _ = read_fields(fields[:4], fields[4:])
    return Game(position, int(fields[4]), int(fields[5]))
