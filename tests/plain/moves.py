"""The legal moves of a position, and their texts in SAN without the mark of a check, plainly and slowly."""

from fen import HOMES, KNIGHT, OBLIQUE, STRAIGHT, Position, along, beside, is_attacked, name_of

STEPS = {"R": STRAIGHT, "B": OBLIQUE, "Q": STRAIGHT + OBLIQUE}


def is_own(man, white):
    return man != "." and man.isupper() == white


def pawn_moves(position, start):
    """Where a pawn may go by the rules, with what it becomes, whatever happens to its king."""
    ahead, first, last = (1, 1, 7) if position.white else (-1, 6, 0)
    targets = []
    at = beside(start, (0, ahead))
    if at is not None and position.board[at] == ".":
        targets.append(at)
        twice = beside(at, (0, ahead))
        if start // 8 == first and position.board[twice] == ".":
            targets.append(twice)
    for side in (-1, 1):
        at = beside(start, (side, ahead))
        if at is not None and (is_own(position.board[at], not position.white) or at == position.target):
            targets.append(at)
    for at in targets:
        yield from ((start, at, kind) for kind in ("NBRQ" if at // 8 == last else [None]))


def castlings(position):
    for right in position.rights:
        if right.isupper() != position.white:
            continue
        king, home = HOMES[right][1], HOMES[right][3]
        step = 1 if home > king else -1
        between = range(king + step, home, step)
        passed = (king, king + step, king + 2 * step)
        if all(position.board[at] == "." for at in between) and not any(
            is_attacked(position.board, at, not position.white) for at in passed
        ):
            yield king, king + 2 * step, None


def after(position, move):
    """The board after a move."""
    start, at, kind = move
    board = list(position.board)
    man = board[start]
    if man in "Pp" and at == position.target:
        board[at - 8 if position.white else at + 8] = "."
    if man in "Kk" and abs(at - start) == 2:
        rook, beyond = (start + 3, start + 1) if at > start else (start - 4, start - 1)
        board[beyond], board[rook] = board[rook], "."
    board[start] = "."
    board[at] = man if kind is None else kind if position.white else kind.lower()
    return "".join(board)


def legal_moves(position):
    """Each legal move: origin, target and what a pawn becomes; by origin, target, and knight, bishop, rook, queen."""
    candidates = list(castlings(position))
    for start, man in enumerate(position.board):
        kind = man.upper()
        if not is_own(man, position.white):
            continue
        if kind == "P":
            candidates += pawn_moves(position, start)
        elif kind in "NK":
            steps = KNIGHT if kind == "N" else STRAIGHT + OBLIQUE
            reached = [beside(start, step) for step in steps]
            candidates += [(start, at, None) for at in reached if at is not None and not is_own(position.board[at], position.white)]
        else:
            for step in STEPS[kind]:
                candidates += [(start, at, None) for at in along(position.board, start, step) if not is_own(position.board[at], position.white)]
    king = "K" if position.white else "k"
    candidates.sort(key=lambda move: (move[0], move[1], "NBRQ".index(move[2] or "N")))
    boards = [(move, after(position, move)) for move in candidates]
    return [move for move, board in boards if not is_attacked(board, board.index(king), not position.white)]


def bare_text(position, move, moves):
    """The SAN of a move among all legal ones, without the mark of a check."""
    start, at, kind = move
    man = position.board[start].upper()
    takes = position.board[at] != "." or (man == "P" and at == position.target)
    if man == "K" and abs(at - start) == 2:
        return "O-O" if at > start else "O-O-O"
    if man == "P":
        text = (name_of(start)[0] + "x" if takes else "") + name_of(at)
        return text + ("=" + kind if kind else "")
    others = [other for other, to, _ in moves if to == at and other != start and position.board[other] == position.board[start]]
    origin = ""
    if others:
        if all(other % 8 != start % 8 for other in others):
            origin = name_of(start)[0]
        elif all(other // 8 != start // 8 for other in others):
            origin = name_of(start)[1]
        else:
            origin = name_of(start)
    return man + origin + ("x" if takes else "") + name_of(at)


def bare_texts(position):
    """Those of all legal moves."""
    moves = legal_moves(position)
    return [bare_text(position, move, moves) for move in moves]
