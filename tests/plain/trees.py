"""Trees of mates as docs/FORMATS.md describes them: keys and threats, defences, all or those that parry, continuations, set play and tries,
plainly and slowly."""

from fen import HOMES, Position, in_check
from moves import after, bare_text, legal_moves

HEADINGS = {"set play", "tries"}
FIGURINES = str.maketrans("KQRBN", "\u2654\u2655\u2656\u2657\u2658")
RUSSIAN = str.maketrans({"K": "Kr", "Q": "F", "R": "L", "B": "S", "N": "K"})


def in_column(lines):
    """The same lines as one, a colon behind each heading; none where there is none."""
    return [" ".join(line.strip() + (":" if line in HEADINGS else "") for line in lines)] if lines else []


def with_figurines(lines):
    return [line.translate(FIGURINES) for line in lines]


def with_russian_letters(lines):
    return [line.translate(RUSSIAN) for line in lines]


def moved(position, move):
    """The position after a move."""
    start, at, _ = move
    rights = "".join(right for right in position.rights if not {start, at} & {HOMES[right][1], HOMES[right][3]})
    target = (start + at) // 2 if position.board[start] in "Pp" and abs(at - start) == 16 else None
    return Position(after(position, move), not position.white, rights, target)


def passed(position):
    """The position with the other side to move, or None where a king could be taken."""
    return None if in_check(position) else Position(position.board, not position.white, position.rights, None)


def wins(position, n):
    """Whether the side to move mates within n moves."""
    return n > 0 and any(loses(moved(position, move), n - 1) for move in legal_moves(position))


def loses(position, k):
    """Whether the side to move is mated, or is whatever it replies within k moves."""
    if k == 0 and not in_check(position):
        return False
    replies = legal_moves(position)
    if not replies:
        return in_check(position)
    return k > 0 and all(wins(moved(position, reply), k) for reply in replies)


def soonest(position, k, avoid=()):
    """The least number of moves within which the side to move mates, at most k, and all first moves to it; or 0 and none."""
    first = [move for move in legal_moves(position) if move not in avoid]
    for n in range(1, k + 1):
        keys = [move for move in first if loses(moved(position, move), n - 1)]
        if keys:
            return n, keys
    return 0, []


def san(position, move):
    reached = moved(position, move)
    mark = ("+" if legal_moves(reached) else "#") if in_check(reached) else ""
    return bare_text(position, move, legal_moves(position)) + mark


def length(n, further):
    """How many moves a mate takes, where the tree is cut."""
    return f" #{n}" if n > 1 and further == 0 else ""


def below(position, number, k, further):
    """The lines below the attacker's move of this number, of whose moves so many further ones are shown."""
    for reply in legal_moves(position) if further > 0 else []:
        reached = moved(position, reply)
        n, moves = soonest(reached, k)
        dual = " dual" if len(moves) > 1 else ""
        yield " " * (4 * number - 2) + f"{number}...{san(position, reply)}{dual}"
        for move in moves:
            yield " " * (4 * number) + f"{number + 1}.{san(reached, move)}" + length(n, further - 1)
            yield from below(moved(reached, move), number + 1, n - 1, further - 1)


def idea(position, k, number=2):
    """What is said behind a key, or another move of the attacker's, by the position after it."""
    other = passed(position)
    if other is None:
        return ""
    moves = soonest(other, k)[1]
    return " threat" + "".join(f" {number}.{san(other, move)}" for move in moves) if moves else " zugzwang"


def parries(position, reply, k, threatened):
    """Whether each threat is illegal after the reply, or mates too late."""
    reached = moved(position, reply)
    still = [threat for threat in threatened if threat in legal_moves(reached)]
    return not any(loses(moved(reached, threat), k - 1) for threat in still)


def variations(position, number, k, further):
    """The lines below the attacker's move of this number: the replies that parry, in one line those after which the same moves mate."""
    if further == 0:
        return
    other = passed(position)
    threatened = soonest(other, k)[1] if other else []
    together = {}
    for reply in legal_moves(position):
        if parries(position, reply, k, threatened):
            reached = moved(position, reply)
            mates = tuple(san(reached, move) for move in legal_moves(reached) if loses(moved(reached, move), 0))
            together.setdefault(mates or reply, []).append(reply)
    for answer, replies in together.items():
        start = " " * (4 * number - 2) + f"{number}..." + ", ".join(san(position, reply) for reply in replies)
        if isinstance(answer[0], str):
            yield start + "".join(f" {number + 1}.{mate}" for mate in answer) + (" dual" if len(answer) > 1 else "")
            continue
        reached = moved(position, answer)
        n, moves = soonest(reached, k)
        yield start + (" dual" if len(moves) > 1 else "")
        for move in moves:
            after_move = moved(reached, move)
            told = idea(after_move, n - 1, number + 2) + length(n, further - 1)
            yield " " * (4 * number) + f"{number + 1}.{san(reached, move)}" + told
            yield from variations(after_move, number + 1, n - 1, further - 1)


def set_play(position, k):
    other = passed(position)
    for reply in legal_moves(other) if other else []:
        reached = moved(other, reply)
        moves = soonest(reached, k)[1]
        if moves:
            yield f"  1...{san(other, reply)}" + "".join(f" 2.{san(reached, move)}" for move in moves)


def tries(position, k, avoid):
    for move in legal_moves(position):
        if move in avoid:
            continue
        reached, refutations = moved(position, move), []
        for reply in legal_moves(reached):
            if not wins(moved(reached, reply), k):
                refutations.append(reply)
                if len(refutations) > 1:
                    break
        if len(refutations) == 1:
            yield f"  1.{san(position, move)}? {san(reached, refutations[0])}!"


def headed(name, lines):
    lines = list(lines)
    return [name, *lines] if lines else []


def key_lines(position, n, keys, shown=None, tree=below):
    """Each key of a mate in n, and what stands below it: all defences, or the variations."""
    further = (shown or (n if n <= 3 else 2)) - 1
    for key in keys:
        reached = moved(position, key)
        yield f"1.{san(position, key)}!" + idea(reached, n - 1) + length(n, further)
        yield from tree(reached, 1, n - 1, further)
