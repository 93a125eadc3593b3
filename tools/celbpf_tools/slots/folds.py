"""The fixed instructions of macros, which are loops over the items of a range.

Five words of the frame from word k on serve a loop: the range, the number of its items, the place of the next one, the
answer so far, and the item.
"""

from .lines import Piece, code, ja, jump, load, mov, store
from .tails import NO, YES

# words of a loop, counted from its first
COUNT, PLACE, ANSWER, ITEM, TURN = 1, 2, 3, 4, 5
# slots that are left out beside those of the first answer, the loop and the turn
NO_RANGE, EXIT, BACK = 4, 8, 7
FIRST = {
    "all": mov("r0", YES), "exists": mov("r0", NO), "exists_one": mov("r0", NO), "filter": "call 16", "map": "call 16",
}
EXISTS_ONE_END = code(jump("eq", "r0", 0, 2), jump("eq", "r0", YES, 1), mov("r0", NO))


def range_tail(word: int, loop: int) -> Piece:
    """After the range: its number of items; a jump over the loop, of `loop` slots, if it is no list and no map."""
    no_range = [jump("ne", "r0", -1, 2), mov("r0", 0), ja(loop + NO_RANGE)]
    kept = [store(word + COUNT, "r0"), mov("r0", 0), store(word + PLACE, "r0")]
    return code(store(word, "r0"), mov("r1", "r0"), "call 21", *no_range, *kept)


def loop_head(word: int, turn: int) -> Piece:
    """The next item into its word; a jump over the turn, of `turn` slots, if there is none."""
    left = [load("r1", word + COUNT), load("r2", word + PLACE), jump("eq", "r1", "r2", turn + EXIT)]
    return code(*left, load("r1", word), "call 20", store(word + ITEM, "r0"))


def loop_tail(word: int, turn: int) -> Piece:
    """Back to the next item, and the answer after the last."""
    place = [load("r2", word + PLACE), "add64 r2, 1", store(word + PLACE, "r2"), load("r1", word + COUNT)]
    return code(*place, jump("ne", "r1", "r2", -(turn + BACK + 1)), load("r0", word + ANSWER))


def absorbing_turn(decides: int, other: int, word: int) -> Piece:
    decided = [jump("eq", "r0", decides, 9), jump("eq", "r0", other, 2)]
    return code(*decided, mov("r0", 0), store(word + ANSWER, "r0"))


def exists_one_turn(word: int) -> Piece:
    tests = [jump("eq", "r0", NO, 8), jump("ne", "r0", YES, 5), load("r1", word + ANSWER)]
    again = [jump("eq", "r1", 0, 5), jump("eq", "r1", NO, 3)]
    return code(*tests, *again, mov("r0", 1), ja(1), mov("r0", 0), store(word + ANSWER, "r0"))


def filter_turn(word: int) -> Piece:
    kept = [load("r1", word + ANSWER), load("r2", word + ITEM), "call 17", ja(1)]
    return code(jump("eq", "r0", NO, 7), jump("ne", "r0", YES, 4), *kept, mov("r0", 0), store(word + ANSWER, "r0"))


def map_turn(word: int) -> Piece:
    return code(mov("r2", "r0"), load("r1", word + ANSWER), "call 17", store(word + ANSWER, "r0"))


def map_where_turn(transform: Piece, word: int) -> Piece:
    """The turn of `map` after its predicate."""
    tests = [jump("eq", "r0", NO, transform.size + 7), jump("ne", "r0", YES, transform.size + 4)]
    kept = [mov("r2", "r0"), load("r1", word + ANSWER), "call 17", ja(1), mov("r0", 0), store(word + ANSWER, "r0")]
    return code(*tests) + transform + code(*kept)


TURNS = {
    "all": lambda word: absorbing_turn(NO, YES, word),
    "exists": lambda word: absorbing_turn(YES, NO, word),
    "exists_one": exists_one_turn,
    "filter": filter_turn,
    "map": map_turn,
}
