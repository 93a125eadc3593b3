"""The code of an expression, with the slots of each sub-expression marked."""

from dataclasses import dataclass, field, replace
from typing import Any, Optional

from ..evaluator import measures
from ..evaluator.macros import ROOTS
from ..evaluator.trees import Call, Has, ListLiteral, Literal, Macro, MapLiteral, Method, Name, Operation, Selection, Ternary, Variable
from ..evaluator.values import kind, length
from . import folds, tails
from .lines import CONSTANTS, SCRATCH, Piece, Use, clear, code, ja, joined, jump, lddw, load, load_at, mov, store
from .nodes import Node

FIRST_ROOT = 4
# references of the literals that one instruction puts into a register
REFERENCES = {None: 1, False: 2, True: 3}
# the word of the first list that a frame keeps, the most of these, and the most beside a field of a root
FIRST_LIST, MOST_LISTS, LISTS_WITH_PATH = 60, 4, 2
# the nodes that begin with no field of a root
NO_FRONT = (Call, ListLiteral, MapLiteral)


@dataclass
class Texts:
    """Where each text begins among the constants; texts are there once, in order of first use."""

    offsets: dict[str, Any] = field(default_factory=dict)
    size: int = 0

    def take(self, node: Node) -> None:
        """Adds the texts that the code of a node names."""
        for part in node.parts:
            self.take(part)
        text = named_text(node)
        if text is not None and text not in self.offsets:
            self.offsets[text] = self.size
            self.size += length(text)

    def operands(self, text: str, registers: tuple[Any, ...]) -> list[Any]:
        """The address and the length of a text into two registers."""
        return [lddw(registers[0], CONSTANTS + self.offsets[text]), mov(registers[1], length(text))]


@dataclass(frozen=True)
class Frame:
    """The first free word of the frame, the words of iteration names, the field of a root that word 0 keeps, and the
    lists of literals that the words from `FIRST_LIST` on keep."""

    word: int = 0
    items: tuple[Any, ...] = ()
    path: Optional[tuple[Any, ...]] = None
    lists: tuple[Any, ...] = ()

    def on(self, words: int) -> "Frame":
        return replace(self, word=self.word + words)

    def turn(self, name: str) -> "Frame":
        """The frame of a macro's turn; no path is kept in it."""
        items = ((name, self.word + folds.ITEM), *self.items)
        return Frame(self.word + folds.TURN, items, lists=self.lists)


def named_text(node: Node) -> Optional[str]:
    """The text that the code of a node itself names."""
    if isinstance(node.tree, (Selection, Has)):
        return node.tree.field
    is_text = isinstance(node.tree, Literal) and kind(node.tree.value) == "text"
    return node.tree.value if is_text else None


def path_of(node: Node) -> Optional[tuple[Any, ...]]:
    """The root and the field of a node that is a field of a name."""
    is_field = isinstance(node.tree, Selection) and isinstance(node.parts[0].tree, Name)
    return (node.parts[0].tree.name, node.tree.field) if is_field else None


def front_of(node: Node) -> Optional[Node]:
    """The field of a root with which an expression begins."""
    while not path_of(node):
        if not node.parts or isinstance(node.tree, NO_FRONT):
            return None
        node = node.parts[0]
    return node


def literals_of(node: Node) -> Optional[tuple[Any, ...]]:
    """The kinds and values of a list of literals; none for another node."""
    trees = [part.tree for part in node.parts]
    if not isinstance(node.tree, ListLiteral) or not all(isinstance(tree, Literal) for tree in trees):
        return None
    return tuple((kind(tree.value), tree.value) for tree in trees)


def kept_lists(node: Node) -> tuple[Any, ...]:
    """The lists of literals inside macros that the frame of an expression keeps."""
    found: list[Any] = []
    find_lists(node, False, found)
    return tuple(found)


def find_lists(node: Node, inside: bool, found: list[Any]) -> None:
    """Adds the lists in a node that are to be kept, each once, up to the most."""
    literals = literals_of(node)
    if inside and literals is not None and literals not in found and len(found) < MOST_LISTS:
        found.append(literals)
    for place, part in enumerate(node.parts):
        find_lists(part, inside or (isinstance(node.tree, Macro) and place > 0), found)


def simple(node: Node, frame: Frame, register: str) -> Optional[Piece]:
    """The one instruction that puts a simple operand into a register; none if the node is no simple operand."""
    tree, line = node.tree, None
    if isinstance(tree, Literal) and kind(tree.value) in ("null", "bool"):
        line = mov(register, REFERENCES[tree.value])
    elif isinstance(tree, Name):
        words = dict(reversed(frame.items))
        line = load(register, words[tree.name]) if tree.name in words else mov(register, root_of(tree.name))
    elif frame.path and path_of(node) == frame.path:
        line = load(register, 0)
    return code(line).marked(node, register) if line else None


def root_of(name: str) -> int:
    """The reference of a root."""
    return FIRST_ROOT + ROOTS.index(name)


class Emitter:
    """Code for expressions over these texts, with the routines of the variables by name: (number, first slot)."""

    def __init__(self, texts: Texts, routines: dict[str, Any]):
        self.texts = texts
        self.routines = routines

    def whole(self, node: Node) -> Piece:
        """The code of a whole expression: the shorter of two, of which one keeps its first field of a root."""
        lists = kept_lists(node)
        cleared = code(*(clear(FIRST_LIST + number) for number in range(len(lists))))
        plain = self.of(node, Frame(lists=lists))
        plain = (cleared + plain).marked(node, "r0") if lists else plain
        front = front_of(node)
        if front is None or len(lists) > LISTS_WITH_PATH or 1 + measures.need(node.tree) > measures.MOST_NEED:
            return plain
        path = path_of(front)
        kept = self.field(front, Frame()) + code(store(0, "r0"))
        keeping = kept.marked(front, "r0", "kept") + cleared + self.of(node, Frame(1, (), path, lists))
        return plain if plain.size <= keeping.size else keeping.marked(node, "r0")

    def of(self, node: Node, frame: Frame) -> Piece:
        """The code of a node, which leaves the reference of its value in R0."""
        return simple(node, frame, "r0") or self.made(node, frame).marked(node, "r0")

    def made(self, node: Node, frame: Frame) -> Piece:
        tree = node.tree
        if isinstance(tree, Literal):
            return self.literal(tree)
        if isinstance(tree, Variable):
            return self.use(tree.name)
        if isinstance(tree, (Selection, Has)):
            return self.field(node, frame)
        if isinstance(tree, Ternary):
            return self.ternary(node, frame)
        if isinstance(tree, ListLiteral):
            return self.list(node, frame)
        if isinstance(tree, MapLiteral):
            return self.map(node, frame)
        if isinstance(tree, Macro):
            return self.macro(node, frame)
        return self.applied(node, frame)

    def list(self, node: Node, frame: Frame) -> Piece:
        """A list; one that a word keeps is made if the word is 0."""
        items = [self.of(part, frame.on(1)) + tails.push(frame.word) for part in node.parts]
        made = code("call 16", store(frame.word, "r0")) + joined(items)
        literals = literals_of(node)
        if literals not in frame.lists:
            return made
        word = FIRST_LIST + frame.lists.index(literals)
        return code(load("r0", word), jump("ne", "r0", 0, made.size + 1)) + made + code(store(word, "r0"))

    def literal(self, tree: Literal) -> Piece:
        if kind(tree.value) == "int":
            return code(lddw("r1", tree.value), "call 3")
        return code(*self.texts.operands(tree.value, ("r1", "r2")), "call 4")

    def use(self, name: str) -> Piece:
        """The value of a variable from its memo, or from its routine if that is empty."""
        number, routine = self.routines[name]
        memo = [lddw("r1", SCRATCH + 8 * number), load_at("r0", "r1", 0), "add64 r0, -1"]
        return code(*memo, jump("ne", "r0", -1, 1), Use(routine))

    def field(self, node: Node, frame: Frame) -> Piece:
        """A field, or whether there is one."""
        helper = 5 if isinstance(node.tree, Selection) else 6
        named = self.texts.operands(node.tree.field, ("r2", "r3"))
        return self.operand(node.parts[0], frame, "r1") + code(*named, f"call {helper}")

    def operand(self, node: Node, frame: Frame, register: str) -> Piece:
        """An operand into a register."""
        return simple(node, frame, register) or self.of(node, frame) + code(mov(register, "r0"))

    def operands(self, node: Node, frame: Frame, registers: tuple[Any, ...]) -> Piece:
        """Two operands into two registers."""
        left, right = node.parts
        last = simple(right, frame, registers[1])
        if last:
            return self.operand(left, frame, registers[0]) + last
        second = self.of(right, frame.on(1)) + code(mov(registers[1], "r0"))
        first = simple(left, frame, registers[0])
        if first:
            return second + first
        kept = self.of(left, frame) + code(store(frame.word, "r0"))
        return kept + second + code(load(registers[0], frame.word))

    def applied(self, node: Node, frame: Frame) -> Piece:
        """An operator, a function or a method."""
        tree = node.tree
        sign = tree.sign if isinstance(tree, Operation) else ""
        if sign in tails.DECIDING:
            return self.logic(node, frame)
        if len(node.parts) == 2:
            tail = tails.TESTS[tree.method] if isinstance(tree, Method) else tails.BINARY[sign]
            return self.operands(node, frame, tails.REGISTERS.get(sign, ("r1", "r2"))) + tail
        if isinstance(tree, Call) and tree.function == "dyn":
            return self.of(node.parts[0], frame)
        function = tree.function if isinstance(tree, Call) else "size"
        register, tail = tails.UNARY[sign] if sign else tails.FUNCTIONS[function]
        return self.operand(node.parts[0], frame, register) + tail

    def logic(self, node: Node, frame: Frame) -> Piece:
        decides, other = tails.DECIDING[node.tree.sign]
        left, right = self.of(node.parts[0], frame), self.of(node.parts[1], frame.on(1))
        between = code(jump("eq", "r0", decides, right.size + tails.ABSORBED), store(frame.word, "r0"))
        return left + between + right + tails.absorbing(decides, other, frame.word)

    def ternary(self, node: Node, frame: Frame) -> Piece:
        condition, chosen, other = (self.of(part, frame) for part in node.parts)
        to_other = jump("eq", "r0", tails.NO, chosen.size + 2)
        to_error = jump("ne", "r0", tails.YES, chosen.size + other.size + 2)
        over, error = code(ja(other.size + 2)), code(ja(1), mov("r0", 0))
        return condition + code(to_other, to_error) + chosen + over + other + error

    def map(self, node: Node, frame: Frame) -> Piece:
        made = code("call 18", store(frame.word, "r0"))
        for key, value in zip(node.parts[::2], node.parts[1::2]):
            made += self.of(key, frame.on(1)) + code(store(frame.word + 1, "r0"))
            made += self.of(value, frame.on(2)) + tails.put(frame.word)
        return made

    def macro(self, node: Node, frame: Frame) -> Piece:
        """A loop over the items of a range; its head is marked as the item."""
        word, tree = frame.word, node.tree
        inner = [self.of(part, frame.turn(tree.name)) for part in node.parts[1:]]
        turn = inner[0] + (folds.map_where_turn(inner[1], word) if len(inner) == 2 else folds.TURNS[tree.word](word))
        head = folds.loop_head(word, turn.size).marked(node, "r0", "item")
        loop = head + turn + folds.loop_tail(word, turn.size)
        first = code(folds.FIRST[tree.word])
        made = self.of(node.parts[0], frame) + folds.range_tail(word, first.size + loop.size)
        made = made + first + code(store(word + folds.ANSWER, "r0")) + loop
        return made + folds.EXISTS_ONE_END if tree.word == "exists_one" else made
