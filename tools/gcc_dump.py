"""The dumps of GCC's RTL: their functions, the items of those, and the trees of their texts."""
import re
from dataclasses import dataclass

WITH_VECTORS = {"parallel", "unspec", "unspec_volatile", "sequence", "addr_vec", "addr_diff_vec", "asm_operands", "concatn"}


class Refused(Exception):
    """What the language lacks."""


@dataclass(frozen=True)
class Tree:
    """A code with its mode, its flags, and its parts: trees, texts, and tuples for vectors."""
    code: str
    mode: str
    parts: tuple
    flags: str = ""


@dataclass
class Item:
    """An instruction, a label or a barrier of a dump."""
    kind: str
    flags: str
    uid: int
    text: str


class Reader:
    """Reads the trees of a text, without the notes that GCC puts behind registers, addresses, numbers and names."""
    TOKEN = re.compile(r'\s*([()\[\]]|"(?:[^"\\]|\\.)*"|\{[^}]*\}|<[^>]*>|[^\s()\[\]"]+)')
    HEAD = re.compile(r"(\w+)((?:/\w)*)(?::(\w+))?$")

    def __init__(self, text):
        self.text = text
        self.place = 0

    def token(self):
        """The next token, which is passed."""
        found = self.TOKEN.match(self.text, self.place)
        if not found:
            raise Refused("text that is no tree")
        self.place = found.end()
        return found.group(1)

    def tree(self):
        """The tree whose parenthesis was passed; a text in parentheses is that text."""
        head = self.token()
        if head == ")":
            return Tree("", "", ())
        if head.startswith('"'):
            return self.rest_of_text(head)
        found = self.HEAD.match(head)
        if not found:
            raise Refused("text that is no tree")
        parts = []
        while (token := self.token()) != ")":
            if token == "(":
                parts.append(self.tree())
            elif token == "[":
                self.bracket(found.group(1), parts)
            elif not token.startswith(("<", "{")):
                parts.append(token)
        return Tree(found.group(1), found.group(3) or "", tuple(parts), found.group(2))

    def rest_of_text(self, text):
        """The text, with what stands behind it in its parentheses passed."""
        while self.token() != ")":
            pass
        return text[1:-1]

    def bracket(self, code, parts):
        """Adds the vector whose bracket was passed to the parts, or passes a note."""
        if code not in WITH_VECTORS:
            depth = 1
            while depth:
                depth += {"[": 1, "]": -1}.get(self.token(), 0)
            return
        vector = []
        while (token := self.token()) != "]":
            if token == "(":
                vector.append(self.tree())
        parts.append(tuple(vector))


FUNCTION = re.compile(r"^;; Function (.*) \((\S+?), funcdef_no=.*$", re.MULTILINE)
ITEM = re.compile(r"\((\w+)((?:/\w)*) (\d+) (\d+)")


def items_of(text):
    """The items of the last listing in the text of a function."""
    items = []
    for block in re.split(r"^(?=\()|^(?=;;)", text, flags=re.MULTILINE):
        found = ITEM.match(block)
        if not found:
            continue
        if found.group(4) == "0":
            items = []
        if found.group(1) not in ("note", "debug_insn"):
            items.append(Item(found.group(1), found.group(2), int(found.group(3)), block))
    return items


def functions_of(text):
    """The functions of a dump: the name in the source, the name in the assembly, and the items of each."""
    heads = list(FUNCTION.finditer(text))
    ends = [head.start() for head in heads[1:]] + [len(text)]
    return [(head.group(1).lstrip("*"), head.group(2).lstrip("*"), items_of(text[head.end():end]))
            for head, end in zip(heads, ends)]


def stack_usage(text):
    """How many bytes of stack each function has: its number, or None where that isn't known before it runs."""
    usage = {}
    for line in text.splitlines():
        place, size, kind = line.split("\t")
        name = place.rpartition(":")[2]
        known = kind == "static" and usage.get(name, 0) is not None
        usage[name] = max(int(size), usage.get(name, 0)) if known else None
    return usage


def number(tree):
    """The number of a constant, or None."""
    return int(tree.parts[0]) if tree.code == "const_int" else None


def constant(value):
    """The constant with that number, as 64 bits hold it."""
    return Tree("const_int", "", (str((value + 2**63) % 2**64 - 2**63),))


def is_pseudo(tree):
    """Whether it is a pseudo register: no word stands behind its number."""
    return tree.code == "reg" and len(tree.parts) == 1


def lowpart(mode, tree):
    """The low part of a register, or of a low part of one."""
    return Tree("subreg", mode, (tree.parts[0] if tree.code == "subreg" else tree, "0"))


def settings_of(pattern):
    """The effects of a pattern, without what it uses or clobbers beside them."""
    if pattern.code != "parallel":
        return [pattern]
    return [part for part in pattern.parts[0] if part.code not in ("use", "clobber")]


def within(tree):
    """The tree, and every tree in it."""
    yield tree
    for part in tree.parts:
        for inner in part if isinstance(part, tuple) else (part,):
            if isinstance(inner, Tree):
                yield from within(inner)
