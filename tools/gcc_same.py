"""Trees that mean the same as others of GCC's RTL and are in the language, or are shorter there. A word is a value of 32 bits."""
from gcc_dump import Refused, Tree, constant, is_pseudo, lowpart, number, settings_of, within

MODES = {"QI": 8, "HI": 16, "SI": 32, "DI": 64}
SUMS = {"plus", "minus", "mult", "div", "mod", "udiv", "umod", "neg"}
LOGIC = {"and", "ior", "xor", "not"}
SHIFTS = {"ashift", "ashiftrt", "lshiftrt"}
OPERATIONS = SUMS | LOGIC | SHIFTS
SIGNED_OPERATIONS = {"div", "mod", "ashiftrt", "lt", "le", "gt", "ge"}
UNSIGNED_OPERATIONS = {"udiv", "umod", "lshiftrt", "ltu", "leu", "gtu", "geu"}
REVERSED = {"eq": "ne", "ne": "eq", "lt": "ge", "ge": "lt", "le": "gt", "gt": "le",
            "ltu": "geu", "geu": "ltu", "leu": "gtu", "gtu": "leu"}
EXCHANGED = {"eq": "eq", "ne": "ne", "lt": "gt", "gt": "lt", "le": "ge", "ge": "le",
             "ltu": "gtu", "gtu": "ltu", "leu": "geu", "geu": "leu"}


class Extended:
    """Which registers of mode DI always hold the sign extension of their low 32 bits."""

    def __init__(self, patterns):
        self.sources = {}
        promised = set()
        for pattern in patterns:
            for tree in within(pattern):
                if tree.code == "set":
                    self.note(*tree.parts)
                elif tree.code == "subreg" and "/s" in tree.flags and "/u" in tree.flags and tree.mode == "SI":
                    promised.update(tree.parts[0].parts[:1])
        self.known = set(self.sources)
        while lost := {name for name in self.known - promised if not all(map(self.holds, self.sources[name]))}:
            self.known -= lost
        self.known |= promised

    def note(self, target, source):
        """Notes what a register of mode DI is set to. What sets a part of it extends that part."""
        if target.code == "subreg" and is_pseudo(target.parts[0]):
            target, source = target.parts[0], Tree("sign_extend", "DI", (Tree("", target.mode, ()),))
        if is_pseudo(target) and target.mode == "DI":
            self.sources.setdefault(target.parts[0], []).append(source)

    def holds(self, tree):
        """Whether the value of a tree is the sign extension of its low 32 bits, where that is so of the registers known and of
        words."""
        if (value := number(tree)) is not None:
            return -2**31 <= value < 2**31
        if tree.mode == "SI":
            return True
        if tree.code == "reg":
            return is_pseudo(tree) and tree.parts[0] in self.known
        if tree.code == "subreg":
            return tree.mode == "DI" and tree.parts[0].mode in ("QI", "HI", "SI")
        if tree.code == "zero_extend":
            return tree.parts[0].mode != "SI" or is_shifted_down(tree.parts[0])
        if tree.code == "and" and any(0 <= (number(part) or -1) < 2**31 for part in tree.parts):
            return True
        if tree.code in ("ashiftrt", "lshiftrt"):
            count = number(tree.parts[1]) or 0
            return count > 32 or tree.code == "ashiftrt" and (count == 32 or self.holds(tree.parts[0]))
        if tree.code in LOGIC:
            return all(map(self.holds, tree.parts))
        return tree.code == "sign_extend" or tree.code in REVERSED


def is_shifted_down(tree):
    """Whether it is a word with a zero shifted into its upper end."""
    return tree.code == "lshiftrt" and tree.mode == "SI" and 0 < (number(tree.parts[1]) or 0) < 32


def is_blockage(pattern):
    """Whether it only keeps GCC from moving what stands around it."""
    effects = settings_of(pattern)
    if len(effects) == 1 and effects[0].code == "asm_operands":
        return effects[0].parts[0].strip() == "" and "" == effects[0].parts[1]
    return pattern.code == "unspec_volatile" and "UNSPECV_BLOCKAGE" in pattern.parts


def bare(label):
    """A label without its mode."""
    return Tree("label_ref", "", label.parts)


def extension_of(mode, tree, inner_mode):
    """An extension whose upper bits are open: of a byte that by zeros, which is the shortest."""
    return Tree("zero_extend" if inner_mode == "QI" else "sign_extend", mode, (tree,))


def whole_of(tree):
    """The register of which a word is the low part, or the tree."""
    if tree.code == "subreg" and tree.parts[0].mode == "DI" and tree.parts[1] == "0":
        return tree.parts[0]
    return tree


def narrow_operand(tree, mode, code):
    """An operand narrower than a word as a word, extended as the operation asks."""
    value, width = number(tree), MODES[mode]
    if value is not None:
        return constant(value % 2**width if code in UNSIGNED_OPERATIONS else value)
    if code in SIGNED_OPERATIONS or code in UNSIGNED_OPERATIONS:
        return Tree("sign_extend" if code in SIGNED_OPERATIONS else "zero_extend", "SI", (tree,))
    return extension_of("SI", tree, mode)


def widened(tree):
    """A word whose low part is the value of an operation that is narrower."""
    code, mode = tree.code, tree.mode
    if code in ("sign_extend", "zero_extend") or code in REVERSED:
        return Tree(code, "SI", tree.parts)
    if code not in OPERATIONS:
        raise Refused(f"{code} of mode {mode}")
    parts = [narrow_operand(part, mode, code) for part in tree.parts]
    if code in SHIFTS:
        count = number(tree.parts[1])
        if count is None:
            raise Refused(f"a shift of mode {mode} by a register")
        parts[1] = constant(count % MODES[mode])
    return Tree(code, "SI", tuple(parts))


def shifts_of_extract(tree):
    """The bits of an extract as a shift to the upper end and one down; those from a place on to the upper end of a word as one
    shift of the word."""
    inner, size, place = tree.parts[0], number(tree.parts[1]), number(tree.parts[2])
    width = MODES[inner.mode] if inner.mode in ("SI", "DI") else 0
    if size is None or place is None or not width or inner.mode != tree.mode:
        raise Refused(tree.code)
    if tree.code == "zero_extract" and width == 64 and place and size + place == 32:
        word = inner.parts[0] if inner.code == "subreg" and inner.parts[0].mode == "SI" else lowpart("SI", inner)
        return Tree("zero_extend", "DI", (Tree("lshiftrt", "SI", (word, constant(place))),))
    up = Tree("ashift", inner.mode, (inner, constant(width - size - place))) if size + place < width else inner
    return Tree("lshiftrt" if tree.code == "zero_extract" else "ashiftrt", inner.mode, (up, constant(width - size)))


def shifts_of_mask(tree):
    """A word that is extended by zeros and shifted up, as two shifts, which is the shortest; else None."""
    first, second = tree.parts[0], tree.parts[-1]
    amount = None
    if tree.code == "and" and first.code == "ashift" and number(second) is not None:
        amount = number(first.parts[1])
        if amount is None or number(second) != 0xFFFFFFFF << amount:
            return None
        first = first.parts[0]
    elif tree.code == "ashift" and first.code == "zero_extend" and first.parts[0].mode == "SI":
        amount, first = number(second), Tree("subreg", "DI", (first.parts[0], "0"))
    if amount is None or tree.mode != "DI" or not 0 < amount < 32:
        return None
    return Tree("lshiftrt", "DI", (Tree("ashift", "DI", (first, constant(32))), constant(32 - amount)))


def tested_bits(tree):
    """A test of bits against zero as one of a shifted register: of its sign where it is one bit."""
    extract, zero = tree.parts
    if extract.code != "zero_extract" or number(zero) != 0 or tree.code not in ("eq", "ne") or extract.mode != "DI":
        return tree
    inner, size, place = extract.parts[0], number(extract.parts[1]), number(extract.parts[2])
    if size is None or place is None or size != 1 and place != 0:
        return tree
    up = 64 - size - place
    shifted = Tree("ashift", "DI", (inner, constant(up))) if up else inner
    signs = {"eq": "ge", "ne": "lt"} if size == 1 else {"eq": "eq", "ne": "ne"}
    return Tree(signs[tree.code], "", (shifted, zero))


def less_than_next(tree):
    """A comparison by `at most` with a constant, as one by `less` with the next, which one instruction of the machine does."""
    left, right = tree.parts
    value = number(right)
    if tree.code not in ("le", "leu") or value is None or not -2048 <= value < 2047 or (tree.code, value) == ("leu", -1):
        return tree
    return Tree({"le": "lt", "leu": "ltu"}[tree.code], tree.mode, (left, constant(value + 1)))
