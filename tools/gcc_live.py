"""Which registers live in front of each item of a function."""
from gcc_dump import Tree, settings_of, within

ARGUMENTS = {f"a{number}" for number in range(8)}


def registers(tree):
    """The pseudo registers and the registers of arguments that a tree names, by their numbers."""
    return {inner.parts[0] for inner in within(tree)
            if inner.code == "reg" and (len(inner.parts) == 1 or inner.parts[1] in ARGUMENTS)}


def set_and_read(instruction):
    """The registers that an instruction sets, and those that it reads. A part is set with the whole."""
    pattern, *others = [part for part in instruction.parts if isinstance(part, Tree)]
    done, read = set(), set()
    for effect in settings_of(pattern):
        target, source = effect.parts if effect.code == "set" else (None, effect)
        inner = target.parts[0] if target and target.code == "subreg" else target
        if inner and inner.code == "reg":
            done |= registers(inner)
            target = None
        read |= registers(source) | (registers(target) if target else set())
    if instruction.code == "call_insn" and others:
        read |= registers(others[-1])
    return (set(), set()) if pattern.code == "clobber" else (done, read)


def live_before(items, instructions):
    """The registers that live in front of each item, and behind the last. Behind a barrier nothing goes on."""
    places = {item.uid: at for at, item in enumerate(items) if item.kind == "code_label"}
    effects = {uid: set_and_read(tree) for uid, tree in instructions.items()}
    labels = {uid: [places[int(inner.parts[0])] for inner in within(tree)
                    if inner.code == "label_ref" and int(inner.parts[0]) in places]
              for uid, tree in instructions.items() if tree.code == "jump_insn"}
    live, before = [set() for _ in range(len(items) + 1)], None
    while live != before:
        before = list(live)
        for at in range(len(items) - 1, -1, -1):
            item = items[at]
            behind = set() if item.kind == "barrier" else set(live[at + 1])
            for place in labels.get(item.uid, ()):
                behind |= live[place]
            done, read = effects.get(item.uid, (set(), set()))
            live[at] = (behind - done) | read
    return live
