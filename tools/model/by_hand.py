"""What compilers don't write, but those who write a kernel by hand: runs of no-ops in sites, hints where sites start, code that loses its
stack or switches tasks, code that returns for its caller, and code of no function that functions call and that jumps to functions."""

import random

from assemble import Label
from bodies import JCC, PLAIN, Body, Frame
from elf import GLOBAL, LOCAL, NOTYPE, OBJECT, WEAK
from uaccess import SMAP

# What loses rsp or rbp, and loads of rsp that are a switch of tasks or look like one.
LOSES = "488b27 4889c4 5c c9 5d 31ed 4883c470 4883e4f0 4829c4 488d642440 4883ec08".split()
LOADS = "488b26 498b26 488b6608 488b24c6 488ba600010000 65488b26 668b26 4c8b26 8b26 4889f4 67488b26 f3488b26".split()
LOOSE = ["loose_one", "asm_exc_nmi", "sev_verify_cbit", "restore_registers", "wakeup_long64", "rewind_stack_and_make_dead"]
SWITCHING = ["__switch_to_asm"] * 4 + ["switch_one"]
RETURNING = ["srso_safe_ret", "srso_alias_safe_ret", "retbleed_return_thunk"]
# Instructions within which code lies that returns for its caller, and where it begins.
EMBEDDED = [("48b8488d642408c3cccc", 2), ("f6c3cc", 1), ("b8c3000000", 1)]
# The kinds of hints where code of no function begins that is called, or none.
CALLED = [5, 5, 5, 0, 1, 2, 2, 3, 4, 4, 6, None]


def run_of_nops(world, body: Body, frame: Frame) -> None:
    """A site over no-ops of a byte, to some of which branches of the site lead, and what may stand in it: it agrees with the original where
    the runs end, or not."""
    asm, rng, sec = world.asm, world.rng, body.sec
    start, inner = asm.here(sec), [asm.here(sec)]
    # The pieces of a replacement: no-ops of so many bytes, or the same two instructions.
    pieces: list = []
    for piece in rng.choice(("n", "n", "n", "nb", "nbn", "bn", "nfn", "npn", "npn")):
        if piece == "n":
            pieces.append(rng.choice((1, 2, 2, 3, 5)))
            for _ in range(pieces[-1]):
                body.emit("90")
                inner.append(asm.here(sec))
        elif piece == "b":
            pieces.append(2)
            body.emit(rng.choice(("7500", "7400", "7f00")))
            asm.distances.append((sec, asm.end(sec) - 1, 1, rng.choice((inner[0], rng.choice(inner)))))
        else:
            pieces.append("9c58" if piece == "p" else 2)
            body.emit("9c58" if piece == "p" else "6690")
    length = asm.end(sec) - start.off
    if rng.random() < 0.04:
        asm.branch(sec, rng.choice(JCC), rng.choice(inner))
    if rng.random() < 0.05:
        world.hint_at(rng.choice(inner), rng.choice((2, 6)), frame.depth)
    for _ in range(rng.choice((1, 1, 2))):
        code = world.replacement()
        there = asm.here(code)
        for piece in pieces:
            fill_piece(world, code, piece)
        world.entry(start, length, there, asm.end(code) - there.off)


def fill_piece(world, code: int, piece) -> None:
    """What stands in the place of so many no-ops: others, a push and its pop, or clac."""
    if not isinstance(piece, int):
        world.asm.emit(code, piece)
        return
    inside = world.rng.choice([inside for inside in ("", "9c58", "0f01ca") if len(inside) <= 2 * piece])
    rest = piece - len(inside) // 2
    before = world.rng.randint(0, rest)
    world.fill(code, before)
    if inside:
        world.asm.emit(code, inside)
    world.fill(code, rest - before)


def hinted_site(world, body: Body, frame: Frame) -> None:
    """A hint where a site starts, which tells what comes there otherwise, or nothing of it; a replacement may have one of its own."""
    asm, rng = world.asm, world.rng
    restores = frame.saved is not None or frame.realigned or rng.random() < 0.3
    if restores:
        world.hint(body, 6)
        body.emit("90")
    # (what leaves another stack behind)
    body.emit(rng.choice(("90", "90", "50", "4883ec08", "4889c4", "5c")))
    start = asm.here(body.sec)
    world.hint(body, 7) if restores else world.hint(body, 2, frame.depth)
    length = rng.choice((2, 3, 5))
    world.fill(body.sec, length)
    for _ in range(rng.choice((1, 1, 2))):
        code = world.replacement()
        there = asm.here(code)
        world.fill(code, rng.choice((length, length, rng.randint(0, length))))
        if rng.random() < 0.1 and asm.end(code) > there.off:
            world.hint_at(there, rng.choice((6, 6, 2, 7)), frame.depth)
        world.entry(start, length, there, asm.end(code) - there.off)


def gate_in_a_site(world, body: Body) -> None:
    """An interrupt's gate whose first instruction may be another one."""
    asm, rng = world.asm, world.rng
    start = asm.here(body.sec)
    world.hint(body, 4, 8, 1)
    body.emit(rng.choice(("909090", "0f1f00", "90")))
    length = asm.end(body.sec) - start.off
    code = world.replacement()
    there = asm.here(code)
    asm.emit(code, rng.choice(("0f01ca", "0f01ca", "0f01cb")) if length == 3 else "90")
    world.entry(start, length, there, asm.end(code) - there.off, rng.choice((1, SMAP)))
    body.emit("58")
    body.emit("48cf")


def loose_function(world, body: Body, frame: Frame) -> None:
    """Code that loses its stack somewhere; it may be told again by a hint, which may say what can't be read."""
    rng = world.rng
    body.block(frame, 1)
    for _ in range(rng.choice((1, 1, 2))):
        body.emit(rng.choice(LOSES))
        frame.lost += 1
        body.block(frame, 0)
    if rng.random() < 0.4:
        kind, reg = rng.choice((2, 3, 4, 5)), rng.choice((5, 5, 2, 4))
        world.hint(body, kind, rng.choice((8, 8, 8, 0)), rng.choice((0, 1)), reg)
        frame.lost += 1
        body.block(frame, 0)


def switching_function(body: Body) -> None:
    rng = body.rng
    saves = rng.random() < 0.8
    for code in ["55", "53"] if saves else []:
        body.emit(code)
    body.emit("488927")
    body.emit(rng.choice(LOADS) if rng.random() < 0.25 else LOADS[0])
    for code in ["5b", "5d"] if saves else []:
        body.emit(code)


def embedded_code(world, body: Body) -> None:
    """Code that returns for its caller, within an instruction or as one's own begin."""
    asm, rng = world.asm, world.rng
    name = rng.choice(RETURNING)
    if rng.random() < 0.8:
        world.hint(body, 5)
    if rng.random() < 0.85:
        code, within = rng.choice(EMBEDDED)
        label = body.place(body.emit(code) + within)
    else:
        label = asm.here(body.sec)
        body.emit("90")
    body.emit("c3")
    asm.define(name, label, rng.choice((8, 1, 0)), rng.choice((GLOBAL, GLOBAL, WEAK, LOCAL)), NOTYPE)
    world.returning.append((name, label))


def goes_by_caller(world, body: Body) -> None:
    """A call of code that returns for its caller, or a jump there."""
    asm, rng = world.asm, world.rng
    name, label = rng.choice(world.returning)
    opcode = rng.choice(("e8", "e8", "e9", rng.choice(JCC)))
    if rng.random() < 0.7:
        asm.branch_out(body.sec, opcode, name)
    else:
        asm.branch(body.sec, opcode, label, relocated=rng.random() < 0.5)
    body.emit(rng.choice(("0f0b", "0f0b", "cc")) if opcode in ("e8", "e9") else "c3")


def called_code(world, body: Body) -> None:
    """Code of no function that functions may call: a hint tells its frame, or ends the stack, or none does."""
    asm, rng = world.asm, world.rng
    name = rng.choice(("bare_one", "bare_one", "bare_two", "bare_two", "memset", "int80_emulation", "int80_emulation", "rest_init"))
    label = asm.here(body.sec)
    kind = rng.choice(CALLED)
    if kind is not None:
        world.hint(body, kind, {2: 8, 3: 0, 4: 0}.get(kind, 0), int(kind in (3, 4)))
    if rng.random() < 0.25:
        start, length = asm.here(body.sec), rng.choice((2, 3))
        world.fill(body.sec, length)
        code = world.replacement()
        there = asm.here(code)
        world.fill(code, rng.randint(0, length))
        world.entry(start, length, there, asm.end(code) - there.off)
    body.block(Frame(), 0)
    for code in ["415f", "415e", "415d", "415c", "5d", "5b", "4883c450"] if kind == 3 else []:
        body.emit(code)
    body.emit("48cf" if kind in (3, 4) else rng.choice(("c3",) * 8 + ("ebfe", "0f0b")))
    bind = rng.choice((GLOBAL,) * 7 + (WEAK, WEAK, LOCAL))
    asm.define(name, label, rng.choice((asm.end(label.sec) - label.off, 0)), bind, rng.choice((NOTYPE, NOTYPE, NOTYPE, OBJECT)))
    world.bare.append((name, label))


def call_of_called_code(world, body: Body) -> None:
    rng = world.rng
    name, label = rng.choice(world.bare)
    if rng.random() < 0.92:
        world.asm.branch_out(body.sec, "e8", name)
    else:
        world.asm.branch(body.sec, "e8", label, relocated=rng.random() < 0.5)


def joined_jump(world, body: Body) -> None:
    """Code of no function that goes to a function by its name."""
    asm, rng = world.asm, world.rng
    kind = rng.choice((0, 1, 1, 1, 4, 4, 4, 5))
    world.hint(body, kind, {2: 8, 4: rng.choice((0, 8))}.get(kind, 0), int(kind == 4))
    for _ in range(rng.randint(0, 2)):
        body.emit(rng.choice((*PLAIN, "53", "0f01ca")))
    opcode = rng.choice(("e9", "e9", rng.choice(JCC)))
    if world.names and rng.random() < 0.9:
        asm.branch_out(body.sec, opcode, rng.choice(world.names))
    elif world.functions:
        asm.branch(body.sec, opcode, rng.choice(world.functions), relocated=rng.random() < 0.5)
    if opcode != "e9":
        body.emit(rng.choice(("0f0b", "48cf", "c3")))


def hole(world, body: Body, name: str) -> None:
    """What a linker leaves of a definition that it drops: code without a symbol, and a part of it."""
    asm, rng = world.asm, world.rng
    asm.files = rng.choice((asm.files, 2, 3))
    part = None
    for _ in range(rng.randint(1, 3)):
        body.emit(rng.choice((*PLAIN, "53", "5b", "90")))
    if rng.random() < 0.5:
        sec = asm.section(".text.unlikely")
        part = asm.here(sec)
        for _ in range(rng.randint(1, 3)):
            asm.emit(sec, rng.choice((*PLAIN, "0f0b")))
        asm.emit(sec, "c3")
        asm.define(f"{name}.cold", part, asm.end(sec) - part.off, LOCAL)
        asm.branch(body.sec, rng.choice(("e9", rng.choice(JCC))), part)
    if part is None or rng.random() < 0.5:
        body.emit("c3")


def odd_label(world, body: Body, start: Label, is_loose: bool) -> None:
    """A name that tells of code without making it a function."""
    asm, rng = world.asm, world.rng
    size = asm.end(start.sec) - start.off
    odd = rng.random() < 0.15
    name = rng.choice((*LOOSE, *SWITCHING, "f0", "f1") if odd or not is_loose else LOOSE[1:])
    size = max(0, size - rng.choice((0, 2, size))) if odd else size
    asm.define(name, start, size, rng.choice((GLOBAL, LOCAL)), rng.choice((NOTYPE, OBJECT)) if odd else NOTYPE)


def name_by_hand(rng: random.Random, kind: str, name: str) -> str:
    """The name of a function of this kind, which may be one that tells what it is."""
    names = {"loose": LOOSE, "switch": SWITCHING}.get(kind)
    return rng.choice(names) if names and rng.random() < 0.9 else name


