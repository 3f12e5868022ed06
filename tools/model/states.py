"""Abstract states of the stack, how an instruction moves them, and which state is kept for each point.

A state tells of the innermost frame where rsp and rbp are. `cfa` is the value of rsp before the frame's call. docs/DEFINITIONS.md has
the same under `state_defs`, and the states that are kept under `machine_defs`.
"""

from functools import lru_cache
from typing import NamedTuple, Optional, Union

from opcodes import Insn
from remembered import remembered
from special import CALL, END_OF_STACK, FUNC, REGS, REGS_PARTIAL, RESTORE, SAVE, UNDEFINED, Hint

MOST_DEPTH = 1_073_741_824
# Of a whole set of saved registers: where rbp is saved, by its distance from their address, and where the interrupted ip.
FULL_BP, FULL_IP = 32, 128


class Live(NamedTuple):
    """rsp is cfa - depth, or with `at_least` no deeper than that is known; rbp is cfa - fp; the caller's rbp is saved at cfa - saved,
    or still in rbp where nothing is."""

    at_least: bool
    depth: int
    fp: Optional[int]
    saved: Optional[int]


class Ended(NamedTuple):
    """A hint has ended the stack: of kind UNDEFINED or END_OF_STACK."""

    kind: int


class Regs(NamedTuple):
    """The registers of what was interrupted are saved at rsp + depth: all of them, or the five words that an iret takes."""

    full: bool
    depth: int


State = Union[Live, Ended, Regs]
INITIAL = Live(False, 8, None, None)


@lru_cache(maxsize=10_000)
def order(state: State) -> tuple:
    """States come in the order of their kinds and fields; what is absent comes first."""
    if isinstance(state, Live):
        absent_first = [(number is not None, number or 0) for number in (state.fp, state.saved)]
        return 0, state.at_least, state.depth, *absent_first
    return (1, state.kind) if isinstance(state, Ended) else (2, *state)


class Broken(Exception):
    """The instruction can't be followed: the number of the rule that it breaks."""

    def __init__(self, rule: int):
        super().__init__(rule)
        self.rule = rule


def move(state: State, insn: Insn) -> State:
    """The state after the instruction. Raises Broken."""
    after = moved(state, insn.op, insn.value)
    if isinstance(after, Broken):
        raise Broken(after.rule)
    return after


@lru_cache(maxsize=10_000)
def moved(state: State, op: str, value: Optional[int]) -> Union[State, Broken]:
    """The state after an instruction with this operation and number, or what it breaks."""
    if isinstance(state, Ended):
        return state
    try:
        after = move_regs(state, op, value) if isinstance(state, Regs) else move_live(state, op, value)
    except Broken as broken:
        return Broken(broken.rule)
    numbers = [after.depth] if isinstance(after, Regs) else [after.depth, after.fp or 0, after.saved or 0]
    return Broken(10) if any(abs(number) > MOST_DEPTH for number in numbers) else after


def move_live(state: Live, op: str, value: Optional[int]) -> Live:
    at_least, depth, fp, saved = state
    if op in ("Push", "Hop"):
        return state._replace(depth=depth + 8)
    if op == "PushBp":
        return state._replace(depth=depth + 8, saved=depth + 8 if saved is None else saved)
    if op in ("Pop", "Popf"):
        return raise_sp(state, 8)
    if op == "AddSp":
        return raise_sp(state, value)
    if op == "IretNext":
        return go_behind_iret(state)
    if op == "PopBp":
        return pop_bp(state)
    if op == "AndSp":
        ask(fp is not None, 9)
        return state._replace(at_least=True)
    if op == "LeaSpBp":
        ask(fp is not None, 9)
        ask(fp - value >= (8 if saved is None else saved), 11)
        return state._replace(at_least=False, depth=fp - value)
    if op in ("LeaBpSp", "LeaBpRoom"):
        known_and_saved(state)
        is_base = depth - value == saved
        # Where room is made below the base, the depth is told alike on all paths.
        return state._replace(fp=saved if is_base else None, at_least=is_base and op == "LeaBpRoom")
    if op in ("SubSp", "SpReg"):
        ask(fp is not None, 7)
        return state._replace(at_least=True)
    if op == "StoreBp":
        fits = saved is None and 16 <= depth - value <= depth
        return state._replace(saved=depth - value) if fits else state
    if op == "LoadBp":
        known_and_saved(state)
        return state._replace(fp=None, saved=None if depth - value == saved else saved)
    if op == "Leave":
        return leave(state)
    if op == "BpOther":
        known_and_saved(state)
        return state._replace(fp=None)
    ask(op != "SpOther", 7)
    return state


def ask(good: bool, rule: int) -> None:
    if not good:
        raise Broken(rule)


def known_and_saved(state: Live) -> None:
    """What is asked before rbp is written."""
    ask(state.saved is not None, 8)
    ask(not state.at_least, 9)


def raise_sp(state: Live, by: int) -> Live:
    """rsp must not pass the saved slot, nor the return address."""
    depth = state.depth - by
    lost = state.at_least or state.saved is None
    ask(depth >= (8 if state.saved is None else state.saved), 9 if lost else 11)
    return state._replace(depth=depth)


def go_behind_iret(state: Live) -> Live:
    """An iret to the next instruction takes the five words that were pushed for it."""
    try:
        return raise_sp(state, 40)
    except Broken:
        raise Broken(15) from None


def pop_bp(state: Live) -> Live:
    known_and_saved(state)
    depth = state.depth - 8
    if state.depth == state.saved:
        return Live(False, depth, None, None)
    ask(depth >= state.saved, 11)
    return Live(False, depth, None, state.saved)


def leave(state: Live) -> Live:
    fp, saved = state.fp, state.saved
    ask(fp is not None, 9)
    if fp == saved:
        return Live(False, fp - 8, None, None)
    ask(saved is not None and fp - 8 >= saved, 11)
    return Live(False, fp - 8, None, saved)


def move_regs(state: Regs, op: str, value: Optional[int]) -> Regs:
    full, depth = state
    if op in ("Push", "PushBp", "Hop"):
        return Regs(full, depth + 8)
    if op in ("Pop", "Popf", "AddSp"):
        return raise_sp_regs(state, value if op == "AddSp" else 8)
    if op == "PopBp":
        ask(full, 8)
        # From here on the saved rbp is back in rbp, and what is left to tell are the words that iret takes.
        return Regs(False, FULL_IP - FULL_BP - 8) if depth == -FULL_BP else raise_sp_regs(state, 8)
    if op in ("LeaBpSp", "LeaBpRoom", "LoadBp", "BpOther"):
        ask(full, 8)
    ask(op not in ("AndSp", "LeaSpBp", "Leave"), 9)
    ask(op not in ("SpOther", "SubSp", "SpReg"), 7)
    ask(op != "IretNext", 15)
    return state


def raise_sp_regs(state: Regs, by: int) -> Regs:
    depth = state.depth - by
    ask(depth >= (-FULL_BP if state.full else 0), 11)
    return state._replace(depth=depth)


def hint_state(hint: Hint) -> Optional[State]:
    """The state that a hint sets; SAVE and RESTORE set none of their own."""
    if hint.kind in (UNDEFINED, END_OF_STACK):
        return Ended(hint.kind)
    if hint.kind in (REGS, REGS_PARTIAL):
        return Regs(hint.kind == REGS, hint.sp_offset)
    return {CALL: Live(False, hint.sp_offset, None, None), FUNC: INITIAL, SAVE: None, RESTORE: None}[hint.kind]


def set_state(flow, point) -> Optional[State]:
    hint = flow.hint(point)
    return hint_state(hint) if hint is not None else None


def loses_stack(flow, point, broken: Broken) -> bool:
    """Whether the stack is lost there without a warning: in loose code, by what is done to rsp or rbp."""
    return point in flow.loose and broken.rule in (7, 8, 9, 11)


def brought_along(flow, point, state: State):
    """What a point with this state brings along its edges: each edge, with the state in which control comes to its head.

    An exception leaves the state as it was before the instruction. A Sibling edge leaves the function and brings nothing. Loose code that
    can't be followed ends the stack.
    """
    try:
        after = move(state, flow.insn[point])
    except Broken as broken:
        after = Ended(UNDEFINED) if loses_stack(flow, point, broken) else None
    for edge in flow.edges[point]:
        if edge.kind == "Fixup":
            yield edge, state
        elif edge.kind != "Sibling" and after is not None:
            yield edge, after


def brought(flow, point, state: State):
    """The same by the heads of the edges."""
    for edge, there in brought_along(flow, point, state):
        yield edge.to, there


@remembered
def kept_states(flow) -> dict:
    """The state that is kept for each point that is reached."""
    return {point: state for level in kept_levels(flow) for point, state in level.items()}


@remembered
def kept_levels(flow) -> list[dict]:
    """The points that are kept, each with its state, by the level on which it is kept first.

    Level 0 are the entries and the hinted points whose hint sets a state. A later level are the points that the level before comes
    to and that have no state yet, each with the least state that comes to it; and the RESTOREs of that level's SAVEs, with the same
    states.
    """
    restored: dict = {}
    for restore, save in flow.saves().items():
        restored.setdefault(save, []).append(restore)
    level = {}
    for entry in flow.entries:
        level.update((point, INITIAL) for point in flow.sites.arrive(entry) if not flow.is_restore(point))
    level.update((point, set_state(flow, point)) for point in flow.points if set_state(flow, point) is not None)
    level = {point: state for point, state in level.items() if not flow.is_unchecked(flow.owner[point])}
    kept: set = set()
    levels = []
    while level:
        levels.append(level)
        kept.update(level)
        following: dict = {}
        for point, state in level.items():
            for head, new in brought(flow, point, state):
                if head in kept or flow.is_restore(head) or flow.is_unchecked(flow.owner[head]):
                    continue
                following[head] = min(following.get(head, new), new, key=order)
            for restore in restored.get(point, []):
                following[restore] = state
        level = following
    return levels
