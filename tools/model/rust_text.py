"""Operations and states as Rust prints them, for comparisons with programs over the libraries."""

from states import Ended, Live

NUMBERS = {"AddSp": "by", "AndSp": "mask", "LeaSpBp": "by", "LeaBpSp": "by", "StoreBp": "at", "LoadBp": "at", "Call": "rel"}


def option(value) -> str:
    return "None" if value is None else f"Some({value})"


def op_text(insn) -> str:
    """The operation of an instruction."""
    if insn.op in NUMBERS:
        return f"{insn.op} {{ {NUMBERS[insn.op]}: {insn.value} }}"
    if insn.op in ("Jmp", "Jcc"):
        return f"{insn.op} {{ rel: {insn.value}, wide: {str(insn.wide).lower()} }}"
    return f"JmpInd {{ table: {option(insn.value)} }}" if insn.op == "JmpInd" else insn.op


def state_text(state) -> str:
    if isinstance(state, Ended):
        return "Ended(Undefined)" if state.kind == 0 else "Ended(EndOfStack)"
    if isinstance(state, Live):
        depth = f"{'AtLeast' if state.at_least else 'Known'}({state.depth})"
        home = "Same" if state.saved is None else f"Saved({state.saved})"
        return f"Live {{ depth: {depth}, fp: {option(state.fp)}, bp: {home} }}"
    return f"Regs {{ full: {str(state.full).lower()}, depth: {state.depth} }}"
