"""`entry` (docs/RULES.md, "Entry code"): the rules 51 to 54."""

from typing import Iterator, Optional

from check import graph_of
from commands import DONE, WARNINGS, Answer, answered, object_of
from elf import GLOBAL, R_32, R_32S, R_64, R_PC32, R_PLT32, Object, Place
from flow import SIBLING, Flow
from rules import Warning
from sites import Point
from texts import warning_text

NOINSTR = (b".noinstr.text", b".entry.text", b".cpuidle.text")
# Sections that tell of code, whose relocations take no address.
TELLING = {
    *(b".altinstructions", b".ibt_endbr_seal", b".orc_unwind_ip", b".parainstructions", b".retpoline_sites", b".return_sites", b".call_sites"),
    *(b".static_call_sites", b".cfi_sites", b".smp_locks", b"_error_injection_whitelist", b"_kprobe_blacklist", b"__bug_table"),
    *(b"__ex_table", b"__jump_table", b"__mcount_loc", b".kcfi_traps", b".eh_frame"),
}
# Instructions whose relocations take none.
TAKING_NONE = ("Call", "CallInd", "Jmp", "Jcc", "JmpInd", "Ret", "RetImm", "Nop")
# R_X86_64_GOTPCREL, R_X86_64_GOTPCRELX, R_X86_64_REX_GOTPCRELX.
TABLE_KINDS = (9, 41, 42)


def is_noinstr(object: Object, sec: int) -> bool:
    section = object.sections[sec]
    return section.is_text() and any(section.name == name or (section.name.startswith(name + b".") and len(section.name) > len(name) + 1) for name in NOINSTR)


def symbol_of(flow: Flow, place: Place) -> int:
    """The symbol of the function that holds the place, or -1."""
    function = flow.functions.at(place)
    return -1 if function is None else flow.functions.list[function].sym


def callees(flow: Flow, point: Point) -> Iterator[int]:
    """The symbols of what rule 51 is broken by at a point of code that isn't instrumented."""
    role = flow.role[point]
    if role.kind in ("CallIn", "CallEither") and not is_noinstr(flow.object, role.entry.sec):
        yield symbol_of(flow, role.entry)
    if role.kind in ("CallEither", "CallOut", "JumpOut"):
        yield role.sym
    if role.kind in ("CallAny", "JumpAny"):
        yield -1
    for edge in flow.edges[point]:
        if edge.kind == SIBLING and not is_noinstr(flow.object, flow.address[edge.to].sec):
            yield symbol_of(flow, edge.to.place)


def is_before_int3(flow: Flow, point: Point) -> bool:
    """Whether an INT3 stands right behind the point, in its own variant and section."""
    behind = Point(Place(point.place.sec, point.place.off + flow.insn[point].length), point.variant)
    return behind in flow.insn and flow.insn[behind].op == "Int3"


def place_from(object: Object, reloc, distance: int) -> Optional[Place]:
    """The place so far from the relocation's symbol."""
    named = object.named_place(reloc._replace(addend=0))
    off = None if named is None else named[1] + distance
    return Place(named[0], off) if off is not None and 0 <= off < 1 << 64 else None


def tells_of_code(name: bytes) -> bool:
    discarded = name.startswith(b".discard") and name != b".discard.ibt_endbr_noseal"
    return discarded or name.startswith(b".debug") or name in TELLING or b"__patchable_function_entries" in name


def is_trampoline(object: Object, sym: int) -> bool:
    symbol = object.symbols[sym] if sym < len(object.symbols) else None
    return symbol is not None and symbol.bind == GLOBAL and symbol.name.startswith(b"__SCT__")


def distance_of(object: Object, insns, reloc) -> Optional[int]:
    """How far from its symbol the place stands whose address a relocation takes, in code with these instructions, or in data without; None where it takes none."""
    if reloc.kind == 0:
        return None
    extra = 0
    if insns is not None:
        begin = max((off for off in insns if off <= reloc.offset), default=None)
        over = None if begin is None or begin + insns[begin].length <= reloc.offset else insns[begin]
        if is_trampoline(object, reloc.sym) or (over is not None and over.op in TAKING_NONE):
            return None
        if reloc.kind in (R_PC32, R_PLT32):
            if over is None:
                return None
            extra = begin + over.length - reloc.offset
    return 0 if reloc.kind in TABLE_KINDS else reloc.addend + extra


def taken_places(object: Object, code) -> set[Place]:
    """The places whose addresses are taken."""
    taken = set()
    for sec, relocs in object.relocs.items():
        section = object.sections[sec]
        if not section.is_text() and tells_of_code(section.name):
            continue
        insns = code.insns[sec] if section.is_text() else None
        for reloc in relocs:
            distance = distance_of(object, insns, reloc)
            taken.add(None if distance is None else place_from(object, reloc, distance))
    return taken - {None}


def excused_places(object: Object) -> set[Place]:
    """Those that go without an ENDBR all the same."""
    relocs = [reloc for sec, own in object.relocs.items() if object.sections[sec].name == b".discard.noendbr" for reloc in own]
    return {place_from(object, reloc, reloc.addend) for reloc in relocs if reloc.kind in (R_64, R_PC32, R_32, R_32S)} - {None}


def entry_warnings(flow: Flow, noinstr: bool, sls: bool, ibt: bool) -> list[Warning]:
    found = set()
    for point in flow.points:
        place, op = point.place, flow.insn[point].op
        if noinstr and is_noinstr(flow.object, flow.address[point].sec):
            found |= {Warning(place, 51, callee, 0) for callee in callees(flow, point)}
        if sls and op in ("Ret", "RetImm", "JmpInd") and not is_before_int3(flow, point):
            found.add(Warning(place, 53 if op == "JmpInd" else 52, 0, 0))
    if ibt:
        taken = taken_places(flow.object, flow.code) - excused_places(flow.object)
        for start in flow.entries:
            if start in taken and any(flow.insn[point].op != "Endbr" for point in flow.sites.arrive(start)):
                found.add(Warning(start, 54, 0, 0))
    return sorted(found)


def entry(data: bytes, rules: tuple[bool, bool, bool], whole: bool = False, names_file: Optional[bytes] = None) -> Answer:
    """The answer of `entry` where these of `--noinstr`, `--sls` and `--ibt` are given. Where none is, all are asked for."""

    def answer() -> Answer:
        object, names = object_of(data, names_file)
        flow = graph_of(object, names, whole)
        warnings = entry_warnings(flow, *(rules if any(rules) else (True, True, True)))
        return Answer(WARNINGS if warnings else DONE, [warning_text(object, warning) for warning in warnings])

    return answered(answer)
