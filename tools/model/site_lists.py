"""`sites` and `list` (docs/FORMATS.md, "Site lists"): which branches a kernel patches, how sections list them, and what is read of them."""

import struct
from typing import Optional

import elf
from commands import DONE, Answer, answered, first_named, lacking_symbols, object_of, read_code, refuse_sections, text_of_symbol
from elf import ALLOC, ENTRY, GLOBAL, INFO_LINK, PROGBITS, R_PC32, RELA, SHN_LORESERVE, SYMTAB_SHNDX, Object, Place, Reloc
from elf_make import NewSection
from output import append, with_section_symbols
from texts import Refused, place_text

LISTS = {"retpoline": b".retpoline_sites", "return": b".return_sites", "call": b".call_sites"}
NAMES = tuple(prefix + name for name in LISTS.values() for prefix in (b"", b".rela"))


def is_static_call(read, place: Place, insn) -> bool:
    """Whether a call names a trampoline: the symbol of the first relocation on its last four bytes, which is GLOBAL, and where it goes is known for sure."""
    if read.functions.branch_target(place, insn).kind not in ("inside", "outside"):
        return False
    field = place.off + insn.length - 4
    sym = next((reloc.sym for reloc in read.object.relocs.get(place.sec, []) if reloc.offset == field), None)
    return sym is not None and read.object.symbols[sym].bind == GLOBAL and read.object.symbols[sym].name.startswith(b"__SCT__")


def sites_of(read, module: bool) -> dict[str, list[Place]]:
    """The places of each list, ascending; calls of start-up code only where the object is part of a module."""
    found: dict[str, list[Place]] = {kind: [] for kind in LISTS}
    object = read.object
    if not object.symbols:
        return found
    has_numbers = any(section.kind == SYMTAB_SHNDX for section in object.sections)
    within = set(read.special.intra_calls)
    for sec in object.texts:
        if sec >= SHN_LORESERVE and not has_numbers:
            continue
        name = object.sections[sec].name
        calls = name != b".altinstr_replacement" and (module or name != b".init.text")
        for off, insn in read.code.insns[sec].items():
            place = Place(sec, off)
            if insn.op not in ("Call", "Jmp", "Jcc"):
                continue
            kind = read.functions.branch_target(place, insn).kind
            if kind == "indirect":
                found["retpoline"].append(place)
            elif kind == "return":
                found["return"].append(place)
            elif kind != "bad" and insn.op == "Call" and calls and place not in within and not is_static_call(read, place, insn):
                found["call"].append(place)
    return found


def with_lists(object: Object, lists: dict[str, list[Place]]) -> bytes:
    """The object with the three lists."""
    without = lacking_symbols(object, [place for places in lists.values() for place in places])
    full = elf.parse(with_section_symbols(object, without))
    new = []
    for kind, name in LISTS.items():
        number = len(full.sections) + len(new)
        relocs = [ENTRY.pack(4 * i, full.section_symbol(sec) << 32 | R_PC32, off) for i, (sec, off) in enumerate(lists[kind])]
        new.append(NewSection(name, PROGBITS, ALLOC, bytes(4 * len(relocs)), 4, 4))
        new.append(NewSection(b".rela" + name, RELA, INFO_LINK, b"".join(relocs), 8, 24, full.symbol_table or 0, number))
    return append(full, new)


def lines_of(object: Object, lists: dict[str, list[Place]]) -> list[str]:
    return [f"{kind} {place_text(object, place)}" for kind in LISTS for place in lists[kind]]


def sites(data: bytes, whole: bool = False, names_file: Optional[bytes] = None, module: bool = False) -> Answer:
    """The answer of `sites`, with the lines that `list` prints of what it writes."""

    def answer() -> Answer:
        object, names = object_of(data, names_file)
        read = read_code(object, whole, names)
        refuse_sections(object, NAMES, "a site list", 6)
        lists = sites_of(read, module)
        return Answer(DONE, [], lines_of(object, lists), with_lists(object, lists))

    return answered(answer)


def slot_fault(object: Object, i: int, count: int, relocs: list[Reloc], slot: bytes) -> str:
    """Why slot number i has no place, or nothing."""
    if i >= len(relocs) or (i + 1 == count and len(relocs) > count):
        return "NoReloc"
    reloc = relocs[i]
    if reloc.kind != R_PC32:
        return "Kind"
    if reloc.offset != 4 * i:
        return "Offset"
    sec = text_of_symbol(object, reloc.sym)
    if sec is None:
        return "Symbol"
    if not 0 <= reloc.addend <= object.sections[sec].size:
        return "Range"
    return "NotZero" if slot != bytes(4) else ""


def places_of(object: Object, name: bytes) -> list[Place]:
    """The places of the list in the first section with this name: none where there is no such section."""
    there = name.decode()
    sec = first_named(object, name)
    if sec is None:
        return []
    body, relocs = object.sections[sec].body, object.relocs.get(sec, [])
    if len(body) % 4:
        raise Refused(f"section {there}: bad length {len(body)}")
    count = len(body) // 4
    if count == 0 and relocs:
        raise Refused(f"section {there}: slot 0: NoReloc")
    for i, (slot,) in enumerate(struct.iter_unpack("4s", body)):
        why = slot_fault(object, i, count, relocs, slot)
        if why:
            raise Refused(f"section {there}: slot {i}: {why}")
    return [Place(text_of_symbol(object, reloc.sym), reloc.addend) for reloc in relocs]


def listed(data: bytes) -> Answer:
    """The answer of `list`."""

    def answer() -> Answer:
        object, _ = object_of(data, None)
        if all(first_named(object, name) is None for name in LISTS.values()):
            raise Refused(f"no section {LISTS['retpoline'].decode()}")
        return Answer(DONE, lines_of(object, {kind: places_of(object, name) for kind, name in LISTS.items()}))

    return answered(answer)
