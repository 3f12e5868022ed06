"""Jump tables: arrays of addresses in data, through which an indirect jump goes."""

from typing import Optional

from elf import R_32S, R_64, R_PC32, Object, Place, Reloc
from functions import Functions
from instructions import Code
from opcodes import Insn
from sites import Point, Sites

# How many instructions before a jump through a register may tell its table.
LOOKED_AT = 4
# Behind these nothing is known of the registers.
LEAVING = "Call", "CallInd", "Jmp", "Jcc", "JmpInd", "Ret", "RetImm", "Switch", "Iret"


class JumpTables:
    def __init__(self, object: Object, code: Code, functions: Functions, sites: Sites):
        self.object, self.code, self.functions, self.sites = object, code, functions, sites
        # Where the table of each plain jump begins.
        self._of_jump: dict[Place, Place] = {}
        for sec, insns in code.insns.items():
            for off, insn in insns.items():
                if insn.op not in ("JmpInd", "Jmp"):
                    continue
                begin = self._begin(Place(sec, off), insn)
                if begin is not None:
                    self._of_jump[Place(sec, off)] = begin
        self.begins: set[Place] = set(self._of_jump.values())

    def _begin(self, place: Place, insn: Insn) -> Optional[Place]:
        if insn.op == "JmpInd" and insn.value is not None:
            return self._named_by_jump(place, insn)
        if insn.op == "JmpInd" and insn.wide or insn.op == "Jmp" and insn.wide and self.functions.branch_target(place, insn).kind == "indirect":
            return self._told_before(place)
        return None

    def _data(self, named) -> Optional[Place]:
        """The place, where a table may stand there: in read-only data, also such as is relocated first."""
        if named is None or not self.object.sections[named[0]].name.startswith((b".rodata", b".data.rel.ro")):
            return None
        return Place(*named)

    def _named_by_jump(self, place: Place, insn: Insn) -> Optional[Place]:
        """What the relocation of type 32S at the displacement of a jump through memory names."""
        relocs = [r for r in self.object.relocs_at(Place(place.sec, place.off + insn.value)) if r.kind == R_32S]
        return self._data(self.object.named_place(relocs[0])) if relocs else None

    def _told_before(self, place: Place) -> Optional[Place]:
        """What the instructions right before a jump through a register name, the nearest first: a place with an entry of its owner."""
        owner = self.functions.owner_at(place)
        if owner is None or self.sites.site_at(place) is not None:
            return None
        before = self.code.before(place)
        for _ in range(LOOKED_AT):
            if before is None or self.functions.owner_at(before) != owner or self.sites.site_at(before) is not None:
                return None
            insn = self.code.insn(before)
            if insn.op in LEAVING:
                return None
            for at in range(before.off, before.off + insn.length):
                for reloc in self.object.relocs_at(Place(before.sec, at)):
                    found = self._data(self._address_named(reloc, before.off + insn.length - at))
                    if found is not None and self._entry(found, owner) is not None:
                        return found
            before = self.code.before(before)
        return None

    def _address_named(self, reloc: Reloc, to_end: int):
        """The address that an operand names, by itself (32S) or from the instruction's end (PC32)."""
        if reloc.kind not in (R_PC32, R_32S):
            return None
        return self.object.named_place(reloc._replace(addend=reloc.addend + to_end) if reloc.kind == R_PC32 else reloc)

    def of(self, point: Point, insn: Insn, owner: Optional[int]) -> list[Place]:
        """The table of the jump at a point of this owner: relocated addresses, each of an instruction of the owner.

        It ends at the first entry that is none, and where the table of another jump begins. In a replacement only the jump itself
        tells its table.
        """
        by_jump = insn.op == "JmpInd" and insn.value is not None
        begin = self._of_jump.get(point.place) if point.variant == 0 or by_jump else None
        places: list[Place] = []
        while begin is not None:
            at = Place(begin.sec, begin.off + 8 * len(places))
            entry = self._entry(at, owner)
            if entry is None or places and at in self.begins:
                break
            places.append(entry)
        return places

    def _entry(self, at: Place, owner: Optional[int]) -> Optional[Place]:
        relocs = [r for r in self.object.relocs_at(at) if r.kind == R_64]
        named = self.object.named_place(relocs[0]) if relocs else None
        if named is None:
            return None
        place = Place(*named)
        return place if self.code.is_boundary(place) and self.functions.owner_at(place) == owner else None
