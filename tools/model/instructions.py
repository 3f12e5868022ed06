"""The instructions of an object's text sections, by their boundaries."""

from bisect import bisect_left
from typing import Optional

from elf import Object, Place
from opcodes import Fault, Insn, read_text
from texts import Refused, place_text


class Code:
    def __init__(self, object: Object, whole: bool = False):
        self.object = object
        self.insns: dict[int, dict[int, Insn]] = {}
        for sec in object.texts:
            self.insns[sec], fault = read_text(object.sections[sec].body, whole)
            if fault is not None:
                raise Refused(fault_text(object, Place(sec, fault[0]), fault[1]))
        self.boundaries = {sec: list(insns) for sec, insns in self.insns.items()}

    def insn(self, place: Place) -> Insn:
        return self.insns[place.sec][place.off]

    def is_boundary(self, place: Place) -> bool:
        """Whether an instruction begins there."""
        return place.off in self.insns.get(place.sec, ())

    def is_boundary_or_end(self, place: Place) -> bool:
        return self.is_boundary(place) or self.is_end(place)

    def is_end(self, place: Place) -> bool:
        """Whether it is the end of a text section."""
        return place.sec in self.insns and place.off == self.object.sections[place.sec].size

    def after(self, place: Place) -> Place:
        """The end of the instruction at the place."""
        return Place(place.sec, place.off + self.insn(place).length)

    def before(self, place: Place) -> Optional[Place]:
        """The boundary before this one."""
        offsets = self.boundaries[place.sec]
        i = bisect_left(offsets, place.off)
        return Place(place.sec, offsets[i - 1]) if i > 0 else None


def fault_text(object: Object, place: Place, fault: Fault) -> str:
    at = place_text(object, place)
    if fault.why == "outside":
        seen = object.sections[place.sec].body[place.off : place.off + fault.count]
        return f"{at}: opcode outside the map: {seen.hex()}"
    return f"{at}: instruction cut after {fault.count} bytes" if fault.why == "cut" else f"{at}: instruction too long"
