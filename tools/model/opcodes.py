"""Instructions: reading one off the front of some bytes, and its operation: what it does to rsp, rbp and the flow of control.

A spelling of an instruction is: legacy prefixes in any number and order, at most one REX prefix, the opcode (one byte, `0F` and
a byte, `0F 38` or `0F 3A` and a byte), ModRM with SIB and displacement where the opcode has them, and the immediate. In the whole
map VEX or EVEX and a byte may stand in the place of the opcode, without REX, 66, F2, F3 and F0. What follows the prefixes is told by
the opcode map. In the whole map ud2 and "xen" or "kvm" before a spelling of a plain instruction make one instruction of both, which a
hypervisor emulates.
"""

from typing import NamedTuple, Optional

from extension import EVEX_MAPS, VEX_MAPS
from opcode_map import Entry, Prefixes, lookup, map_has_some

LEGACY = {0x66, 0x67, 0x2E, 0x36, 0x3E, 0x26, 0x64, 0x65, 0xF0, 0xF2, 0xF3}
# Which map an opcode leads to.
ESCAPES = {(1, 0x0F): 2, (2, 0x38): 3, (2, 0x3A): 4}
LONGEST = 15
# What stands before an instruction that a hypervisor emulates.
EMULATED = (b"\x0f\x0bxen", b"\x0f\x0bkvm")
RSP, RBP = 4, 5


class Insn(NamedTuple):
    """An instruction: its length, its operation, and that operation's number or distance, if it has one."""

    length: int
    op: str
    value: Optional[int] = None
    # Of a direct branch: whether its distance has four bytes, so that a relocation can name its target; of an indirect jump: whether
    # a register holds its target.
    wide: bool = False


class Fault(NamedTuple):
    """Why there is no instruction: `outside` the map as the first `count` bytes show, `cut` after `count` bytes, or too `long`."""

    why: str
    count: int = 0


class Stop(Exception):
    """Reading ended without an instruction."""

    def __init__(self, fault: Fault):
        super().__init__(fault)
        self.fault = fault


class Reader:
    """Reads the bytes of an instruction, at most 15."""

    def __init__(self, code: bytes, start: int):
        self.code, self.start, self.at = code, start, 0
        # How many bytes an instruction could have here.
        self.there = len(code) - start

    def byte(self) -> int:
        if self.at == LONGEST:
            raise Stop(Fault("long"))
        if self.at == self.there:
            raise Stop(Fault("cut", self.at))
        self.at += 1
        return self.code[self.start + self.at - 1]

    def number(self, count: int) -> int:
        """A signed number."""
        for _ in range(count):
            self.byte()
        end = self.start + self.at
        return int.from_bytes(self.code[end - count : end], "little", signed=True)

    def outside(self) -> Stop:
        """The byte that was read last begins no spelling with those before it."""
        return Stop(Fault("outside", self.at))


class Vector(NamedTuple):
    """VEX or EVEX: the bits W, R, X and B as those of REX, the register of vvvv, the prefix that pp stands for, the map that follows."""

    bits: int
    vvvv: int
    pp: int
    map: int


class Spelling(NamedTuple):
    """The parts of a spelling that decide its operation."""

    prefixes: Prefixes
    segment: bool  # 64 or 65 is among the prefixes
    rex: Optional[int]
    vector: Optional[Vector]
    map: int
    opcode: int
    entry: Entry
    modrm: Optional[int]
    sib: Optional[int]
    displacement: Optional[int]
    displacement_at: int
    immediate: Optional[int]
    length: int

    def rex_bit(self, bit: int) -> int:
        """REX.W is bit 3, R is 2, X is 1, B is 0; or those of VEX or EVEX."""
        return (self.vector.bits if self.vector else self.rex or 0) >> bit & 1

    @property
    def wide(self) -> bool:
        return self.rex_bit(3) == 1

    @property
    def mod(self) -> Optional[int]:
        return self.modrm >> 6 if self.modrm is not None else None

    @property
    def reg(self) -> int:
        """The register of ModRM's reg field."""
        return (self.modrm >> 3 & 7) + 8 * self.rex_bit(2)

    @property
    def digit(self) -> int:
        """ModRM's reg field, where it tells instructions apart."""
        return self.modrm >> 3 & 7

    @property
    def rm(self) -> Optional[int]:
        """The register of ModRM's rm field, where it is one."""
        return (self.modrm & 7) + 8 * self.rex_bit(0) if self.mod == 3 else None

    @property
    def low(self) -> int:
        """The register of the opcode's low three bits."""
        return (self.opcode & 7) + 8 * self.rex_bit(0)


def vector_of(bits: int, last: int, map: int) -> Vector:
    """By R, X and B, which are inverted in the byte's upper bits, and the byte W vvvv L pp."""
    return Vector((bits >> 5 & 7 ^ 7) | (last >> 7) << 3, 15 - (last >> 3 & 15), last & 3, map)


def read_vector(reader: Reader, first: int) -> Vector:
    """VEX or EVEX, which this byte begins."""
    if first == 0xC5:
        last = reader.byte()
        # It has neither W nor X and B.
        return vector_of(last | 0x60, last & 0x7F, VEX_MAPS[1])
    bits = reader.byte()
    map = VEX_MAPS.get(bits & 0x1F) if first == 0xC4 else EVEX_MAPS.get(bits & 0x0F)
    if map is None:
        raise reader.outside()
    last = reader.byte()
    if first == 0x62:
        if not last & 4:
            raise reader.outside()
        reader.byte()
    return vector_of(bits, last, map)


def read_spelling(code: bytes, start: int, whole: bool) -> Spelling:
    """The spelling that stands there. Raises Stop."""
    reader = Reader(code, start)
    seen = set()
    byte = reader.byte()
    while byte in LEGACY:
        seen.add(byte)
        byte = reader.byte()
    prefixes = Prefixes(0x66 in seen, 0x67 in seen, 0xF2 in seen, 0xF3 in seen)
    rex = byte if 0x40 <= byte <= 0x4F else None
    opcode = byte if rex is None else reader.byte()
    number, vector = 1, None
    if whole and opcode in (0xC4, 0xC5, 0x62) and rex is None and not seen & {0x66, 0xF0, 0xF2, 0xF3}:
        vector = read_vector(reader, opcode)
        prefixes = Prefixes(vector.pp == 1, prefixes.addrsize, vector.pp == 3, vector.pp == 2)
        number = vector.map
        if not map_has_some(prefixes, number, whole):
            raise reader.outside()
        opcode = reader.byte()
    while (number, opcode) in ESCAPES:
        number = ESCAPES[number, opcode]
        if not map_has_some(prefixes, number, whole):
            raise reader.outside()
        opcode = reader.byte()
    found = lookup(prefixes, number, opcode, whole)
    if found is None:
        raise reader.outside()
    modrm = sib = displacement = None
    displacement_at = 0
    if isinstance(found, dict):
        modrm = reader.byte()
        if modrm not in found:
            raise reader.outside()
        found = found[modrm]
        sib, displacement_at, displacement = read_address(reader, modrm)
    immediate = read_immediate(reader, found.imm, prefixes.opsize, rex is not None and rex & 8 != 0)
    segment = 0x64 in seen or 0x65 in seen
    return Spelling(
        prefixes, segment, rex, vector, number, opcode, found, modrm, sib, displacement, displacement_at, immediate, reader.at
    )  # fmt: skip


def read_address(reader: Reader, modrm: int) -> tuple[Optional[int], int, Optional[int]]:
    """SIB, and where the displacement stands and its number."""
    mod, rm = modrm >> 6, modrm & 7
    if mod == 3:
        return None, 0, None
    sib = reader.byte() if rm == 4 else None
    base = rm if sib is None else sib & 7
    count = {0: 4 if base == 5 else 0, 1: 1, 2: 4}[mod]
    at = reader.at
    return sib, at, reader.number(count) if count else None


def read_immediate(reader: Reader, imm: str, opsize: bool, wide: bool) -> Optional[int]:
    """The immediate: ib, iw and id have 1, 2 and 4 bytes, iz 2 under 66 without REX.W, else 4; iv is iz, or 8 bytes with REX.W."""
    if not imm:
        return None
    iz = 2 if opsize and not wide else 4
    count = {"ib": 1, "iw": 2, "id": 4, "iw ib": 3, "iz": iz, "iv": 8 if wide else iz, "moffs": 8}[imm]
    return reader.number(count)


class Known:
    """The instructions of a map that were read so far, by their bytes: an instruction is told by these alone, whatever stands behind. Only
    a ud2 of the whole map isn't."""

    # How many they are at most.
    MOST = 50_000

    def __init__(self) -> None:
        self.insns: dict[bytes, Insn] = {}

    def find(self, code: bytes, start: int) -> Optional[Insn]:
        """The known instruction in front of the bytes from `start` on."""
        insns = self.insns
        for length in range(1, min(LONGEST, len(code) - start) + 1):
            insn = insns.get(code[start : start + length])
            if insn is not None:
                return insn
        return None

    def add(self, code: bytes, insn: Insn) -> None:
        if len(self.insns) == self.MOST:
            self.insns.clear()
        self.insns[code] = insn


KNOWN = {False: Known(), True: Known()}


def decode(code: bytes, start: int = 0, whole: bool = False):
    """The instruction in front of the bytes from `start` on, by the base map or the whole one, or the Fault: why there is none."""
    known = KNOWN[whole].find(code, start)
    if known is not None:
        return known
    insn = (emulated(code, start) if whole else None) or spelled(code, start, whole)
    if isinstance(insn, Insn) and not (whole and insn.op == "Ud2"):
        KNOWN[whole].add(code[start : start + insn.length], insn)
    return insn


def spelled(code: bytes, start: int, whole: bool):
    """The instruction that is spelled in front, or the Fault."""
    try:
        spelling = read_spelling(code, start, whole)
    except Stop as stop:
        return stop.fault
    return Insn(spelling.length, *operation(spelling))


def emulated(code: bytes, start: int) -> Optional[Insn]:
    """The instruction in front that a hypervisor emulates: a plain one, by its operation, with what stands before it."""
    before = code[start : start + 5]
    if before not in EMULATED:
        return None
    found = spelled(code[start + len(before) : start + LONGEST], 0, True)
    plain = isinstance(found, Insn) and found.op == "Plain"
    return found._replace(length=len(before) + found.length) if plain else None


def written(s: Spelling) -> set[int]:
    """The registers that the instruction writes, by its entry in the map."""
    registers = set()
    for write in s.entry.writes.split():
        fields = {"m": s.rm if s.modrm is not None else None, "r": s.reg if s.modrm is not None else None, "o": s.low}
        register = s.vector.vvvv if write == "v" and s.vector else fields[write[0]]
        high_byte = write.endswith("b") and s.rex is None and register in range(4, 8)
        if register is not None and not high_byte:
            registers.add(register)
    return registers


def sp_distance(s: Spelling) -> Optional[int]:
    """k where the operand is k(rsp), addressed with no other prefix."""
    if s.mod is None or s.mod == 3 or s.prefixes.addrsize or s.segment or s.sib is None:
        return None
    plain = s.sib & 7 == 4 and s.sib >> 3 & 7 == 4 and not s.rex_bit(0) and not s.rex_bit(1)
    return (s.displacement or 0) if plain else None


def bp_distance(s: Spelling) -> Optional[int]:
    """k where the operand is k(rbp), addressed with no other prefix."""
    if s.mod not in (1, 2) or s.prefixes.addrsize or s.segment:
        return None
    return s.displacement if s.modrm & 7 == 5 and not s.rex_bit(0) else None


def operation(s: Spelling) -> tuple:
    """The operation's name, with its number and whether it is a wide branch, where it has them."""
    found = flow_operation(s) or stack_operation(s) or pointer_operation(s)
    if found:
        return found
    registers = written(s)
    return ("SpOther",) if RSP in registers else ("BpOther",) if RBP in registers else ("Plain",)


ONE_BYTE_OPS = {
    0xC3: "Ret", 0xC2: "RetImm", 0xC9: "Leave", 0xC8: "SpOther", 0xCA: "Switch", 0xCB: "Switch", 0xCC: "Int3",
    0x68: "Push", 0x6A: "Push", 0x9C: "Push", 0x9D: "Popf",
}  # fmt: skip
TWO_BYTE_OPS = {
    0x0B: "Ud2", 0xB9: "Ud2", 0xFF: "Ud2", 0x1F: "Nop", 0x05: "Switch", 0x07: "Switch", 0x34: "Switch", 0x35: "Switch", 0xAA: "Switch",
    0xA0: "Push", 0xA8: "Push", 0xA1: "Pop", 0xA9: "Pop",
}  # fmt: skip


def flow_operation(s: Spelling) -> Optional[tuple]:
    """Calls, branches, returns, and what one opcode tells."""
    if s.map == 1:
        if s.opcode in ONE_BYTE_OPS:
            return (ONE_BYTE_OPS[s.opcode],)
        if s.opcode == 0x90 and not s.rex_bit(0):
            return ("Nop",)
        if s.opcode == 0xCF:
            return ("Iret",) if s.wide else ("Switch",)
        if s.opcode == 0xE8:
            return "Call", s.immediate, True
        if s.opcode in (0xE9, 0xEB):
            return "Jmp", s.immediate, s.opcode == 0xE9
        if 0x70 <= s.opcode <= 0x7F or 0xE0 <= s.opcode <= 0xE3:
            return "Jcc", s.immediate, False
        if s.opcode == 0xC7 and s.modrm == 0xF8:
            return "Jcc", s.immediate, True
        if s.opcode == 0xFF and s.digit in (2, 3, 4, 5):
            return {2: ("CallInd",), 4: ("JmpInd", table_field(s), s.mod == 3)}.get(s.digit, ("Switch",))
    if s.map == 2:
        if s.opcode in TWO_BYTE_OPS:
            return (TWO_BYTE_OPS[s.opcode],)
        if 0x80 <= s.opcode <= 0x8F:
            return "Jcc", s.immediate, True
        if s.opcode == 0x1E and s.modrm in (0xFA, 0xFB):
            return ("Endbr",)
        if s.opcode == 0x01:
            return system_operation(s)
    return None


def system_operation(s: Spelling) -> Optional[tuple]:
    """Of `0F 01`: STAC and CLAC, and what goes on elsewhere: ENCLU, with F3 or F2 ERETU and ERETS, with F3 UIRET."""
    if s.modrm == 0xCB:
        return ("Stac",)
    if s.modrm == 0xCA:
        return ("Switch",) if s.prefixes.rep or s.prefixes.repne else ("Clac",)
    return ("Switch",) if s.modrm == 0xD7 or s.modrm == 0xEC and s.prefixes.rep else None


def table_field(s: Spelling) -> Optional[int]:
    """Where the displacement stands in a jump through an array of addresses: disp32 plus eight times an index."""
    if s.mod != 0 or s.sib is None or s.prefixes.addrsize or s.segment:
        return None
    index = (s.sib >> 3 & 7) + 8 * s.rex_bit(1)
    return s.displacement_at if s.sib >> 6 == 3 and index != 4 and s.sib & 7 == 5 else None


def stack_operation(s: Spelling) -> Optional[tuple]:
    """Pushes and pops of registers and memory."""
    if s.map != 1:
        return None
    if 0x50 <= s.opcode <= 0x57:
        return ("PushBp",) if s.low == RBP else ("Push",)
    if s.opcode == 0xFF and s.digit == 6:
        return ("PushBp",) if s.rm == RBP else ("Push",)
    register = s.low if 0x58 <= s.opcode <= 0x5F else s.rm if s.opcode == 0x8F else None
    if 0x58 <= s.opcode <= 0x5F or s.opcode == 0x8F:
        return {RSP: ("SpOther",), RBP: ("PopBp",)}.get(register, ("Pop",))
    return None


def pointer_operation(s: Spelling) -> Optional[tuple]:
    """What moves rsp or rbp by a known distance or makes room by a register, and what stores and loads rbp. All are of 64 bits."""
    if s.map != 1 or not s.wide or s.modrm is None:
        return None
    if s.opcode in (0x81, 0x83) and s.rm == RSP and s.digit in (0, 4, 5):
        return {0: ("AddSp", s.immediate), 5: ("AddSp", -s.immediate), 4: ("AndSp", s.immediate)}[s.digit]
    sp, bp = sp_distance(s), bp_distance(s)
    if s.opcode == 0x8D:
        forms = {(RSP, True): ("AddSp", sp), (RBP, True): ("LeaBpSp", sp)}
        if (s.reg, sp is not None) in forms:
            return forms[s.reg, True]
        return ("LeaSpBp", bp) if s.reg == RSP and bp is not None else None
    if s.opcode in (0x29, 0x2B) and s.mod == 3:
        source, target = (s.reg, s.rm) if s.opcode == 0x29 else (s.rm, s.reg)
        return ("SubSp",) if target == RSP and source != RSP else None
    if s.opcode not in (0x89, 0x8B):
        return None
    if s.mod == 3:
        source, target = (s.reg, s.rm) if s.opcode == 0x89 else (s.rm, s.reg)
        if target == RSP and source not in (RSP, RBP):
            return ("SpReg",)
        return {(RBP, RSP): ("LeaSpBp", 0), (RSP, RBP): ("LeaBpSp", 0)}.get((source, target))
    if s.reg == RBP and sp is not None:
        return ("StoreBp" if s.opcode == 0x89 else "LoadBp"), sp
    return None


def read_text(body: bytes, whole: bool = False):
    """The instructions of a text section by their offsets; where one doesn't decode, its offset and why."""
    insns, at = {}, 0
    while at < len(body):
        found = decode(body, at, whole)
        if isinstance(found, Fault):
            return insns, (at, found)
        insns[at] = found
        at += found.length
    return insns, None
