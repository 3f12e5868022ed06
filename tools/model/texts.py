"""The texts that the program prints: names, places, rows and warnings, and the reason of a refusal."""


class Refused(Exception):
    """Why an input is refused: the text behind `refused: `."""


def escaped(name: bytes) -> str:
    """A name, byte by byte: a byte that isn't printed as it is, a blank and `\\` among them, is `\\` and two hexadecimal digits."""
    return "".join(chr(byte) if 0x21 <= byte <= 0x7E and byte != 0x5C else f"\\{byte:02x}" for byte in name)


def place_text(object, place) -> str:
    return f"{escaped(object.sections[place.sec].name)}+{place.off:#x}"


REGISTERS = ["undef", "prev", "dx", "di", "bp", "sp", "r10", "r13", "(bp)", "(sp)"]
KINDS = ["undefined", "end", "call", "regs", "partial"]


def row_words(row) -> str:
    """What a row of the unwind table says."""
    cfa = f"{REGISTERS[row.sp_reg]}{row.sp_offset:+d}"
    bp = f"{REGISTERS[row.bp_reg]}{row.bp_offset:+d}"
    signal = " signal" if row.signal else ""
    return f"{KINDS[row.kind]} cfa {cfa} bp {bp}{signal}"


def row_text(object, place, row) -> str:
    """A row of the unwind table, as `dump` prints it."""
    return f"{place_text(object, place)}: {row_words(row)}"


WARNINGS = {
    1: "bad branch target",
    2: "falls into another function",
    3: "runs off the section",
    4: "stack state mismatch: kept {a}, found {b}",
    5: "return with modified stack: depth {a}",
    6: "sibling call with modified stack: depth {a}",
    7: "unsupported write of rsp",
    8: "rbp written before it is saved",
    9: "stack pointer lost",
    10: "offset out of range: {a}",
    11: "saved slot dropped",
    12: "alternatives disagree at offset {a}",
    13: "jump into an alternative site",
    14: "unreachable instruction",
    15: "return or context switch not allowed here",
    16: "call into the middle of a function",
    17: "function without size",
    18: "restore without save",
    19: "relocated stack offset",
    21: "call without frame",
    31: "indirect branch",
    32: "naked return",
    41: "call to {name} with user access on",
    42: "return with user access on",
    43: "return with user access off",
    44: "user access turned on twice",
    45: "user access turned off twice",
    46: "safe function turns user access off",
    47: "popf where user access is tracked",
    51: "call to {name} leaves noinstr code",
    52: "missing int3 after return",
    53: "missing int3 after indirect jump",
    54: "address taken without endbr",
}


def warning_text(object, warning) -> str:
    name = ""
    if warning.rule in (41, 51):
        name = "indirect target" if warning.a == -1 else escaped(object.symbols[warning.a].name)
    text = WARNINGS[warning.rule].format(a=warning.a, b=warning.b, name=name)
    return f"{place_text(object, warning.place)}: rule {warning.rule}: {text}"
