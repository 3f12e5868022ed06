"""Objects written as a list of their sections, symbols and relocations."""

import re

from bytes_text import number, repeated, with_bytes
from elf import ABSOLUTE, COMMON, UNDEFINED, Reloc, Symbol
from elf_make import NewSection, make
from faults import CaseFault

SECTION_KINDS = {"progbits": 1, "nobits": 8, "note": 7, "group": 17, "rel": 9, "strtab": 3, "symtab": 2, "rela": 4}
SECTION_FLAGS = {"write": 1, "alloc": 2, "exec": 4, "info_link": 0x40, "compressed": 0x800}
SYMBOL_KINDS = {"notype": 0, "object": 1, "function": 2, "section": 3, "file": 4}
BINDINGS = {"local": 0, "global": 1, "weak": 2}
RELOCATION_KINDS = {"64": 1, "PC32": 2, "PLT32": 4, "32": 10, "32S": 11}
PLACELESS = {"undefined": UNDEFINED, "absolute": ABSOLUTE, "common": COMMON}


def name_bytes(word: str) -> bytes:
    """A name; `-` is the empty one."""
    return b"" if word == "-" else with_bytes(word)


def named(words: dict[str, int], word: str) -> int:
    """A number by its name, or as it is."""
    return words[word] if word in words else number(word)


class ObjectText:
    """What the lines of a text have said so far of an object."""

    def __init__(self):
        self.sections: list[NewSection] = []
        self.symbols: list[Symbol] = []
        self.relocs: list[tuple[int, Reloc]] = []

    def section_number(self, word: str) -> int:
        """A section by `#` and its number, or by its name, the first that has it."""
        if word.startswith("#"):
            return number(word[1:])
        for i, section in enumerate(self.sections):
            if section.name == name_bytes(word):
                return i + 1
        raise CaseFault(f"no section {word}")

    def symbol_number(self, word: str) -> int:
        """A symbol by `#` and its number, by its name, or the section symbol by the section's name."""
        if word.startswith("#"):
            return number(word[1:])
        for i, symbol in enumerate(self.symbols):
            if symbol.name and symbol.name == name_bytes(word):
                return i + 1
        section = self.section_number(word)
        for i, symbol in enumerate(self.symbols):
            if symbol.kind == SYMBOL_KINDS["section"] and symbol.home == section:
                return i + 1
        raise CaseFault(f"no symbol {word}")

    def add_section(self, name: str, words: list[str]) -> None:
        """`section NAME [KIND] [FLAG..] [align N] [entry N] [link N] [info N] [times N]`, PROGBITS unless another kind is told."""
        fields = {"name": name_bytes(name), "flags": 0}
        times, words = 1, list(words)
        while words:
            word = words.pop(0)
            if word in SECTION_FLAGS:
                fields["flags"] |= SECTION_FLAGS[word]
            elif word in SECTION_KINDS:
                fields["kind"] = SECTION_KINDS[word]
            elif word == "times":
                times = number(words.pop(0))
            elif word in ("kind", "align", "link", "info"):
                fields[word] = number(words.pop(0))
            elif word == "entry":
                fields["entsize"] = number(words.pop(0))
            else:
                raise CaseFault(f"section {name}: {word}?")
        self.sections += [NewSection(**fields)] * times

    def add_symbol(self, name, kind, binding, section, value="0", size="0", other="0") -> None:
        """`symbol NAME KIND BINDING SECTION [VALUE [SIZE]]`."""
        home = PLACELESS[section] if section in PLACELESS else self.section_number(section)
        numbers = named(BINDINGS, binding), named(SYMBOL_KINDS, kind), number(other)
        self.symbols.append(Symbol(name_bytes(name), *numbers, home, number(value), number(size)))

    def add_relocation(self, section, offset, kind, symbol, addend="0") -> None:
        """`relocation SECTION OFFSET KIND SYMBOL [ADDEND]`."""
        reloc = Reloc(number(offset), named(RELOCATION_KINDS, kind), self.symbol_number(symbol), number(addend))
        self.relocs.append((self.section_number(section), reloc))

    def add_code(self, words: list[str]) -> None:
        """`code HEX..`: `.text` with this code, its section symbol, and the global function `f` over all of it."""
        self.add_section(".text", ["alloc", "exec"])
        self.add_bytes(words)
        self.add_symbol("-", "section", "local", ".text")
        self.add_symbol("f", "function", "global", ".text", "0", str(len(self.sections[-1].body)))

    def add_bytes(self, words: list[str]) -> None:
        """Bytes of the section that was told last."""
        if not self.sections:
            raise CaseFault("bytes of no section")
        last = self.sections[-1]
        self.sections[-1] = last._replace(body=last.body + repeated(words))

    def add(self, line: str) -> None:
        first, *words = line.split()
        if line[0] in " \t":
            return self.add_bytes([first, *words])
        match first:
            case "section":
                return self.add_section(words[0], words[1:])
            case "symbol":
                return self.add_symbol(*words)
            case "relocation":
                return self.add_relocation(*words)
            case "code":
                return self.add_code(words)
        raise CaseFault(f"{first}?")


def comments_away(text: str) -> list[str]:
    """The lines without comments, which begin with `# `, since `#1` is a number of a section."""
    lines = (re.sub(r"(^|\s)#(\s.*)?$", "", line).rstrip() for line in text.splitlines())
    return [line for line in lines if line]


def read_object(text: str) -> bytes:
    """The object of such a text."""
    made = ObjectText()
    for line in comments_away(text):
        try:
            made.add(line)
        except (TypeError, IndexError):
            raise CaseFault(f"too few or too many words: {line}") from None
    return make(made.sections, made.symbols, made.relocs)
