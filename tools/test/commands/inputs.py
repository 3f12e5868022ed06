"""The files that a case starts with, made of the files of its folder."""

import subprocess
import tempfile
from pathlib import Path

from bytes_text import read_bytes
from faults import CaseFault
from object_text import read_object

# Files of a case that say what it does, and aren't among its inputs.
OWN = ("case", "table")


def assembled(text: str) -> bytes:
    """What `as` makes of assembly text."""
    with tempfile.TemporaryDirectory(prefix="objtool-commands-") as folder:
        words = ["as", "--64", "-o", "out.o", "-"]
        told = subprocess.run(words, cwd=folder, input=text.encode(), capture_output=True, check=False)
        if told.returncode:
            raise CaseFault(f"as: {told.stderr.decode(errors='replace').strip()}")
        return Path(folder, "out.o").read_bytes()


def output_name(name: str) -> str:
    """The name of the input that a file makes: `leaf.o` of `leaf.s` and of `leaf.object`, `image` of `image.bytes`."""
    stem, _, ending = name.rpartition(".")
    match ending:
        case "s" | "object":
            return f"{stem}.o"
        case "bytes":
            return stem
    return name


class Inputs:
    """The inputs of a case: made of the files of its folder, and of those of the common folder that it uses."""

    def __init__(self, texts: dict[str, str]):
        # What stands in the files, by their names, and which file makes an input.
        self.texts = texts
        self.makers = {output_name(name): name for name in texts}
        self.made: dict[str, bytes] = {}

    def bytes_of(self, name: str) -> bytes:
        """The bytes of an input."""
        if name not in self.made:
            if name not in self.makers:
                raise CaseFault(f"no input {name}")
            self.made[name] = self.make(self.makers[name])
        return self.made[name]

    def make(self, file: str) -> bytes:
        text = self.texts[file]
        try:
            if file.endswith(".s"):
                return assembled(text)
            if file.endswith(".object"):
                return read_object(text)
            if file.endswith(".bytes"):
                return read_bytes(text, self.bytes_of)
        except CaseFault as fault:
            raise CaseFault(f"{file}: {fault}") from None
        return text.encode(errors="surrogateescape")


def texts_of(folder: Path) -> dict[str, str]:
    """What stands in the files of a folder that aren't `case` and `table`."""
    files = sorted(path for path in folder.iterdir() if path.is_file() and path.name not in OWN)
    return {path.name: path.read_bytes().decode(errors="surrogateescape") for path in files}
