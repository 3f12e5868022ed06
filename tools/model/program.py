"""The built program, run on an object, and its answer beside the model's."""

import os
import re
import select
import signal
import tempfile
from typing import NamedTuple, Optional

from check import read_file
from commands import REFUSED, Answer
from texts import WARNINGS

SECONDS = 120
TEXTS = (re.sub(r"\\\{.\w*\\\}", ".*", re.escape(text)) for text in WARNINGS.values())
# What may stand on the standard error: where a file is refused, which topic explains it.
POINTER = re.compile(rb"(objtool: see objtool explain [A-Za-z0-9-]+\n)?")
LINE = re.compile(r"refused: .+|\S*\+0x[0-9a-f]+: rule \d+: (?:" + "|".join(TEXTS) + ")")


class Run(NamedTuple):
    status: int
    lines: list[str]
    written: Optional[bytes]
    rows: list[str]
    # What the program did that it must not do.
    fault: str


class NoAnswer(Exception):
    """The program didn't end in time."""


# Where the files of a run are: in memory, where there is such a folder.
MEMORY = "/dev/shm"


class Stream:
    """What a program prints: a file in memory that has no name."""

    def __init__(self) -> None:
        self.file = os.memfd_create("stream")

    def taken(self) -> bytes:
        """All that was written, which is gone then."""
        size = os.lseek(self.file, 0, os.SEEK_CUR)
        if size == 0:
            return b""
        body = os.pread(self.file, size, 0)
        os.ftruncate(self.file, 0)
        os.lseek(self.file, 0, os.SEEK_SET)
        return body


class Program:
    """The program at a path, run in a folder of its own, which is this process's folder while it runs. It is spawned: an interpreter
    that forked itself for each run would copy the tables of all that it holds."""

    def __init__(self, path: str):
        self.path = os.path.abspath(path)
        self.folder = tempfile.TemporaryDirectory(dir=MEMORY if os.access(MEMORY, os.W_OK) else None)
        self.output, self.errors = Stream(), Stream()
        self.nothing = os.open(os.devnull, os.O_RDONLY)
        streams = {0: self.nothing, 1: self.output.file, 2: self.errors.file}
        self.actions = [(os.POSIX_SPAWN_DUP2, file, number) for number, file in streams.items()]
        self.environment = dict(os.environ)

    def ended(self, words: tuple[str, ...]) -> int:
        """Runs it with these words; tells its status."""
        os.chdir(self.folder.name)
        process = os.posix_spawn(self.path, (self.path, *words), self.environment, file_actions=self.actions)
        end = os.pidfd_open(process)
        try:
            if not select.select([end], [], [], SECONDS)[0]:
                os.kill(process, signal.SIGKILL)
                os.waitpid(process, 0)
                raise NoAnswer
        finally:
            os.close(end)
        status = os.waitstatus_to_exitcode(os.waitpid(process, 0)[1])
        # (as a shell tells the signal that ended a program)
        return status if status >= 0 else 128 - status

    def call(self, *words: str) -> tuple[int, list[str]]:
        """Its status and lines."""
        try:
            status = self.ended(words)
        finally:
            printed, errors = self.output.taken(), self.errors.taken()
        return status, printed.decode("ascii", "replace").splitlines() + self.complaints(status, errors)

    def complaints(self, status: int, errors: bytes) -> list[str]:
        """What stands on the standard error and doesn't belong there."""
        is_right = POINTER.fullmatch(errors) if status == REFUSED else not errors
        return [] if is_right else [f"standard error: {line}" for line in errors.decode("ascii", "replace").splitlines()]

    def run(self, files: dict[str, bytes], *words: str, reader: str = "") -> Run:
        """Its answer to these words where these files and no other are there, with the lines that the command `reader` prints of
        the file `out`, where that is written."""
        folder = self.folder.name
        for name in os.listdir(folder):
            os.unlink(f"{folder}/{name}")
        for name, body in files.items():
            with open(f"{folder}/{name}", "wb") as file:
                file.write(body)
        try:
            status, lines = self.call(*words)
        except NoAnswer:
            return Run(-1, [], None, [], f"no answer in {SECONDS} seconds")
        there = {name: read_file(f"{folder}/{name}") for name in os.listdir(folder)}
        written = there.pop("out", None)
        fault = "" if there == files else "other files changed"
        rows = []
        if written is not None and reader:
            told, rows = self.call(reader, "out")
            fault = fault or ("" if told == 0 else f"{reader} has status {told}")
        return Run(status, lines, written, rows, fault)

    def write(self, command: str, data: bytes, options: list[str], names: Optional[bytes], reader: str) -> Run:
        """Its answer to a command that reads an object and writes another, with what `reader` prints of that."""
        files = {"in.o": data} | ({"names": names} if names is not None else {})
        return self.run(files, command, "in.o", "out", *options, *(["--names=names"] if names is not None else []), reader=reader)

    def check(self, data: bytes, options: list[str], names: Optional[bytes]) -> Run:
        """Its answer to `check`, with the rows that it prints of what it writes."""
        return self.write("check", data, options, names, "dump")


def differences(run: Run, answer: Answer) -> list[str]:
    """What is different between the program's run and the model's answer."""
    pairs = {
        "status": (run.status, answer.status),
        "lines": (run.lines, answer.lines),
        "rows": (run.rows, answer.rows),
        "written": (run.written, answer.written),
    }
    found = [name for name, (there, wanted) in pairs.items() if there != wanted]
    return found + ([run.fault] if run.fault else [])


def is_well_formed(run: Run) -> bool:
    """Whether the program ended with a status of `check` and lines that belong to it."""
    lines = all(LINE.fullmatch(line) for line in run.lines)
    fits = {0: not run.lines and run.written is not None, 1: run.lines and run.written is None, 2: len(run.lines) == 1 and run.written is None}
    return bool(lines and fits.get(run.status, False) and not run.fault)
