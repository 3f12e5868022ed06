#!/usr/bin/env python3
"""Runs commands with each of their requests for memory refused in turn, one a run, and then with all behind it refused too.

refused.py PROGRAM LIBRARY FOLDER <COMMANDS

LIBRARY is what refuse.c makes. Each line of the standard input is a command, `STATUS WORD ..`: the status with ample memory, and the words.
It is run in a copy of FOLDER. OUT is `out`, which isn't there, or else is IN itself, `itself.o`."""
import contextlib
import os
import shutil
import subprocess
import sys
import tempfile
from concurrent.futures import ThreadPoolExecutor

PROGRAM, LIBRARY, FOLDER = sys.argv[1:]
NO_MEMORY = 6


class Failed(Exception):
    pass


def demand(holds, otherwise):
    if not holds:
        raise Failed(otherwise)


class Command:
    def __init__(self, line, folder):
        wanted, *self.words = line.split()
        self.wanted, self.folder = int(wanted), folder
        self.name = " ".join(self.words) or "no words"

    def at(self, name):
        return f"{self.folder}/{name}"

    def run(self, **settings):
        """The status, and the text that is told."""
        with tempfile.TemporaryFile() as told:
            ended = subprocess.call([PROGRAM, *self.words], cwd=self.folder, stdout=told, env={**os.environ, "LD_PRELOAD": LIBRARY, **settings})
            told.seek(0)
            return ended, told.read()

    def as_before(self):
        """Puts OUT back: there is no `out`, and `itself.o` is as long ago as files can be."""
        with contextlib.suppress(FileNotFoundError):
            os.remove(self.at("out"))
        shutil.copy(f"{FOLDER}/straight.o", self.at("itself.o"))
        os.utime(self.at("itself.o"), (0, 0))

    def is_written(self):
        """Whether there is an OUT, or IN was written since it was put back."""
        return os.path.exists(self.at("out")) or os.stat(self.at("itself.o")).st_mtime > 0

    def refused(self, number, onwards, text):
        """With request `number` refused: status 6, a beginning of the text, and OUT as it was; or all is done as well."""
        ended, told = self.run(REFUSED=str(number), ONWARDS=onwards)
        where = f"{self.name}, request {number} {onwards}"
        if ended == NO_MEMORY:
            demand(text.startswith(told), f"{where}: told {told}")
            demand(not self.is_written(), f"{where}: OUT was written")
        else:
            # (the first request is for the words, which no command can do without)
            is_needed = number == 1 and onwards
            demand(not is_needed and (ended, told) == (self.wanted, text), f"{where}: status {ended}, told {told}")
            self.as_before()

    def whole(self):
        """How many requests there are, each of which was refused."""
        self.as_before()
        ended, text = self.run(COUNT=self.at("count"))
        demand(ended == self.wanted, f"{self.name} ends with status {ended}, not {self.wanted}")
        self.as_before()
        with open(self.at("count")) as counted:
            count = int(counted.read())
        demand(count > 3, f"{self.name}: {count} requests")
        for number in range(1, count + 1):
            for onwards in ["", "onwards"]:
                self.refused(number, onwards, text)
        demand(not any(it.startswith(".objtool-") for it in os.listdir(self.folder)), f"{self.name}: a file is left")
        return count


def tried(line):
    with tempfile.TemporaryDirectory() as room:
        folder = shutil.copytree(FOLDER, f"{room}/folder")
        command = Command(line, folder)
        return command.name, command.whole()


lines = sys.stdin.read().splitlines()
total = 0
with ThreadPoolExecutor(os.cpu_count()) as threads:
    try:
        for name, count in threads.map(tried, lines):
            print(f"refused memory: {name}: each of {count} requests refused in turn", flush=True)
            total += count
    except Failed as failed:
        print(f"refused memory: FAILED, {failed}", flush=True)
        threads.shutdown(cancel_futures=True)
        sys.exit(1)
print(f"refused memory: {total} requests of {len(lines)} commands")
