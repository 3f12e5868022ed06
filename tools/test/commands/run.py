"""Runs the cases of a folder by some programs: run.py FOLDER PROGRAM.. [-- NAME..]

Each case is run in a new folder, by each program. Prints a unified diff for each case that comes out differently, and at last how
many passed. Ends with status 1 where one differs, and 2 where a case or a tool is at fault. With names, only these cases are run."""

import difflib
import multiprocessing
import os
import re
import signal
import subprocess
import sys
import tempfile
from pathlib import Path

sys.path.insert(1, str(Path(__file__).parents[2] / "model"))

import claims
from bytes_text import with_bytes
from cases import Case, Row, all_rows
from faults import CaseFault
from transcript import Step, fits, lines_of

# After so many seconds a command is stopped: it hangs, or the machine has too much to do.
SECONDS = 600
# Of longer files only what the system tells is compared, not their bytes.
SMALL = 1 << 20
# The commands that write a file, which is their second name.
WRITING = {"check", "sites", "cfi", "merge"}


def state_of(folder: Path) -> dict[str, object]:
    """What tells for each file of the folder whether it was changed."""
    state = {}
    for entry in os.scandir(folder):
        about = entry.stat(follow_symlinks=False)
        is_small = entry.is_file() and about.st_size <= SMALL
        state[entry.name] = Path(entry.path).read_bytes() if is_small else (about.st_ino, about.st_size, about.st_mtime_ns)
    return state


# How a claim begins that tells a line of standard error; these stand last.
ERROR = "standard error: "
# What stands on standard error where a case doesn't tell it: at words at fault the advice, at a refusal mostly the topic, at a file
# that fails the reason and mostly its topic; and then, where OUT was there before, that it stands.
REFUSED, USAGE, FAULT = 2, 3, 4
TOPIC = r"(objtool: see objtool explain [\w-]+\n)?"
ADVICE = {REFUSED: TOPIC, USAGE: r"objtool: (.+ objtool --help lists the commands|[A-Z]+ is missing: objtool .+)\n", FAULT: r"objtool: \S+: .+\n" + TOPIC}
STANDS = r"objtool: \S+ stands from before this run\n"


def out_of(step: Step) -> set[str]:
    """OUT of a command that writes."""
    names = [word for word in step.words[1:] if not word.startswith("-")]
    return {names[1]} if WRITING.intersection(step.words[:1]) and len(names) > 1 else set()


def written_by(step: Step, status: int) -> set[str]:
    """The file that the command has to write: OUT of one that is done."""
    return out_of(step) if status == 0 else set()


def change_lines(before: dict, after: dict, written: set[str]) -> list[str]:
    """What the command did to files, where it isn't what it has to do."""
    lines = [f"[{name} isn't there any more]" for name in sorted(before.keys() - after.keys())]
    lines += [f"[{name} isn't written]" for name in sorted(written) if name not in after and "/" not in name]
    for name in sorted(after.keys() - written):
        if name not in before:
            lines.append(f"[{name} is new]")
        elif before[name] != after[name]:
            lines.append(f"[{name} is changed]")
    return lines


def limit_of(step: Step) -> str | None:
    """How many bytes a file may have at most, if that is told."""
    return next((found[1] for claim in step.claims if (found := claims.LIMIT.fullmatch(claim))), None)


def run_step(program: str, step: Step, folder: Path) -> tuple[int, bytes, bytes]:
    """The status, the standard output and the standard error of a command."""
    words = [program, *map(with_bytes, step.words)]
    limit = limit_of(step)
    if limit is not None:
        # Python ignores the signal of a file that would grow too long, and so does the program then.
        words = ["prlimit", f"--fsize={limit}", *words]
    # The standard error is a pipe, which a limit on files doesn't cut; it gets a few lines.
    with tempfile.TemporaryFile() as printed, open(step.onto or os.devnull, "wb") as onto:
        how = {"stdin": subprocess.DEVNULL, "stdout": onto if step.onto else printed, "stderr": subprocess.PIPE, "restore_signals": False}
        with subprocess.Popen(words, cwd=folder, **how) as running:
            signal.alarm(SECONDS)
            try:
                complained = running.stderr.read()
                status = running.wait()
            except TimeoutError:
                running.kill()
                raise
            finally:
                signal.alarm(0)
        printed.seek(0)
        return status if status >= 0 else 128 - status, printed.read(), complained


def advice_at(step: Step, status: int, folder: Path) -> str:
    """What may come by standard error where the case doesn't tell it."""
    stands = status and any((folder / name).is_file() for name in out_of(step))
    return ADVICE.get(status, "") + (STANDS if stands else "")


def error_lines(step: Step, lines: list[str], advice: str) -> list[str]:
    """What came by standard error, where it isn't what has to come where the case doesn't tell it."""
    is_told = any(claim.startswith(ERROR) for claim in step.claims)
    if not is_told and re.fullmatch(advice, "".join(f"{line}\n" for line in lines)):
        return []
    return [f"[{ERROR}{line}]" for line in lines] or ([] if is_told else ["[nothing by standard error]"])


def expected_of(step: Step) -> list[str]:
    return [f"$ {step.line}", *step.output, *(f"[{claim}]" for claim in step.claims)]


def found_of(program: str, step: Step, folder: Path, before: dict, after: dict) -> list[str]:
    """How the step comes out: the lines that are expected where all is well. Puts the files' state behind it into `after`."""
    try:
        status, printed, complained = run_step(program, step, folder)
    except TimeoutError:
        after.update(before)
        return [f"$ {step.line}", f"[no end within {SECONDS} seconds]"]
    after.update(state_of(folder))
    output = lines_of(printed)
    lines = [f"$ {step.line}", *(step.output if fits(step.output, output) else output)]
    lines += [f"[{claims.told(claim, folder, status)}]" for claim in step.claims if not claim.startswith(ERROR)]
    if status and not any(claims.STATUS.fullmatch(claim) for claim in step.claims):
        lines.append(f"[status {status}]")
    lines += change_lines(before, after, written_by(step, status))
    return lines + error_lines(step, lines_of(complained), advice_at(step, status, folder))


def difference(program: str, case: Case) -> str:
    """The diff between what is expected of a case and what comes out, empty where they are the same."""
    expected, found = [], []
    with tempfile.TemporaryDirectory(prefix="objtool-commands-") as scratch:
        folder = Path(scratch)
        for name, data in case.files.items():
            (folder / name).write_bytes(data)
        before = state_of(folder)
        for step in case.transcript.steps:
            after: dict[str, object] = {}
            expected += expected_of(step)
            found += found_of(program, step, folder, before, after)
            before = after
    if expected == found:
        return ""
    return "\n".join(difflib.unified_diff(expected, found, case.name, f"by {program}", lineterm=""))


def stop_waiting(*_) -> None:
    """Ends a wait for a command that has had its time."""
    raise TimeoutError


# What the workers share, which is there before they are forked.
ROWS: list[Row] = []
PROGRAMS: list[str] = []


def tried(number: int) -> tuple[str, list[str]]:
    """What is at fault in a row itself, and the diffs of its case by each program."""
    try:
        case = ROWS[number].case()
        return "", [told for program in PROGRAMS if (told := difference(program, case))]
    except CaseFault as fault:
        return str(fault), []


def main(words: list[str]) -> int:
    top, *programs = words
    at = programs.index("--") if "--" in programs else len(programs)
    PROGRAMS.extend(programs[:at])
    try:
        ROWS.extend(all_rows(Path(top), programs[at + 1 :]))
    except CaseFault as fault:
        print(f"commands: {fault}", file=sys.stderr)
        return 2
    differ, faults = 0, 0
    signal.signal(signal.SIGALRM, stop_waiting)
    with multiprocessing.get_context("fork").Pool(len(os.sched_getaffinity(0))) as pool:
        for fault, diffs in pool.imap(tried, range(len(ROWS)), chunksize=8):
            faults += bool(fault)
            differ += bool(diffs)
            for told in [f"commands: {fault}"] * bool(fault) + diffs:
                print(told, flush=True)
    if differ or faults or not ROWS:
        print(f"commands: {differ} of {len(ROWS)} cases differ, {faults} are at fault")
        return 2 if faults else 1
    print(f"commands: {len(ROWS)} cases passed" + (f", by each of {len(PROGRAMS)} programs" if len(PROGRAMS) > 1 else ""))
    return 0


if __name__ == "__main__":
    sys.exit(main(sys.argv[1:]))
