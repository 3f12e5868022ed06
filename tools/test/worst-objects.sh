#!/usr/bin/env bash
# Runs the program on the worst objects near the limits that tools/test/worst-objects/make.py writes, and prints of each the processor
# time, the most memory and the status. Ends with status 1 where one takes more than 10 seconds or 3 GB, or has another status
# than is allowed.
#   worst-objects.sh [NAME..]    all of them, or those of these names
# SCALE=N makes all an Nth as large, and the limits an Nth as well; ALLOWED=N allows so many seconds in the place of 10. STACK=KIB runs the
# program with so small a stack, MEMORY=MIB with so much memory at most (5,000), SECONDS_MOST=N with so much time at most (60);
# KEEP=FOLDER keeps the objects. COMMAND=sites, cfi or show runs that command in the place of `check`, without options of `check` alone; it
# may also accept what `check` does not. COMMAND="check --backtrace" runs that.
#
# `.ci/run` runs one of them alone, with SCALE=4 and MEMORY=196: `shared-table`, in which 250 jumps share a table of 250,000 entries, in
# all 62 million edges. These edges alone would take 500 MB: they have to stand once.
set -eu
. "$(dirname "$0")/../lib/prepare.sh"
needs "worst objects" gcc python3
program=$(built)
PYTHONPATH=$root/tools/lib PROGRAM=$program MAKE=$here/worst-objects/make.py FOLDER=${KEEP:-$scratch} python3 - "$@" <<'PYTHON'
import os
import resource
import subprocess
import sys

from measure import once

program, make = os.environ["PROGRAM"], os.environ["MAKE"]
stack, memory = int(os.environ.get("STACK", 8192)), int(os.environ.get("MEMORY", 5000))
most = int(os.environ.get("SECONDS_MOST", 60))
os.chdir(os.environ["FOLDER"])
scale = int(os.environ.get("SCALE", 1))
SECONDS, MEGABYTES = int(os.environ.get("ALLOWED", 10)) / scale, 3000 / scale


def limited():
    resource.setrlimit(resource.RLIMIT_STACK, (stack << 10, stack << 10))
    resource.setrlimit(resource.RLIMIT_AS, (memory << 20, memory << 20))
    resource.setrlimit(resource.RLIMIT_CPU, (most, most + 1))


def first_line(words):
    with subprocess.Popen(words, stdout=subprocess.PIPE, preexec_fn=limited) as child:
        line = child.stdout.readline(200)
        child.kill()
    return line.decode(errors="replace").strip()


# A small object for the commands whose other file is the worst.
subprocess.run([sys.executable, make, "small", "small.o"], check=True)
subprocess.run([program, "check", "small.o", "small.checked.o"], check=True)
other, SHARED = os.environ.get("COMMAND"), ("--all-opcodes", "--names=")
bad, tried = 0, 0
for line in subprocess.run([sys.executable, make], capture_output=True, text=True, check=True).stdout.splitlines():
    name, command, statuses, what = line.split("\t")
    if name == "small" or sys.argv[1:] and name not in sys.argv[1:]:
        continue
    if other:
        if not command.startswith("check "):
            continue
        first, *more = other.split()
        named = [word for word in command.split()[1:] if first == "check" or not word.startswith("--") or word.startswith(SHARED)]
        command = " ".join([first, *(word for word in named if first != "show" or word != "OUT"), *more])
        statuses += "0" if first != "check" else ""
    object = f"{name}.o"
    tried += 1
    if not os.path.exists(object):
        subprocess.run([sys.executable, make, name, object], check=True)
    files = {"OBJECT": object, "OUT": "out.o", "SMALL": "small.checked.o" if command.startswith("unwind") else "small.o"}
    words = [program]
    for word in command.split():
        for key, file in files.items():
            word = word.replace(key, file)
        words.append(word)
    took = once(words, preexec_fn=limited)
    status, seconds, megabytes = took.status, took.seconds, took.memory * 1024 / 1e6
    over = ""
    if str(status) not in list(statuses):
        over = f"  <-- status {status}, not {' or '.join(statuses)}: {first_line(words) if status > 0 else 'killed'}"
    elif seconds > SECONDS or megabytes > MEGABYTES:
        over = "  <-- above the limits"
    bad += bool(over)
    print(f"{name}: {seconds:.2f} s, {megabytes:.0f} MB, status {status} ({what}){over}", flush=True)
    if os.path.exists("out.o"):
        os.remove("out.o")
    if "KEEP" not in os.environ:
        os.remove(object)
print(f"worst objects: {bad} of {tried} above {SECONDS:g} s or {MEGABYTES:g} MB, or with a status that isn't allowed")
sys.exit(bad > 0 or not tried)
PYTHON
