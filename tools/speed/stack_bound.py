"""The most stack that a program's own functions take: stack_bound.py PROGRAM BYTES.

It is read off the disassembly. A function's frame is what its pushes and subtractions add up to, with the return address of
its call; the most is that of the deepest chain of calls from main on. A jump to another function's start counts as a call.
A function that calls itself counts as often as LEVELS says. Where another one does, or a call or jump goes through a
pointer, there is no bound; then, and where more than BYTES are needed, the status is 1. Of the C library's functions, which
are named, nothing is said.
"""
import re
import subprocess
import sys

# How deep the functions of the libraries go that call themselves: a pattern of names, the levels, and why.
LEVELS = [
    (r"^core::slice::sort::(un)?stable::quicksort", 67, "twice the logarithm of a length below 2^33, then another sort"),
    (r"^core::slice::sort::stable::merge_sort", 34, "halves of a length below 2^33"),
    (r"^core::slice::sort::pivot::median_of_medians", 12, "eighths of a length below 2^33"),
    (r"^core::slice::sort::runs::climb", 65, "the depth of a boundary, of 1 to 65, rises"),
    (r"^std_collections::btree::node::Node::(make_room|destroy|peel_first)", 14, "the height of a tree of fewer than 2^33 keys"),
    (r"clap\+\+(builder\+\+command\+\+Command|parser\+\+matches\+\+SubCommand)\+Destruct::drop", 3, "a command and its commands"),
    (r"^clap::(builder::command|parser::(parse|globals))::", 3, "a command and its commands"),
]


class Function:
    def __init__(self, name):
        self.name, self.frame, self.calls, self.outside, self.pointers = name, 8, set(), set(), 0


def functions(program):
    """The functions of the program by the addresses at which they start."""
    command = ["objdump", "-dw", "--no-show-raw-insn", program]
    listed = subprocess.run(command, capture_output=True, text=True, check=True, errors="replace").stdout
    found, current, before = {}, None, []
    for line in listed.splitlines():
        head = re.match(r"([0-9a-f]+) <(.+)>:$", line)
        if head:
            current = found[int(head[1], 16)] = Function(head[2])
            continue
        insn = re.match(r"\s+[0-9a-f]+:\t(?:(?:bnd|notrack|rep|repz|lock|data16|cs) )*(\S+) *(.*)", line)
        if insn and current:
            take(current, before, *insn.groups())
            before = (before + [insn.groups()])[-24:]
    return found


def take(function, before, name, operands):
    """Takes an instruction into account, with those before it."""
    amount = re.match(r"\$(0x[0-9a-f]+),%rsp$", operands)
    touched = re.match(r"-(0x[0-9a-f]+)\(%rsp\),%r11$", operands)
    target = re.match(r"([0-9a-f]+) <(.+)>$", operands)
    if name.startswith("push"):
        function.frame += 8
    elif name == "sub" and amount:
        function.frame += int(amount[1], 16)
    elif name == "add" and amount and int(amount[1], 16) >= 1 << 63:
        function.frame += (1 << 64) - int(amount[1], 16)
    elif name == "lea" and touched:
        # A large frame is touched page by page, down to the address in r11.
        function.frame += int(touched[1], 16)
    elif name in ("call", "jmp") and target and target[2].endswith("@plt"):
        function.outside.add(target[2][:-4])
    elif name in ("call", "jmp") and target:
        function.calls.add(int(target[1], 16))
    elif name == "call":
        function.pointers += 1
    elif name == "jmp" and not is_switch(before, operands.removeprefix("*")):
        function.pointers += 1


def is_switch(before, register):
    """Whether a jump to this register is one by a table of a switch: what wrote it last is the sum with the table's place."""
    low = register.replace("%r", "%e") if register[2].isalpha() else register + "d"
    writes = [name for name, operands in before if re.split("[, ]", operands)[-1] in (register, low)]
    return bool(writes) and writes[-1] == "add"


def components(found, root):
    """What is reached from root on: sets of functions that call one another, each behind those that it calls."""
    order, lowest, path, done = {}, {}, [], []

    def visit(at):
        order[at] = lowest[at] = len(order)
        path.append(at)
        for to in found[at].calls:
            if to not in order:
                visit(to)
            if to in path:
                lowest[at] = min(lowest[at], lowest[to])
        if lowest[at] == order[at]:
            start = path.index(at)
            done.append(path[start:])
            del path[start:]

    visit(root)
    return done


def levels_of(found, members):
    """How often these functions, which call one another, may stand in a chain; none where nobody knows."""
    if len(members) == 1 and members[0] not in found[members[0]].calls:
        return 1
    known = [next((it[1] for it in LEVELS if re.search(it[0], found[at].name)), None) for at in members]
    return None if None in known else max(known)


def main(program, limit):
    found = functions(program)
    for function in found.values():
        # A jump within a function is none to another one.
        function.calls = {at for at in function.calls if at in found}
    root = next(at for at, it in found.items() if it.name == "main")
    reached = components(found, root)
    faults = [f"{found[at].name}: a call through a pointer" for it in reached for at in it if found[at].pointers]
    deepest, recursive = {}, 0
    for members in reached:
        levels = levels_of(found, members)
        if levels is None:
            faults.append(" and ".join(found[at].name for at in members) + ": calls itself, and how deep isn't known")
        recursive += levels != 1
        own = sum(found[at].frame for at in members) * (levels or 1)
        below = [deepest[to] for at in members for to in found[at].calls if to not in members]
        most, chain = max(below, key=lambda it: it[0], default=(0, []))
        for at in members:
            deepest[at] = (own + most, [(own, found[at].name)] + chain)
    most, chain = deepest[root]
    for bytes_, name in chain:
        print(f"  {bytes_:6} {name}")
    outside = sorted({name for it in reached for at in it for name in found[at].outside})
    print(f"outside: {' '.join(outside)}")
    for fault in faults:
        print(f"stack bound: {fault}")
    if faults:
        sys.exit(1)
    print(
        f"stack bound: {most} bytes at most, of {sum(map(len, reached))} functions, none called through a pointer; "
        f"{recursive} call themselves, to a known depth"
    )
    sys.exit(most > limit)


main(sys.argv[1], int(sys.argv[2]))
