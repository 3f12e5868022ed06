"""Compares the moves of states with the model: moves.py PROGRAM.

Each operation, by an instruction that has it, moves the states of a grid; PROGRAM prints what becomes of them (tools/compare/programs/moves.rt.txt).
"""

import subprocess
import sys
import tempfile

from opcodes import decode
from rust_text import state_text
from states import Broken, Live, Regs, move

DEPTHS = (-32, -24, 0, 8, 16, 24, 32, 40, 48, 56, 64, 1_073_741_816, 1_073_741_824)
HOMES = (16, 24, 32, 48, 1_073_741_816)
CODES = """
    90 f30f1efa 89d8 cc 0f0b 0f01cb 0f01ca c3 c20800 0f05 ffe0 ffd0 eb00 7400 e800000000 48cf
    50 55 58 5d 9d c9 5c 89ec 31ed 4889e5 488d2c24 488d6c2408 488d6c2410 488d6c24f8 488dac2400000040
    4883c400 4883c408 4883c410 4883c418 4883c428 4883c4f8 4883ec08 4881c4ffffff7f 4881ecffffff7f 4881ec00000080 4881c4f8ffff3f
    4883e4f0 4889ec 488d6508 488d65f8 488d65e8 488da500000040 488da5080000c0 488da500000080
    48892c24 48896c2408 48896c2410 48896c24f8 4889ac2400000040 488b2c24 488b6c2408 488b6c2410 488b6c2418 488b6c24f8 488bac24e8ffff3f
""".split()


def grid():
    for depth in DEPTHS:
        if depth >= 8:
            yield Live(False, depth, None, None)
        for home in HOMES:
            if home <= depth:
                yield from (Live(False, depth, None, home), Live(False, depth, home, home), Live(True, depth, home, home))
        yield Regs(True, depth)
        if depth >= 0:
            yield Regs(False, depth)


def moved(state, insn) -> str:
    try:
        return f"= {state_text(move(state, insn))}"
    except Broken as broken:
        return f"= rule {broken.rule}"


def main(program: str) -> int:
    codes = [bytes.fromhex(code) for code in CODES]
    insns = [decode(code) for code in codes]
    insns = [insn._replace(op="IretNext") if insn.op == "Iret" else insn for insn in insns]
    wanted = [(code, state, moved(state, insn)) for code, insn in zip(codes, insns) for state in grid()]
    with tempfile.NamedTemporaryFile() as file:
        file.write(b"".join(code.ljust(16, b"\x90") for code in codes))
        file.flush()
        ran = subprocess.run([program, file.name], capture_output=True, text=True, check=True)
    told = [line for line in ran.stdout.splitlines() if line.startswith("= ")]
    different = abs(len(told) - len(wanted))
    for line, (code, state, there) in zip(told, wanted):
        if line != there:
            different += 1
            print(f"{code.hex()} from {state_text(state)}: moved {line}, by the model {there}")
    print(f"moves: {len(wanted)} states, {different} different")
    return 1 if different else 0


if __name__ == "__main__":
    sys.exit(main(*sys.argv[1:]))
