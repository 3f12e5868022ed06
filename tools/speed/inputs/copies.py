"""Joins many copies of a folder's objects into one with `ld -r`, so that its text has about so many bytes, and prints how many
it has. Each copy's symbols get a prefix of their own, functions' parts too, so that each stays with its function.
  copies.py FOLDER BYTES OUT SCRATCH"""
import glob
import subprocess
import sys


def text_bytes(object):
    """The bytes of the sections that hold code (SHT_PROGBITS with SHF_EXECINSTR)."""
    sizes = 0
    for line in subprocess.run(["readelf", "-SW", object], capture_output=True, text=True, check=True).stdout.splitlines():
        words = line.partition("]")[2].split()
        if len(words) > 7 and words[1] == "PROGBITS" and "X" in words[6]:
            sizes += int(words[4], 16)
    return sizes


def renamed(object, prefix, to):
    """A copy of an object whose defined symbols have a prefix before their names."""
    names = set()
    for line in subprocess.run(["readelf", "-sW", object], capture_output=True, text=True, check=True).stdout.splitlines():
        words = line.split()
        if len(words) == 8 and words[3] not in ("SECTION", "FILE", "Type") and words[6] not in ("UND", "Ndx"):
            names.add(words[7])
    with open(f"{to}.names", "w") as it:
        it.writelines(f"{name} {prefix}{name}\n" for name in sorted(names))
    subprocess.run(["objcopy", f"--redefine-syms={to}.names", object, to], check=True)
    return to


def joined(objects, to, *flags):
    """One object of these, by `ld -r` with these flags besides."""
    subprocess.run(["ld", "-r", *flags, "-o", to, *objects], check=True, stderr=subprocess.DEVNULL)
    return to


if __name__ == "__main__":
    folder, size, out, scratch = sys.argv[1], int(sys.argv[2]), sys.argv[3], sys.argv[4]
    objects = sorted(glob.glob(f"{folder}/*.o"))
    one = joined([renamed(object, f"o{i}_", f"{scratch}/one{i}.o") for i, object in enumerate(objects)], f"{scratch}/one.o")
    copies = max(1, size // text_bytes(one))
    joined([renamed(one, f"c{i}_", f"{scratch}/copy{i}.o") for i in range(copies)], out)
    print(text_bytes(out))
