"""What the tests of the examples share: files by their names from the repository's root, what a program prints, and a
table's digest."""

import os
import struct
import subprocess

ROOT = os.path.dirname(os.path.dirname(os.path.dirname(os.path.abspath(__file__))))


def read(name, mode="r"):
    with open(os.path.join(ROOT, name), mode, **({} if "b" in mode else {"encoding": "utf-8"})) as file:
        return file.read()


def output_of(command, data=b""):
    """What a command prints, with its exit status."""
    done = subprocess.run(command, input=data, stdout=subprocess.PIPE, timeout=60, check=False)
    return done.returncode, done.stdout.decode()


def digest_of(table):
    """What examples/digest.h computes: FNV-1a, 64 bits, over links and points with the low byte first."""
    digest = 0xCBF29CE484222325
    for byte in struct.pack(f"<{len(table.links)}H{len(table.points)}i", *table.links, *table.points):
        digest = (digest ^ byte) * 0x100000001B3 % 2 ** 64
    return f"{digest:016x}"
