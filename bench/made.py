"""Cells for trials and their updates, as the program makes them by its line `make`."""
import os
import shutil
import subprocess
import sys
import tempfile

TOP = os.path.dirname(os.path.dirname(os.path.abspath(__file__)))
PROGRAM = os.path.join(TOP, "crates/ecdis_cli/out/ecdis_cli")
WORDS = ["--catalogue", "catalogue", "--table", "table"]
DATA = os.path.join(TOP, "crates/ecdis_cli/data")


def files_in(bank):
    """The cell files that a bank has records of, in their order. A record is an open gate, a length of four bytes and a
    command; that of a load is 0x01 and the file."""
    files, at = [], 8
    while at < len(bank) and bank[at] & 1:
        body = bank[at + 5:at + 5 + int.from_bytes(bank[at + 1:at + 5], "big")]
        if body[:1] == b"\x01":
            files.append(body[1:])
        at += 5 + len(body)
    return files


def files_of(script, files=()):
    """The cell files that a store has taken after a script, over files by their names."""
    if not os.access(PROGRAM, os.X_OK):
        sys.exit("bench: no program at crates/ecdis_cli/out/ecdis_cli: build it first (demo/build)")
    with tempfile.TemporaryDirectory() as folder:
        for name in ("catalogue", "table"):
            shutil.copy(os.path.join(DATA, name), folder)
        for name, data in dict(files).items():
            with open(os.path.join(folder, name), "wb") as out:
                out.write(data)
        said = subprocess.run([PROGRAM, *WORDS], cwd=folder, input=script, stdout=subprocess.PIPE, check=True).stdout
        refused = [line for line in said.split(b"\n") if line and not line.startswith(b"ok ")]
        if refused:
            sys.exit("bench: %s" % refused[0].decode("latin-1"))
        with open(os.path.join(folder, "chart-store", "bank1"), "rb") as bank:
            return files_in(bank.read())


def made(areas, updates):
    """The cell of so many areas, and so many of its updates."""
    return files_of(b"".join(b"make %d %d\n" % (areas, number) for number in range(updates + 1)))
