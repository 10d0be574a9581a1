#!/usr/bin/env python3
"""Compares two sequences with the proved library, through ctypes alone.

As a command, for two FASTA files of one record each:

    python3 examples/hornbeamlet.py examples/strain.fa examples/reference.fa

As a module:

    import hornbeamlet
    listing = hornbeamlet.compare("ACCGT", "ACGGT", k=2, b=2, a=8, m=0)

tools/staticlib writes the library; include/hornbeamlet.h tells what the
settings, the entries and the refusals mean.

A call takes up to about 1 MB of stack, and where a thread has less the program
crashes. The main thread has enough. Before others are started that call, say
threading.stack_size(2 * 1024 * 1024). Calls of several threads run at once.
"""

import ctypes
import functools
import os
import pathlib
import sys
from typing import List, NamedTuple

FORWARD, BOTH = 0, 1  # the strand: the second sequence as it stands, or both
MASKED_FORM, MASKED_BREAK = 0, 1  # the mask: what letters in lower case do to k-mers
RECORD, ENTRY, ANSWER = 8, 6, 7  # numbers in a record, an entry, the answer
REFUSED = 2**32  # what hornbeamlet_need adds to the number of a refusal
LIST_SHORT = 8  # the refusal of list room that is too short
FIRST_ENTRIES = 64  # entries that the list room holds at the first try
LARGEST = 2**32 - 1


class Entry(NamedTuple):
    """One chain: where it begins and ends in both sequences, from place 1."""

    first_start: int
    first_end: int
    second_start: int
    second_end: int
    weight: int
    strand: str  # "forward" or "reverse"


class Listing(NamedTuple):
    """The tallies of a comparison, and its entries in their order."""

    listed: int
    matches: int
    widest: int
    links: int
    entries: List[Entry]


class Refused(Exception):
    """The library refused: number, sequence (0, 1 or 2) and detail."""

    def __init__(self, number, sequence, detail):
        super().__init__(f"refusal {number}, sequence {sequence}, detail {detail}")
        self.number, self.sequence, self.detail = number, sequence, detail


@functools.lru_cache(maxsize=None)
def library():
    """The shared library with its two functions declared as in the header."""
    usual = pathlib.Path(__file__).resolve().parent.parent / "native"
    folder = pathlib.Path(os.environ.get("HORNBEAMLET_NATIVE") or usual)
    path = folder.resolve() / "libhornbeamlet.so"
    if not path.exists():
        raise OSError(f"{path} is missing: run tools/staticlib first")
    loaded = ctypes.CDLL(str(path))
    number, size = ctypes.c_uint32, ctypes.c_size_t
    # c_char_p takes the bytes as they lie; their number goes with them
    job = [number] * 6 + [ctypes.c_char_p, size] * 2
    room = [ctypes.POINTER(number), size]
    loaded.hornbeamlet_need.argtypes = job
    loaded.hornbeamlet_need.restype = ctypes.c_uint64
    answer = ctypes.POINTER(ctypes.c_uint64)
    loaded.hornbeamlet_compare.argtypes = job + room + room + [answer]
    loaded.hornbeamlet_compare.restype = None
    return loaded


def compare(
    first, second, k=13, b=300, a=20, m=100, strand=BOTH, mask=MASKED_FORM
):
    """The listing of two sequences, given as text or bytes; or Refused."""
    settings = [lent_number(n) for n in (k, b, a, m, strand, mask)]
    job = settings + lent_letters(first) + lent_letters(second)
    records = library().hornbeamlet_need(*job)
    # where need refuses, compare gives the same refusal with its particulars
    work = lent_room(RECORD * records if records < REFUSED else 0)
    entries, answer = FIRST_ENTRIES, (ctypes.c_uint64 * ANSWER)()
    while True:
        room = lent_room(ENTRY * entries)
        library().hornbeamlet_compare(*job, *work, *room, answer)
        number, sequence, detail, listed, *tallies = answer
        if number == 0:
            return Listing(listed, *tallies, read_entries(room[0], listed))
        if number != LIST_SHORT:
            raise Refused(number, sequence, detail)
        entries = detail


def lent_number(number):
    """A number of 32 bits: ctypes would cut others, and a good one might be left."""
    return number if 0 <= number <= LARGEST else LARGEST


def lent_letters(sequence):
    """The letters and their number; a letter beyond ASCII becomes a bad one."""
    if isinstance(sequence, str):
        sequence = sequence.encode("ascii", "replace")
    return [bytes(sequence), len(sequence)]


def lent_room(numbers):
    """A room and its size; one number more is kept, so that it is never empty."""
    return [(ctypes.c_uint32 * (numbers + 1))(), numbers]


def read_entries(room, listed):
    """The entries that stand in the list room."""
    starts = range(0, ENTRY * listed, ENTRY)
    found = (room[start : start + ENTRY] for start in starts)
    return [Entry(*n[:5], "reverse" if n[5] else "forward") for n in found]


def read_record(path):
    """The letters of a file of one record, with a name line or without."""
    with open(path, "rb") as file:
        lines = [line.strip() for line in file.read().splitlines()]
    lines = [line for line in lines if line]
    names = [at for at, line in enumerate(lines) if line.startswith(b">")]
    if not lines or names not in ([], [0]):
        raise ValueError(f"{path}: the file has to hold one record")
    return b"".join(lines[len(names) :])


def main(arguments):
    """The command. The exit status is 0, 1 when refused, 2 for usage or file."""
    if len(arguments) != 2:
        print("usage: hornbeamlet.py FIRST SECOND", file=sys.stderr)
        return 2
    try:
        listing = compare(*map(read_record, arguments))
    except Refused as refusal:
        place = arguments[refusal.sequence - 1] + ": " if refusal.sequence else ""
        print(f"hornbeamlet.py: {place}{refusal}", file=sys.stderr)
        return 1
    except (OSError, ValueError) as fault:
        name = getattr(fault, "filename", None)
        told = f"{name}: {fault.strerror}" if name else fault
        print(f"hornbeamlet.py: {told}", file=sys.stderr)
        return 2
    print("clause", *Entry._fields, sep="\t")
    for clause, entry in enumerate(listing.entries, 1):
        print(clause, *entry, sep="\t")
    return 0


if __name__ == "__main__":
    sys.exit(main(sys.argv[1:]))
