"""The library from Python: maps a job and prints what each output reads under every setting, beside the walk's value, and the round
in which each output's row was first lit: 0 for row 0, - where it is dark.

    python3 examples/host.py JOB [LIBRARY]

LIBRARY is the shared library, libcrossbar.so of the system without it. The exit status is 1 where a file is not there, a call refuses,
there are more than 16 switches, or a reading is not the walk's value.
"""
import ctypes
import itertools
import sys

RECORD_BYTES = 72
MAX_CELLS = 128 * 128
MAX_FIRST_ROUNDS_BYTES = 2 * (128 + 128)

# The most switches for which every setting is tried.
MAX_TRIED = 16


def library(path):
    """The shared library; every call answers 64 bits."""
    lib = ctypes.CDLL(path)
    for name in ("map", "walk", "light", "print", "load"):
        getattr(lib, "crossbar_" + name).restype = ctypes.c_uint64
    return lib


def given(data):
    """A slice that is handed in: a pointer and a length."""
    return ctypes.c_char_p(bytes(data)), ctypes.c_size_t(len(data))


def lent(buffer):
    """A slice that is lent for the answer."""
    return buffer, ctypes.c_size_t(len(buffer))


def value(call, answer):
    """The value of an answer; a refusal is an error. The number of refusal is the highest byte."""
    number, rest = answer >> 56, answer & ((1 << 56) - 1)
    if number != 0:
        raise ValueError(f"{call}: refused {number}, line {rest}")
    return rest


def number_at(buffer, place):
    """A number of two bytes. Of a record: 0 rows, 1 columns, 2 switches, 3 outputs, 4 + j the row of output j. Of first rounds: r the
    one of row r."""
    return int.from_bytes(buffer.raw[2 * place:2 * place + 2], "little")


def show(lib, job):
    """Prints a line for each setting. Is every reading the walk's value?"""
    record = ctypes.create_string_buffer(RECORD_BYTES)
    cells = ctypes.create_string_buffer(MAX_CELLS)
    first_rounds = ctypes.create_string_buffer(MAX_FIRST_ROUNDS_BYTES)
    value("map", lib.crossbar_map(*given(job), *lent(record), *lent(cells)))
    switches, outputs = number_at(record, 2), number_at(record, 3)
    if switches > MAX_TRIED:
        raise ValueError(f"{switches} switches have too many settings to try them all")
    same = True
    for setting in itertools.product((0, 1), repeat=switches):
        rounds = value("light", lib.crossbar_light(*given(record.raw), *given(cells.raw), *given(setting), *lent(first_rounds)))
        firsts = [number_at(first_rounds, number_at(record, 4 + j)) for j in range(outputs)]
        reads = [int(first != 0) for first in firsts]
        walks = [value("walk", lib.crossbar_walk(*given(job), *given(setting), ctypes.c_uint32(j))) for j in range(outputs)]
        print("setting", *setting, "rounds", rounds, "reads", *reads, "walks", *walks, "first lit", *(first - 1 if first else "-" for first in firsts))
        same = same and reads == walks
    return same


def main():
    if len(sys.argv) not in (2, 3):
        sys.exit("usage: host.py JOB [LIBRARY]")
    try:
        with open(sys.argv[1], "rb") as file:
            job = file.read()
        same = show(library(sys.argv[2] if len(sys.argv) == 3 else "libcrossbar.so"), job)
    except (OSError, ValueError) as error:
        sys.exit(f"host.py: {error}")
    sys.exit(0 if same else 1)


if __name__ == "__main__":
    main()
