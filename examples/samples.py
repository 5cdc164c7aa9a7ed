"""Prints the samples of a move by the shared object, as a screen would ask for them.

    python3 examples/samples.py target/shared/libnitswolan.so

Without a name the installed one is loaded, by the first number of the version for which the structs below are written.
"""

import ctypes
import sys
from ctypes import c_int64, c_uint64


class Move(ctypes.Structure):
    """nitswolan_move: what is not given is 0."""

    _fields_ = [
        ("displacement", c_int64),
        ("velocity", c_uint64),
        ("acceleration", c_uint64),
        ("jerk", c_uint64),
        ("snap", c_uint64),
        ("start", c_int64),
    ]


class Plan(ctypes.Structure):
    """nitswolan_plan_result"""

    _fields_ = [(name, c_uint64) for name in ("refusal", "samples", "a", "b", "c", "e", "snap", "shortfall")]


class Sample(ctypes.Structure):
    """nitswolan_sample_result"""

    _fields_ = [("refusal", c_uint64)] + [
        (name, c_int64) for name in ("snap", "jerk", "acceleration", "velocity", "position", "count", "remainder")
    ]


UNITS_PER_COUNT = 2**40


def load(name):
    """The library, with the types of the two functions that are called: ctypes would take every argument and answer for an int."""
    library = ctypes.CDLL(name)
    library.nitswolan_plan_move.argtypes = [Move]
    library.nitswolan_plan_move.restype = Plan
    library.nitswolan_sample_move.argtypes = [Move, c_uint64]
    library.nitswolan_sample_move.restype = Sample
    return library


def print_move(library, move):
    plan = library.nitswolan_plan_move(move)
    if plan.refusal:
        print(f"{move.displacement} counts: refused {plan.refusal}")
        return
    print(f"{move.displacement} counts from {move.start} in {plan.samples} samples")
    print("sample  count      remainder        velocity")
    for k in range(plan.samples + 1):
        now = library.nitswolan_sample_move(move, k)
        print(f"{k:6}  {now.count:5}  {now.remainder:13}  {now.velocity:14}")


def main():
    library = load(sys.argv[1] if len(sys.argv) > 1 else "libnitswolan.so.1")
    bound = UNITS_PER_COUNT
    print_move(library, Move(9, 2 * bound, bound, bound, bound))
    print_move(library, Move(-9, 2 * bound, bound, bound, bound, 9))
    print_move(library, Move(0, bound, bound, bound, bound))


main()
