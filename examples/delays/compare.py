"""Compares a recording with another one of the same test, at each time of the first, in the bits that both have.

    python3 compare.py timer.folded.vcd ../timer/r.vcd
"""
import os
import sys

sys.path.insert(0, os.path.join(os.path.dirname(os.path.abspath(__file__)), "..", "timer"))
sys.dont_write_bytecode = True

from against_icarus import at, read


def main(folded, other):
    folded, other = read(folded), read(other)
    times = sorted({time for changes in folded.values() for time in changes})
    both = folded.keys() & other.keys()
    differ = sum(at(folded[name], time) != at(other[name], time) for name in both for time in times)
    print(f"{len(both) * len(times)} bits at {len(times)} times, {differ} differ")
    return not differ


if __name__ == "__main__":
    sys.exit(0 if main(*sys.argv[1:]) else 1)
