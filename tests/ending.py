"""The end of a test that collects its faults: each in a line, a summary with their number, and the exit status."""

import sys


def tell(summary, faults):
    for fault in faults:
        print(fault)
    print(f"{summary}, {len(faults)} faults")
    sys.exit(1 if faults else 0)
