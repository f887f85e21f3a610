"""How a tool ends: with its status, or with 1 and what is wrong on standard error."""

import os
import sys


def status(name, run, faults):
    """What `run` gives; 1 behind a line for one of the faults, 130 where it was broken off. A pipe whose reader has seen enough is no fault."""
    try:
        return run()
    except faults as fault:
        print(f"{name}: {fault}", file=sys.stderr)
    except KeyboardInterrupt:
        return 130
    except OSError as fault:
        # What is left must not be tried again at the interpreter's end.
        os.dup2(os.open(os.devnull, os.O_WRONLY), sys.stdout.fileno())
        if isinstance(fault, BrokenPipeError):
            return 0
        print(f"{name}: standard output: {fault.strerror}", file=sys.stderr)
    return 1
