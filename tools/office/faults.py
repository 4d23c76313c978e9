"""How a tool ends: a fault is one line on standard error and status 1."""
import os
import sys
from collections.abc import Callable, Iterable
from typing import Any, NoReturn


class Fault(Exception):
    """Something that the user gave is not as wanted. The text is the whole message; several faults of one row have a line each."""


class FinalFault(Fault):
    """A fault that every row would have, so that the first one ends the run."""


def gathered(*calls: Callable[[], Any]) -> list[Any]:
    """What each call gives, or one fault that names the faults of all."""
    out, faults = [], []
    for call in calls:
        try:
            out.append(call())
        except FinalFault:
            raise
        except Fault as fault:
            faults.append(fault)
    if faults:
        raise faults[0] if len(faults) == 1 else Fault("\n".join(map(str, faults)))
    return out


def say_faults(faults: Iterable[str]) -> int:
    """Names every fault in a line, and gives the status."""
    for line in faults:
        print(f"{tool()}: {line}", file=sys.stderr)
    return 1


def tool() -> str:
    return os.path.basename(sys.argv[0])


def end_with(main: Callable[[], int | None]) -> NoReturn:
    """Runs a tool and ends with its status."""
    try:
        status = main()
        sys.stdout.flush()
        sys.exit(status)
    except Fault as fault:
        sys.exit(say_faults(str(fault).splitlines()))
    except BrokenPipeError:  # the reader has enough, as with `| head`
        os.dup2(os.open(os.devnull, os.O_WRONLY), sys.stdout.fileno())
        sys.exit(0)
    except KeyboardInterrupt:
        sys.exit(130)
