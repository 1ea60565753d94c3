"""How a tool ends: with its own status, or where a file or a program cannot be had, or nothing be written, with one line and status 2."""
from __future__ import annotations

import os
import sys
from pathlib import Path
from typing import Callable, NoReturn


def end(main: Callable[[], int | None]) -> NoReturn:
    """Runs a tool to its end. Where nobody reads on what it writes, as behind `| head`, it ends without a word."""
    try:
        status = main()
        sys.stdout.flush()
    except BrokenPipeError:
        write_no_more()
        status = 1
    except OSError as fault:
        # (one without a name is of what is read or written there, as of a full disk behind standard output)
        name = f"{os.fsdecode(fault.filename)}: " if fault.filename is not None else ""
        print(f"{Path(sys.argv[0]).stem}: {name}{fault.strerror or fault}", file=sys.stderr)
        write_no_more()
        status = 2
    sys.exit(status)


def write_no_more() -> None:
    """What is left to be written at the end of Python goes nowhere."""
    os.dup2(os.open(os.devnull, os.O_WRONLY), sys.stdout.fileno())
