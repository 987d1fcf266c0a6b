"""How the tools end: with the status that `main` gives, and quietly where nobody reads what they print any more."""
from __future__ import annotations

import os
import sys
from typing import Callable, NoReturn, Optional, Union

CLOSED = 141            # as of a program that the signal for a closed pipe ended


def run(main: Callable[[], Optional[int]]) -> NoReturn:
    status: Union[None, int, str]
    try:
        try:
            status = main()
        except SystemExit as end:
            status = end.code
        sys.stdout.flush()
    except BrokenPipeError:
        # (what is left is dropped, and not tried again at the exit)
        os.dup2(os.open(os.devnull, os.O_WRONLY), sys.stdout.fileno())
        status = CLOSED
    sys.exit(status)
