"""The command `ets_script` of the wheel."""

from __future__ import annotations

import os
import signal
import sys
from typing import NoReturn

from . import finding


def main() -> NoReturn:
    """Becomes the program of this package, with the options of the command line. Ends with status 1 if there is none."""
    try:
        program = finding.own_program()
        # Python ignores these signals, and a program inherits that.
        for it in signal.SIGPIPE, signal.SIGXFSZ:
            signal.signal(it, signal.SIG_DFL)
        os.execv(program, ["ets_script", *sys.argv[1:]])
    except finding.Unavailable as unavailable:
        sys.exit(str(unavailable))
    except OSError as error:
        sys.exit(str(finding.unavailable(program, "YOYOASH_PROGRAM", error)))
