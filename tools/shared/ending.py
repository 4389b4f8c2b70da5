"""What each script of tools/ and examples/ imports first: from here on one that is stopped while it loads the rest ends without a traceback.

It is short since Python reads it before that holds. What scripts take from it is in ends.py.
"""
import sys


def hook(kind, *rest):
    """What stops the script before it has begun needs no traceback."""
    if not issubclass(kind, KeyboardInterrupt):
        sys.__excepthook__(kind, *rest)


sys.excepthook = hook
sys.dont_write_bytecode = True

import least  # ends here where Python is older than that
from ends import TOP, end, kit, number, room, rooms, run, work
