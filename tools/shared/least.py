"""The least Python that the scripts run by: an older one is told so in one line."""
import os
import sys

LEAST = (3, 7)
NEEDS = """It needs Python 3.7 or later, and nothing else of Python's. The program is for Linux on x86-64. Building it, and every proof, needs the kit (`rt`,
13b or 13f); `rt ci` reckons with up to 6 GB of free memory for a crate of the program, and with 9 GB for the dearest one of the gate."""

if sys.version_info < LEAST:
    name = os.path.basename(sys.argv[0])
    sys.stderr.write("%s: it needs Python %d.%d or later, and this is %d.%d\n" % ((name,) + LEAST + sys.version_info[:2]))
    sys.exit(2)


def fail(why, status=2):
    """Ends the script with a line."""
    print(f"{os.path.basename(sys.argv[0])}: {why}", file=sys.stderr)
    sys.exit(status)


def bad_words(why):
    fail(f"{why} (`{sys.argv[0]} --help` shows the words)")
