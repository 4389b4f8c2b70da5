"""How the scripts of tools/ and examples/ end: with what they say and a status, never with a traceback for what a person may run into."""
import os
import shutil
import signal
import subprocess
import sys
import tempfile

# The repository that these scripts lie in.
TOP = os.path.dirname(os.path.dirname(os.path.dirname(os.path.realpath(__file__))))
BAD_WORDS, UNWRITTEN, STOPPED = 2, 3, 130
# What scripts call by name.
PROGRAMS = ("rt", "cc", "git", "bash")
# Folders that a script keeps where it found something wrong, and that go where it was stopped.
rooms = []
# Whether standard output was closed as the script began: what is printed goes nowhere then, and the status says so.
is_closed = sys.stdout is None
if is_closed:
    sys.stdout = open(os.devnull, "w")


class Stopped(Exception):
    """The script was told to end."""


def room(**named):
    """A new temporary folder. Whoever makes it removes it, or names it; it goes by itself where the script is stopped."""
    rooms.append(tempfile.mkdtemp(**named))
    return rooms[-1]


def kit():
    """The folder of the toolchain that `rt` belongs to."""
    said = subprocess.run(["rt", "doc"], stdout=subprocess.PIPE, universal_newlines=True, check=True).stdout
    return os.path.dirname(said.split()[-1])


def number(word, doc):
    """A whole number from 1 on; else the words are bad."""
    if not (word.isascii() and word.isdigit() and 0 < int(word[:18]) and len(word) < 19):
        sys.exit(doc)
    return int(word)


def stop(*_):
    raise Stopped


def run(words, **how):
    """What a program prints on standard output and, where that is a pipe too, on standard error, and its status. Where the script is stopped, the
    program is waited for a while, since it may have folders to remove."""
    with subprocess.Popen(words, stdout=subprocess.PIPE, universal_newlines=True, **how) as ran:
        try:
            return (*ran.communicate(), ran.returncode)
        except BaseException:
            for ask, seconds in ((None, 5), (ran.terminate, 10), (ran.kill, None)):
                if ask:
                    ask()
                try:
                    ran.wait(seconds)
                    break
                except subprocess.TimeoutExpired:
                    continue
            raise


def work():
    """For a process that works for another one: what is typed goes to that one, which ends this, and then this removes its folders."""
    signal.signal(signal.SIGINT, signal.SIG_IGN)
    signal.signal(signal.SIGTERM, lambda number, _: sys.exit(128 + number))


def end(main, doc):
    """Ends the script with what its `main` gives or exits with. `--help` prints its first lines, and exiting with them is what bad words come to."""
    try:
        for number in (signal.SIGTERM, signal.SIGHUP):
            signal.signal(number, stop)
        status = ended(main, doc)
    except (KeyboardInterrupt, Stopped):
        status = STOPPED
    except BrokenPipeError:
        status = UNWRITTEN
    except OSError as why:
        status = tell(reason(why), BAD_WORDS if why.filename else UNWRITTEN)
    except subprocess.SubprocessError as why:
        status = tell(reason(why), BAD_WORDS)
    else:
        rooms.clear()
    signal.signal(signal.SIGINT, signal.SIG_IGN)
    for folder in rooms:
        shutil.rmtree(folder, ignore_errors=True)
    sys.exit(written(status))


def ended(main, doc):
    """The status with which the script ends, where nothing stops it."""
    if sys.argv[1:] and sys.argv[1] in ("--help", "-h"):
        print(doc.strip(), flush=True)
        return 0
    try:
        status = main()
    except SystemExit as exited:
        status = exited.code
    if isinstance(status, str):
        status = tell(status.strip(), BAD_WORDS if status.strip() == doc.strip() else 1)
    sys.stdout.flush()
    return int(status or 0)


def tell(text, status):
    print(text, file=sys.stderr)
    return status


def reason(why):
    """A line for what the system refused, or for a program that ended as it should not."""
    name = os.path.basename(sys.argv[0])
    if isinstance(why, subprocess.CalledProcessError):
        return f"{name}: {' '.join(map(str, why.cmd))} ended with status {why.returncode}"
    if isinstance(why, subprocess.TimeoutExpired):
        return f"{name}: {' '.join(map(str, why.cmd))} took more than {why.timeout:.0f} seconds"
    if not isinstance(why, OSError):
        return f"{name}: {why}"
    if isinstance(why, FileNotFoundError) and why.filename in PROGRAMS:
        return f"{name}: there is no `{why.filename}` on the path"
    if isinstance(why, FileNotFoundError) and os.path.basename(os.fsdecode(why.filename or "")) == "hamilton":
        return f"{name}: there is no {why.filename}: `rt ci` or examples/first-run --proved makes it"
    return f"{name}: {why.filename or 'the output'}: {why.strerror or why}"


def written(status):
    """The same status, or another one where the rest of what was printed can't be written."""
    try:
        sys.stdout.flush()
        return status or (UNWRITTEN if is_closed else 0)
    except OSError:
        # nobody reads it, so what is left of it may go anywhere
        os.dup2(os.open(os.devnull, os.O_WRONLY), sys.stdout.fileno())
        return status or UNWRITTEN
