"""What examples/first-run and examples/walk share: the console blocks of a page, and a shell that runs their commands.

In a block that begins with ```console a line `$ COMMAND` is a command, and each line `> MORE` directly behind it is its next line (of a
here-document, say). The lines behind, up to the next command, are what a terminal shows then: what the command prints on standard output and
standard error, and a line `status N` where it ends with a status N other than 0. All commands of a page go to one shell, in their order. It
begins in a fresh folder with copies of examples/ and tools/, and has the folder of `hamilton` first on its path.
"""
import collections
import itertools
import os
import re
import secrets
import shlex
import shutil
import signal
import subprocess
import threading

import ending

TOP = os.path.dirname(os.path.dirname(os.path.realpath(__file__)))
PROGRAM = f"{TOP}/crates/hamilton/out/hamilton"
COPIED = ("examples", "tools")
# What a reader who typed a page's commands at the top of the repository may have left there.
LEFT = shutil.ignore_patterns("my-*", "__pycache__")
# After so many seconds a command counts as hung.
LIMIT = 60

Step = collections.namedtuple("Step", "command shown")


class BadPage(Exception):
    """A page that can't be read, or has no console block with a command."""


class Differs(Exception):
    """A command shows something else than its page says."""


def read_step(lines):
    """A command and what it shows, from their lines, behind the `$ ` of the first."""
    more = list(itertools.takewhile(lambda line: line.startswith("> ") or line == ">\n", lines[1:]))
    command = lines[0] + "".join(line[2:] or "\n" for line in more)
    return Step(command.rstrip("\n"), "".join(lines[1 + len(more) :]))


def read_page(page):
    """The steps of a page's blocks, in their order; there is one at least."""
    try:
        with open(page, encoding="utf-8") as file:
            text = file.read()
    except (OSError, UnicodeDecodeError) as error:
        raise BadPage(f"{page} can't be read: {error}") from None
    blocks = re.findall(r"^```console\n(.*?)^```$", text, re.M | re.S)
    if len(blocks) != len(re.findall(r"^ *```.*console", text, re.M)):
        raise BadPage(f"{page}: a block doesn't begin with a line ```console, or doesn't end with a line ```")
    parts = [re.split(r"^\$ ", block, flags=re.M) for block in blocks]
    if not blocks or any(before or not steps for before, *steps in parts):
        raise BadPage(f"{page}: no console block, or one that doesn't begin with a line `$ COMMAND`")
    return [read_step(step.splitlines(keepends=True)) for _, *steps in parts for step in steps]


def lay():
    """A fresh folder with what pages use."""
    folder = ending.room(prefix="hamilton.")
    for name in COPIED:
        shutil.copytree(f"{TOP}/{name}", f"{folder}/{name}", ignore=LEFT)
    return folder


def tell(text):
    print(text, end="", flush=True)


class Shell:
    """A shell that begins in this folder, with the program's folder first on its path."""

    def __init__(self, folder, program):
        self.mark = secrets.token_hex(16).encode()
        paths = {"PATH": f"{os.path.dirname(os.path.abspath(program))}:{os.environ['PATH']}", "LC_ALL": "C"}
        self.bash = subprocess.Popen(
            ["bash", "--noprofile", "--norc"], cwd=folder, env={**os.environ, **paths}, start_new_session=True,
            stdin=subprocess.PIPE, stdout=subprocess.PIPE, stderr=subprocess.STDOUT,
        )

    def __enter__(self):
        return self

    def __exit__(self, *_):
        self.stop()
        self.bash.communicate()

    def stop(self):
        """Ends the shell, and what still runs in it."""
        if self.bash.poll() is None:
            os.killpg(self.bash.pid, signal.SIGKILL)

    def show(self, command):
        """What a terminal shows of this command, and a line with its status where that isn't 0."""
        self.bash.stdin.write(f"eval {shlex.quote(command)} </dev/null; echo {self.mark.decode()} $?\n".encode())
        self.bash.stdin.flush()
        timer = threading.Timer(LIMIT, self.stop)
        timer.start()
        try:
            return self.read_answer()
        finally:
            timer.cancel()

    def read_answer(self):
        shown = b""
        for line in self.bash.stdout:
            text, mark, status = line.partition(self.mark)
            shown += text
            if mark:
                note = "" if int(status) == 0 else f"status {int(status)}\n"
                return shown.decode(errors="replace") + note
        raise Differs(f"this ended the shell, or took more than {LIMIT} seconds")


def run_page(steps, folder, program, tell):
    """Runs the steps of a page in a folder, tells each command and what it shows, and yields the command where that is what its page says."""
    with Shell(folder, program) as shell:
        for step in steps:
            command = step.command.replace("\n", "\n> ")
            tell(f"$ {command}\n")
            shown = shell.show(step.command)
            tell(shown)
            if shown != step.shown:
                raise Differs(f"$ {command}\nshows\n{shown}and by the page\n{step.shown}")
            yield step.command
