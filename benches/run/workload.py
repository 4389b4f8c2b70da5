"""What the scripts of this folder and benches/hamilton-bench share: files of many transactions, ledgers to run them over, and timed runs.

The N transactions of a workload spend the N coins of its mint, each to two outputs. No two of them conflict, so all are confirmed, in whatever order
the lanes of a run come to the nodes.
"""
import collections
import contextlib
import hashlib
import os
import shutil
import struct
import subprocess
import tempfile
import time

# Where a ledger lies if nothing else is said: in memory, and on a disk with real syncs.
PLACES = ("/dev/shm", "/var/tmp")
# How many hashes a transaction of a workload brings to the shards: of the coin that it spends and of the two that it makes.
HASHES = 3
SHAPE_LIMITS = {"shards": 64, "coordinators": 16, "lanes": 16, "batch": 1024}

Used = collections.namedtuple("Used", "wall processor")


class Failed(Exception):
    """A program that did not do what it was run for."""


class Shape(collections.namedtuple("Shape", "shards coordinators lanes batch")):
    """The shape of a ledger; `lanes` are those of one coordinator."""

    def options(self):
        return [word for name, number in zip(self._fields, self) for word in (f"--{name}", str(number))]

    def __str__(self):
        return "x".join(map(str, self))


@contextlib.contextmanager
def room(place):
    """A fresh folder below a place, for files and racks. It is left as it is where a program failed there."""
    folder, is_evidence = tempfile.mkdtemp(prefix="hamilton.", dir=place), False
    try:
        yield folder
    except Failed:
        is_evidence = True
        raise
    finally:
        if not is_evidence:
            shutil.rmtree(folder)


def number(n):
    return struct.pack("<Q", n)


def owner(n):
    return number(n) + bytes(24)


def make(count, files):
    """The bytes of a mint of so many coins, of the client files that spend them, and of their verdicts, by name."""
    coins = [owner(i) + number(2 + i % 100) for i in range(count)]
    mint = number(count) + b"".join(coins)
    genesis = hashlib.sha256(number(0) + mint).digest()
    txs, verdicts = [], []
    for i, coin in enumerate(coins):
        value = 2 + i % 100
        outputs = owner(count + 2 * i) + number(value // 2) + owner(count + 2 * i + 1) + number(value - value // 2)
        spelled = number(1) + genesis + number(i) + coin + number(2) + outputs
        verdicts.append(f"{hashlib.sha256(spelled).hexdigest()} 0 good\n")
        txs.append(spelled + number(1) + number(64) + bytes(64))
    made = {"mint": mint, "verdicts": "".join(verdicts).encode()}
    for file in range(files):
        own = txs[file * count // files : (file + 1) * count // files]
        made[f"client-{file + 1}"] = number(len(own)) + b"".join(own)
    return made


def write(folder, count, files):
    for name, data in make(count, files).items():
        with open(f"{folder}/{name}", "wb") as out:
            out.write(data)


def records(data, start=0):
    """The places and bodies of a journal's records from a gate on."""
    at = start
    while data[at] == 1:
        length = int.from_bytes(data[at + 1 : at + 9], "little")
        yield at, data[at + 9 : at + 9 + length]
        at += 9 + length


def count_records(rack):
    """How many records the journals of a rack have, without the first one of each."""
    found = 0
    for name in os.listdir(rack):
        with open(f"{rack}/{name}", "rb") as journal:
            found += sum(1 for _ in records(journal.read())) - 1
    return found


def make_rack(program, shape, mint, kept):
    """Makes a ledger of this shape, and keeps its rack."""
    folder = f"{kept}.making"
    os.mkdir(folder)
    try:
        made = subprocess.run([program, "init", *shape.options(), mint], cwd=folder, stdout=subprocess.PIPE, text=True)
    except OSError as why:
        raise Failed(f"{program} can't be run: {why.strerror}") from None
    if made.returncode or not os.path.isdir(f"{folder}/rack"):
        raise Failed(f"{program} init ended with status {made.returncode} and printed {made.stdout[:200]!r}")
    os.rename(f"{folder}/rack", kept)
    os.rmdir(folder)


def timed(program, clients, kept, confirmed, refused=0, verdicts="verdicts"):
    """A run of client files over a copy of a kept rack, which must confirm and refuse so many transactions and reject none: how long it took, and
    what of processors, in seconds. The files lie beside the kept rack, and the rack that the run leaves stays there until the next one."""
    folder = os.path.dirname(kept)
    shutil.rmtree(f"{folder}/rack", ignore_errors=True)
    shutil.copytree(kept, f"{folder}/rack")
    words = [program, "run", "--verdicts", verdicts, *clients]
    os.sync()
    with open(f"{folder}/text", "w+b") as text:
        begin = time.monotonic()
        run = subprocess.Popen(words, cwd=folder, stdout=text)
        _, status, used = os.wait4(run.pid, 0)
        wall = time.monotonic() - begin
        run.returncode = os.waitstatus_to_exitcode(status)
        text.seek(max(0, text.seek(0, os.SEEK_END) - 200))
        sums = text.read()
    if run.returncode or f"\nconfirmed {confirmed}\nrejected 0\nrefused {refused}\n".encode() not in sums:
        wanted = f"confirm {confirmed:,} transactions and refuse {refused:,}"
        raise Failed(f"`{' '.join(words)}` in {folder} ended with status {run.returncode} and did not {wanted}: its text is there")
    return Used(wall, used.ru_utime + used.ru_stime)
