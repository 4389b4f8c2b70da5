"""What tools/copy-rack and tools/cut-live share: the folder of a copy, which gets its name when all of it is there, and what is told of it."""
import os
import shutil
import sys

import ending
import least
import racks


def sync(folder):
    handle = os.open(folder, os.O_RDONLY)
    os.fsync(handle)
    os.close(handle)


def is_within(path, folder):
    """Whether a path, which need not be there, lies in a folder or below it."""
    inner, outer = os.path.realpath(path), os.path.realpath(folder)
    return os.path.commonpath([inner, outer]) == outer


def target_of(word, source):
    """A folder that isn't there yet, outside of the rack that is copied."""
    for name, given in (("FROM", source), ("TO", word)):
        if not given:
            least.bad_words(f"{name} is empty: two folders are wanted, FROM and TO")
    target = word.rstrip("/") or "/"
    if os.path.lexists(target):
        least.fail(f"{target} is there: a copy gets a folder of its own")
    if is_within(target, source):
        least.fail(f"{target} lies in {source} itself: a copy gets a folder of its own, outside of the rack")
    return target


def publish(target, files):
    """Writes files, each by its function, into a new folder, and syncs them; the folder gets its name when all are there."""
    part = f"{target}.part-{os.getpid()}"
    ending.rooms.append(part)
    try:
        os.mkdir(part)
        for name, write in files.items():
            with open(f"{part}/{name}", "xb") as out:
                write(out)
                out.flush()
                os.fsync(out.fileno())
        sync(part)
        os.rename(part, target)
        ending.rooms.append(target)
        sync(os.path.dirname(target) or ".")
    except OSError as why:
        shutil.rmtree(part, ignore_errors=True)
        least.fail(f"{why.filename or target}: {why.strerror}", 3)


def tell(folder):
    """Reads a copy, tells what it holds and what is wrong with it; the status."""
    try:
        rack = racks.open_rack(folder)
    except racks.NoRack as why:
        least.fail(why, 1)
    wrong = racks.told_wrong(rack, True)
    print(f"{folder}: {racks.verdict(rack, wrong)}", flush=True)
    for line in wrong:
        print(line, file=sys.stderr)
    return int(bool(wrong))
