"""Tries the wrong bodies of crates over libraries that are built already: each must be refused.

    tools/proofs/over-built wrong CRATE [NAME ..]     those of crates/CRATE/must-fail and tools/proofs/wrong/CRATE, or those of these names alone
    tools/proofs/over-built wrong --all [N]           those of all crates, N at once (2)
    tools/proofs/over-built wrong --some N SEED LOG   N of tools/proofs/wrong at once, which the seed chooses among those of crates whose proof
                                                      took less than a minute of a processor by LOG, which is one of tools/gate/times

Each is tried on a copy of its crate, which is checked as `over-built check` does, and nothing of it is kept: first the function that the edit
changes and those that it calls, and where these are proved all the same, or the name is one of several, the whole crate, which takes as long as its
proof. For each it prints whether it was refused, and the first line that says why: look whether that is what the wrong body is there to show. Where
an edit no longer fits its file, or the prover can't read what it makes of it, it has shown nothing, and that counts as a failure here.

It is no gate: `rt must-fail` is, and `rt ci`, which tries those of must-fail. The status is 0 where each was refused.
"""
import collections
import glob
import os
import random
import re
import shutil
import subprocess
import sys
import tempfile
from concurrent.futures import ThreadPoolExecutor

import over_built

# What the checker says where a body is no body, and not a wrong one.
UNREAD = ("is not in scope", "has no field", "error[")
# The status of a check that proved all that it was asked for, and of one that judged nothing.
PROVED, NOT_JUDGED = 0, 2
# Of a crate whose proof takes so many seconds of a processor, or more, none is chosen.
DEAR = 60


class Unfit(Exception):
    """An edit that does not fit its file."""


def edits_of(crate):
    """The wrong bodies of a crate, by their names."""
    folders = (f"{over_built.TOP}/crates/{crate}/must-fail", f"{over_built.TOP}/tools/proofs/wrong/{crate}")
    return {os.path.basename(it)[:-5]: it for folder in folders for it in sorted(glob.glob(f"{folder}/*.edit"))}


def apply(edit, folder):
    """Makes the changes of an edit in a crate's folder: in the file that it names, each old text, which stands there once, becomes the new one."""
    path = old = None
    with open(edit, encoding="utf-8") as lines:
        for line in lines.read().split("\n"):
            word, _, rest = line.partition(": ") if line != "new:" else ("new", "", "")
            if word == "file":
                path = f"{folder}/{rest.strip()}"
            elif word == "old":
                old = rest
            elif word == "new":
                with open(path, encoding="utf-8") as source:
                    text = source.read()
                if text.count(old) != 1:
                    raise Unfit(f"its old text stands {text.count(old)} times in {os.path.relpath(path, folder)}: {old.strip()[:60]}")
                with open(path, "w", encoding="utf-8") as source:
                    source.write(text.replace(old, rest))
    if old is None:
        raise Unfit("it changes nothing")


def some(many, seed, log):
    """So many wrong bodies that are tried by hand, of crates that are quick to prove; where there are too few, the quickest."""
    took = collections.Counter()
    with open(log, encoding="utf-8") as lines:
        for line in lines:
            words = line.split()
            if words[:1] == ["took"] and words[2] == "proof":
                took[words[1]] += float(words[3])
    known = [(it.split("/")[-2], it) for it in sorted(glob.glob(f"{over_built.TOP}/tools/proofs/wrong/*/*.edit"))]
    known.sort(key=lambda it: took.get(it[0], sys.maxsize))
    quick = sum(took.get(crate, DEAR) < DEAR for crate, _ in known)
    return random.Random(seed).sample(known[: max(many, quick)], min(many, len(known)))


def ways(crate, edit):
    """The flags of the checks that an edit is tried by: of the function that it changes first, with what that calls, and of the whole crate."""
    with open(edit, encoding="utf-8") as lines:
        changed = re.search(r"^file: (src/\S+)\nold: (.+)$", lines.read(), re.MULTILINE)
    if changed:
        with open(f"{over_built.TOP}/crates/{crate}/{changed[1]}", encoding="utf-8") as source:
            ahead = re.findall(r"\bfn (\w+)", source.read().partition(changed[2])[0])
        if ahead:
            return [["--only", ahead[-1]], []]
    return [[]]


def check(crate, folder, flags):
    """Checks what stands in a folder, and tells the status and what was said."""
    with open(f"{folder}.log", "w+", encoding="utf-8", errors="replace") as log:
        status = over_built.run("check", crate, flags, folder=folder, stdout=log, stderr=subprocess.STDOUT)
        log.seek(0)
        return status, log.read().split("\n")


def try_one(it):
    """Whether a wrong body was refused, and what was said."""
    crate, edit = it
    room = tempfile.mkdtemp(prefix="over-built.")
    try:
        shutil.copytree(f"{over_built.TOP}/crates/{crate}", f"{room}/{crate}", ignore=shutil.ignore_patterns("out"))
        apply(edit, f"{room}/{crate}")
        for flags in ways(crate, edit):
            status, said = check(crate, f"{room}/{crate}", flags)
            if status not in (PROVED, NOT_JUDGED):
                break
    except Unfit as why:
        return False, str(why)
    finally:
        shutil.rmtree(room, ignore_errors=True)
    if status in (PROVED, NOT_JUDGED):
        return False, "it was proved" if status == PROVED else f"nothing was judged: {said[-2:]}"
    unread = next((line for line in said if any(word in line for word in UNREAD)), None)
    if unread:
        return False, f"it could not be read: {unread.strip()[:140]}"
    return True, next((line.strip()[:160] for line in said if ": error" in line or line.startswith("note: ")), f"status {status}")


def main(words):
    uses, most = over_built.uses(), 2
    if words[:1] == ["--all"] and len(words) <= 2 and all(it.isdecimal() for it in words[1:]):
        most = int(words[1]) if words[1:] else 2
        chosen = [(crate, edit) for crate in uses for edit in edits_of(crate).values()]
    elif words[:1] == ["--some"] and len(words) == 4 and all(it.isdecimal() for it in words[1:3]):
        most = int(words[1])
        chosen = some(most, int(words[2]), words[3])
    elif words and words[0] in uses and edits_of(words[0]).keys() >= set(words[1:]):
        chosen = [(words[0], edit) for name, edit in edits_of(words[0]).items() if not words[1:] or name in words[1:]]
    else:
        over_built.bad_words(__doc__)
    failed = 0
    with ThreadPoolExecutor(most) as pool:
        for (crate, edit), (is_refused, why) in zip(chosen, pool.map(try_one, chosen)):
            failed += not is_refused
            print(f"{crate}/{os.path.basename(edit)[:-5]}: {'refused' if is_refused else 'NOT REFUSED'}: {why}", flush=True)
    print(f"({len(chosen)} wrong bodies, {failed} not refused)")
    return 1 if failed else 0
