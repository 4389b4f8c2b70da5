"""Builds what has to be built again above changed crates.

    tools/proofs/over-built up CHANGED[,CHANGED..] TARGET[,TARGET..] [N] [--check]

The changed crates, the targets and every crate between them are built as libraries (`over-built lib`), programs as programs, N at once (2), what
most others wait for first. With --check the targets are checked alone. All else is taken as it was built before, here or in the checkout that
BUILT names. For each crate it prints its name, the seconds and whether it was proved; what it said lies in crates/CRATE/out/over.log.

It is no gate: end with `rt ci`. The status is 0 where all of them were proved.
"""
import functools
import os
import subprocess
import threading
import time

import over_built


def between(changed, targets, uses):
    """The crates that stand on a changed one (or are one) and on which a target stands (or that are one)."""
    needed = {it for target in targets for it in [target, *over_built.below(target, uses, [])] if it in uses}

    @functools.lru_cache(None)
    def is_above(crate):
        return crate in changed or any(is_above(it) for it in uses[crate] if it in uses)

    return {it for it in needed if is_above(it)}


def heights(crates, uses):
    """Of each of these crates how many stand one on another above it."""

    @functools.lru_cache(None)
    def height(crate):
        return max((1 + height(it) for it in crates if crate in uses[it]), default=0)

    return {it: height(it) for it in crates}


class Work:
    """The crates to build, and what has become of each so far."""

    def __init__(self, crates, targets, uses, is_check):
        self.crates, self.targets, self.uses, self.is_check = crates, targets, uses, is_check
        self.heights = heights(crates, uses)
        self.running, self.done, self.failed, self.said, self.turn = set(), set(), set(), [], threading.Condition()

    def ready(self):
        """The crates whose libraries are there, what most others wait for first."""
        waiting = self.crates - self.running - self.done - self.failed
        free = [it for it in waiting if not (set(self.uses[it]) & self.crates) - self.done]
        return sorted(free, key=self.heights.get, reverse=True)

    def build(self, crate):
        what = "program" if over_built.is_program(crate) else "lib"
        if self.is_check and crate in self.targets:
            what = "check"
        begin = time.monotonic()
        os.makedirs(f"{over_built.TOP}/crates/{crate}/out", exist_ok=True)
        with open(f"{over_built.TOP}/crates/{crate}/out/over.log", "w", encoding="utf-8") as log:
            status = over_built.run(what, crate, stdout=log, stderr=subprocess.STDOUT)
        with self.turn:
            self.running.remove(crate)
            (self.failed if status else self.done).add(crate)
            self.said.append(f"{crate} {what} {time.monotonic() - begin:.0f} s: {f'status {status}' if status else 'proved'}")
            self.turn.notify()

    def go(self, most):
        """Builds all, so many at once, until nothing more can be begun."""
        with self.turn:
            while True:
                for crate in self.ready()[: most - len(self.running)]:
                    self.running.add(crate)
                    threading.Thread(target=self.build, args=(crate,)).start()
                if not self.running:
                    return
                self.turn.wait()
                while self.said:
                    print(self.said.pop(0), flush=True)


def main(given):
    words = [it for it in given if it != "--check"]
    uses = over_built.uses()
    changed, targets = (words[at].split(",") if len(words) > at else [] for at in (0, 1))
    if len(words) not in (2, 3) or not uses.keys() >= {*changed, *targets} or not all(it.isdecimal() for it in words[2:]):
        over_built.bad_words(__doc__)
    over_built.kit()
    work = Work(between(changed, targets, uses), targets, uses, "--check" in given)
    work.go(int(words[2]) if len(words) == 3 else 2)
    left = sorted(work.crates - work.done - work.failed)
    print(f"{len(work.done)} proved; failed: {' '.join(sorted(work.failed)) or 'none'}; not reached: {' '.join(left) or 'none'}")
    return 1 if work.failed or left else 0
