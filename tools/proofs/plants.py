"""`rt plant` over libraries that are built already: lists wrong bodies that a crate's contracts let through.

    tools/proofs/over-built plant CRATE [flags of rt plant]     as --minutes 20, --only WORD or --all; `rt plant --help` says what they do

The crate is checked first as `over-built check` does. A plant that "proves" is a gap in a contract, unless it is right: say which, and why.
It takes the kit's rt-plant and puts these libraries in the place of those that it would build, so it may break with another kit. It is no gate.
"""
import importlib.machinery
import os
import subprocess
import types

import over_built


def plants_of(kit, crate):
    """The kit's rt-plant, whose first check and whose libraries are those of over_built."""
    plant = types.ModuleType("rt_plant")
    plant.__file__ = f"{kit}/bin/rt-plant"
    importlib.machinery.SourceFileLoader("rt_plant", plant.__file__).exec_module(plant)
    rt = plant.rt
    begin = rt.Crate.__init__

    def init(self, *words, **named):
        begin(self, *words, **named)
        if self.name != crate and self.name in over_built.uses():
            self.rlib = over_built.library(self.name)

    def main(verb, *flags):
        how = {"stdout": subprocess.PIPE, "stderr": subprocess.STDOUT, "encoding": "utf-8", "errors": "replace"}
        checked = subprocess.run([f"{over_built.TOP}/tools/proofs/over-built", "check", crate], **how)
        print(checked.stdout)
        os.chdir(f"{over_built.TOP}/crates/{crate}")
        return checked.returncode

    rt.Crate.__init__, rt.main, rt.KEPT[1] = init, main, "out/over/inc"
    return plant


def main(words):
    if not words or words[0] not in over_built.uses():
        over_built.bad_words(__doc__)
    return plants_of(over_built.kit(), words[0]).main(*words[1:])
