"""One crate, checked or built over libraries that are built already (tools/proofs/over-built).

A library is sought where `tools/proofs/over-built lib` has left it in this checkout (crates/NAME/out/over), then where `rt ci` or `rt lib` has
(crates/NAME/out/rlib) in this checkout or in the one that BUILT names, then in the kit.
"""
import functools
import os
import subprocess
import sys

import ending

TOP = ending.TOP
BUILT = os.path.abspath(os.environ.get("BUILT", TOP))
TARGET = "x86_64-unknown-linux-gnu"
# The folder of the toolchain, asked for once.
kit = functools.lru_cache(None)(ending.kit)


def bad_words(doc):
    """Ends the script with these words, which say how it is called."""
    print(doc.strip(), file=sys.stderr)
    sys.exit(2)


def uses():
    """The libraries that each crate uses, by its line of crates.txt."""
    found = {}
    with open(f"{TOP}/crates.txt", encoding="utf-8") as lines:
        for line in lines:
            name, colon, rest = line.split("#")[0].partition(":")
            if colon:
                found[name.split()[0]] = rest.split()
    return found


def is_program(crate):
    return os.path.isfile(f"{TOP}/crates/{crate}/src/main.rt")


def library(name):
    """The path of a library. It must be somewhere."""
    places = [f"{TOP}/crates/{name}/out/over", f"{TOP}/crates/{name}/out/rlib", f"{BUILT}/crates/{name}/out/rlib", f"{kit()}/rlibs"]
    for place in places:
        if os.path.exists(f"{place}/{name}.rlib"):
            return f"{place}/{name}.rlib"
    sys.exit(f"over-built: {name} is built nowhere: neither here nor in {BUILT}; run `rt ci` there, or `over-built up`")


def below(crate, known, found):
    """The libraries that a crate stands on, each once, those that it names and those below them."""
    for name in known.get(crate, []):
        if name not in found:
            found.append(name)
            below(name, known, found)
    return found


def words_for(crate, folder, flags):
    """The words of a check or a build of a crate whose sources stand in a folder; what was proved is kept there, in out/over/inc."""
    known = uses()
    root = "src/main.rt" if is_program(crate) else "src/lib.rt"
    words = ["--crate-name", crate, root, "--extern", f"std={kit()}/rlibs/std.rlib", "-L", f"dependency={kit()}/rlibs"]
    for name in known[crate]:
        words += ["--extern", f"{name}={library(name)}"]
    for place in dict.fromkeys(os.path.dirname(library(name)) for name in below(crate, known, [])):
        words += ["-L", f"dependency={place}"]
    words += ["--antt-project", f"{kit()}/rattle/logic/antt-project.json", "--logic-built", f"{kit()}/logic_built"]
    return words + ["--jobs", os.environ.get("JOBS", "1"), "--incremental", f"{folder}/out/over/inc", *flags]


def commands(what, crate, folder, flags):
    """The commands that check a crate, or build it as a library or a program into out/over of its folder."""
    words, out = words_for(crate, folder, flags), f"{folder}/out/over"
    if what == "check":
        return [[f"{kit()}/bin/rattle", "check", *words]]
    if what == "lib":
        return [[f"{kit()}/bin/rattle", "build", *words, "--links", f"{crate}=", "-o", f"{out}/{crate}.rlib"]]
    build = [f"{kit()}/bin/rattle", "build", *words, "--links", f"{crate}=", "--toolchain", f"{kit()}/toolchain", "-o", f"{out}/{crate}.o"]
    link = [f"{kit()}/bin/rattle-link", "--target", TARGET, "--toolchain", f"{kit()}/toolchain", "-o", f"{out}/{crate}", f"{out}/{crate}.o"]
    return [build, [*link, f"{kit()}/c/libos_c.a", f"{kit()}/c/liblibc_c.a"]]


def run(what, crate, flags=(), folder=None, **how):
    """Checks or builds a crate; the status of the first command that fails, or 0."""
    folder = folder or f"{TOP}/crates/{crate}"
    os.makedirs(f"{folder}/out/over", exist_ok=True)
    for command in commands(what, crate, folder, flags):
        status = subprocess.run(command, cwd=folder, stdin=subprocess.DEVNULL, **how).returncode
        if status:
            return status
    return 0
