"""What tools/gate/compare-racks and tools/pages/make-pictures share: racks that `hamilton` makes of the files of examples/."""
import os
import shutil
import subprocess
import sys

import ending
import racks

TOP = ending.TOP
EXAMPLES = f"{TOP}/examples"
# A rack that a run of four lanes left: in which order they come to the nodes is of that run alone, so it is kept.
LANES = f"{EXAMPLES}/lanes"
LANES_SHAPE = "--shards 4 --coordinators 2 --lanes 2 --batch 2".split()
# Coins that lie on both of two shards, before the payment and behind it.
TWO_SHARDS = ["mint bob:100 alice:50", "pay bob:100 alice:50 -> dave:120 carol:30"]


def number(n):
    return n.to_bytes(8, "little")


def run(program, folder, *words):
    """What a command prints in a folder, and its status."""
    done = subprocess.run([program, *words], cwd=folder, stdout=subprocess.PIPE, stderr=subprocess.DEVNULL, text=True)
    return done.stdout, done.returncode


def must(program, folder, *words):
    text, status = run(program, folder, *words)
    if status:
        sys.exit(f"{os.path.basename(sys.argv[0])}: {' '.join([program, *words])} ended with status {status}: {text}")
    return text


def read_disks(folder, nodes):
    return [racks.read_file(f"{folder}/rack", node) for node in range(nodes)]


def lay(folder, disks):
    """Makes a folder with just this rack."""
    shutil.rmtree(folder, ignore_errors=True)
    os.makedirs(f"{folder}/rack")
    for node, data in enumerate(disks):
        with open(f"{folder}/rack/{racks.node_name(node)}", "wb") as out:
            out.write(data)


def made(program, folder, init, runs):
    """The disks of a rack that the program makes in a new folder: the words of its `init` and of each `run`."""
    shutil.rmtree(folder, ignore_errors=True)
    os.makedirs(folder)
    must(program, folder, "init", *init)
    for words in runs:
        must(program, folder, "run", *words)
    return read_disks(folder, len(os.listdir(f"{folder}/rack")))


def made_file(folder, what, description):
    """A file that examples/make makes of the lines of a description; its name."""
    name = f"{folder}/{what}"
    with open(f"{folder}/description", "w", encoding="utf-8") as out:
        out.write("\n".join(description) + "\n")
    words = description[0].split()[1:] if what == "mint" else [out.name]
    subprocess.run([f"{EXAMPLES}/make", what, name, *words], check=True, stdout=subprocess.DEVNULL)
    return name


def made_files(folder, description):
    os.makedirs(folder, exist_ok=True)
    return [made_file(folder, what, description) for what in ("mint", "client", "verdicts")]


def lanes_files(folder, description):
    """Mint, client file and verdicts of examples/lanes: the first payment stands twice in the client file, for two lanes."""
    first = made_files(f"{folder}/first", description[:2])
    files = made_files(folder, description)
    data = [b"", b""]
    for at, name in enumerate((first[1], files[1])):
        with open(name, "rb") as file:
            data[at] = file.read()
    with open(files[1], "wb") as out:
        out.write(number(sum(int.from_bytes(it[:8], "little") for it in data)) + data[0][8:] + data[1][8:])
    return files


def cut_rack(folder, disks, counts):
    """The rack with so many records of each node, cut by examples/cut-rack in a folder."""
    lay(folder, disks)
    words = [f"{node}={count}" for node, count in enumerate(counts)]
    subprocess.run([f"{EXAMPLES}/cut-rack", f"{folder}/rack", *words], check=True)
    return read_disks(folder, len(disks))


def read_description():
    """The lines of examples/lanes/description.txt."""
    with open(f"{LANES}/description.txt", encoding="utf-8") as file:
        return [line for line in file.read().split("\n") if line.split("#")[0].strip()]


def read_lanes():
    """The rack of examples/lanes."""
    nodes = sum(name.startswith("node-") for name in os.listdir(f"{LANES}/rack"))
    return read_disks(LANES, nodes)


def payment(program, folder, times=1, shape=()):
    """The payment of README.md."""
    mint, client, verdicts = (f"{EXAMPLES}/{it}" for it in ("coin-100.mint", "pay-60-40.client", "pay-60-40.verdicts"))
    return made(program, folder, [*shape, mint], [["--verdicts", verdicts, client]] * times)


def two_shards(program, folder):
    """A payment whose coins lie on two shards."""
    mint, client, verdicts = made_files(f"{folder}-files", TWO_SHARDS)
    return made(program, folder, ["--shards", "2", mint], [["--verdicts", verdicts, client]])
