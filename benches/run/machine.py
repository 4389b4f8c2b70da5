"""What is to be told of a machine beside figures that were measured on it: what it is, how busy it is, how fast its disks sync."""
import datetime
import hashlib
import os
import platform
import subprocess
import tempfile
import threading
import time

# How much a write of the loop below writes, about as much as the record of a small batch at a shard, and how long the loop goes on at most.
FILLING, LOOP_SECONDS, LOOP_APPENDS = bytes(4096), 0.4, 400


def told(*words):
    """The first line that a command prints, or none where there is no such command or it fails."""
    try:
        ran = subprocess.run(words, stdout=subprocess.PIPE, stderr=subprocess.DEVNULL, text=True)
    except OSError:
        return None
    return (ran.stdout.splitlines() or [""])[0] if ran.returncode == 0 else None


def field(path, name):
    """The value behind a name in a file of lines `name : value`."""
    with open(path, encoding="utf-8") as lines:
        for line in lines:
            key, _, value = line.partition(":")
            if key.strip() == name:
                return value.strip()
    return None


def file_system(place):
    """The type of the file system on which a place lies."""
    path, best = os.path.realpath(place), ("", "unknown")
    with open("/proc/mounts", encoding="utf-8") as mounts:
        for line in mounts:
            _, point, kind, *_ = line.split()
            if os.path.commonpath([path, point]) == point and len(point) >= len(best[0]):
                best = point, kind
    return best[1]


def sha256_of(path):
    with open(path, "rb") as file:
        return hashlib.sha256(file.read()).hexdigest()


def describe(program, top):
    """The machine, the toolchain, the checkout and the program."""
    return {
        "processor": field("/proc/cpuinfo", "model name") or platform.machine(),
        "processors": os.cpu_count(),
        "used": sorted(os.sched_getaffinity(0)),
        "memory": int((field("/proc/meminfo", "MemTotal") or "0 kB").split()[0]) * 1024,
        "kernel": platform.release(),
        "date": datetime.datetime.now(datetime.timezone.utc).strftime("%Y-%m-%d %H:%M UTC"),
        "rt": told("rt", "version"),
        "commit": told("git", "-C", top, "rev-parse", "HEAD"),
        "program": program,
        "sha256": sha256_of(program),
    }


class Clock:
    """What the processors that this process may use have done since it was made, but for this process and the programs that it ran."""

    def __init__(self):
        self.begun = self.ticks()

    @staticmethod
    def ticks():
        """All ticks of these processors, those in which they were busy for others, and those that another machine took from this one."""
        every, busy, stolen = 0, -sum(os.times()[:4]) * os.sysconf("SC_CLK_TCK"), 0
        names = {f"cpu{it}" for it in os.sched_getaffinity(0)}
        with open("/proc/stat", encoding="utf-8") as lines:
            for line in lines:
                name, *rest = line.split()
                if name in names:
                    user, nice, system, idle, wait, *others = map(int, rest[:8])
                    every += user + nice + system + idle + wait + sum(others)
                    busy += user + nice + system + sum(others[:2])
                    stolen += others[2]
        return every, busy, stolen

    def shares(self):
        """The load, how much of their time these processors were busy for others, and how much of it was stolen."""
        every, busy, stolen = (now - then for now, then in zip(self.ticks(), self.begun))
        return {"load": os.getloadavg()[0], "busy": max(0.0, busy / max(every, 1)), "stolen": stolen / max(every, 1)}


def busyness():
    """How busy the processors are over a second in which this process does nothing."""
    clock = Clock()
    time.sleep(1)
    return clock.shares()


def append_on(path, found):
    """Appends to a file as a journal does, each time a write, a sync, a write of one byte and a sync, and notes how many syncs that were."""
    file = os.open(path, os.O_WRONLY | os.O_CREAT)
    begin, at = time.monotonic(), 0
    while at < LOOP_APPENDS and time.monotonic() - begin < LOOP_SECONDS:
        os.pwrite(file, FILLING, at * len(FILLING) + 1)
        os.fsync(file)
        os.pwrite(file, b"\1", at * len(FILLING))
        os.fsync(file)
        at += 1
    os.close(file)
    found.append(2 * at)


def syncs_a_second(place, writers):
    """How many writes with their syncs a place takes in a second from so many threads, each with a file of its own."""
    found = []
    with tempfile.TemporaryDirectory(prefix="hamilton.", dir=place) as folder:
        threads = [threading.Thread(target=append_on, args=(f"{folder}/{it}", found)) for it in range(writers)]
        begin = time.monotonic()
        for thread in threads:
            thread.start()
        for thread in threads:
            thread.join()
        return sum(found) / (time.monotonic() - begin)
