"""What tools/stress/many-runs and tools/stress/kill-runs share: files of many transactions, runs of `hamilton` over them, and a reader of its journals.

Files are written and journals read by docs/FORMATS.md alone, and hashes are those of Python's hashlib: nothing here is taken from what
`hamilton` prints. So the texts that it must print are told from the journals that it left.
"""
import collections
import hashlib
import itertools
import os
import subprocess

# The words of a command in a folder beside the files. Ledgers are made in three shapes, in turn: many lanes, each of which makes one call after
# another; one lane, which makes the calls of a phase at all shards at once, as it does with the largest batches and fewer lanes than shards, and whose
# submissions all processors check before; and two lanes. The eight and the two have sentinels ahead of them.
SHAPES = {
    "8 lanes": "--shards 8 --coordinators 4 --lanes 2 --batch 16",
    "1 lane": "--shards 8 --coordinators 1 --lanes 1 --batch 1024",
    "2 lanes": "--shards 8 --coordinators 2 --lanes 1 --batch 16",
}
# A file has half of so many transactions: fewer than 2,048 for each of two lanes, and more for one.
COUNT = 8_000
INIT = {name: f"init {shape} ../mint".split() for name, shape in SHAPES.items()}
RUN = "run --verdicts ../verdicts ../client-1 ../client-2".split()
AUDIT = "audit ../mint ../client-1 ../client-2".split()
RECOVER = ["recover"]
# After so many seconds a command counts as hung.
LIMIT = 120
# Each so-many-th transaction of the first file spends the coin that the one before it spends.
RIVAL = 25
GENESIS, LOCK, FINISH, PREPARE, COMMIT = 1, 2, 3, 6, 7
PHASES = {PREPARE: "prepare", COMMIT: "commit", 8: "discard", 9: "done"}

Coin = collections.namedtuple("Coin", "hash spelled value")
Tx = collections.namedtuple("Tx", "id spent made spelled")


class Wrong(Exception):
    """Something that is not as it must be."""


def sha(data):
    return hashlib.sha256(data).digest()


def number(n):
    return n.to_bytes(8, "little")


def counted(items):
    return number(len(items)) + b"".join(items)


def output(owner, value):
    return number(owner) + bytes(24) + number(value)


def coins_of(tx_id, outputs):
    """The coins that a transaction makes."""
    spelled = [tx_id + number(at) + it for at, it in enumerate(outputs)]
    return [Coin(sha(it), it, int.from_bytes(it[-8:], "little")) for it in spelled]


def transaction(spent, outputs):
    body = counted([it.spelled for it in spent]) + counted(outputs)
    witnesses = counted([number(64) + bytes(64)] * len(spent))
    return Tx(sha(body), spent, coins_of(sha(body), outputs), body + witnesses)


class Work:
    """A mint, and two client files: each transaction of the first splits a coin in two, the one at its place in the second joins the halves.

    Of the first file one in 25 is a rival: it spends the coin of the one before it, which another lane runs, where there are several. Which of the
    two is confirmed is a matter of the schedule then, and so which of their joins is. How many are confirmed, and of what value, is the same in every
    schedule."""

    def __init__(self, count):
        places = range(count // 2)
        owners = itertools.count()
        coins = [output(next(owners), 2 + place % 100) for place in places if place % RIVAL != RIVAL - 1]
        self.mint = coins_of(sha(number(0) + counted(coins)), coins)
        own = [self.mint[place - (place + 1) // RIVAL] for place in places]
        first, second = [], []
        for coin in own:
            low, high = coin.value // 2, coin.value - coin.value // 2
            first.append(transaction([coin], [output(next(owners), low), output(next(owners), high)]))
            second.append(transaction(first[-1].made, [output(next(owners), coin.value)]))
        self.files = [first, second]
        self.txs = {tx.id: tx for txs in self.files for tx in txs}
        self.prizes = {tx.id: (at, coin.hash) for at, txs in enumerate(self.files) for tx, coin in zip(txs, own)}

    def write(self, folder):
        verdicts = [f"{tx.id.hex()} {at} good\n" for tx in self.txs.values() for at, _ in enumerate(tx.spent)]
        written = {"mint": counted([it.spelled[40:] for it in self.mint]), "verdicts": "".join(verdicts).encode()}
        for at, txs in enumerate(self.files, 1):
            written[f"client-{at}"] = counted([tx.spelled for tx in txs])
        for name, data in written.items():
            with open(f"{folder}/{name}", "wb") as out:
                out.write(data)

    def left_by(self, committed):
        """The coins that are unspent once these transactions are committed."""
        txs = [self.txs[it] for it in committed]
        spent = {coin.hash for tx in txs for coin in tx.spent}
        return [it for it in itertools.chain(self.mint, *(tx.made for tx in txs)) if it.hash not in spent]

    def check_end(self, committed):
        """Once all was handed in, each coin was split once, and its halves were joined once."""
        won = collections.Counter(self.prizes[it] for it in committed)
        wanted = collections.Counter(set(self.prizes.values()))
        if won != wanted:
            raise Wrong(f"of {len(wanted)} splits and joins {len(wanted - won)} were not committed, {len(won - wanted)} more than once")


class Fields:
    """Reads the fields of a record, one behind another."""

    def __init__(self, data, at):
        self.data, self.at = data, at

    def take(self, count):
        self.at += count
        return self.data[self.at - count : self.at]

    def byte(self):
        return self.take(1)[0]

    def number(self):
        return int.from_bytes(self.take(8), "little")

    def hash(self):
        return self.take(32)

    def list(self, item):
        return [item() for _ in range(self.number())]

    def form(self):
        """A transaction: its id, the hashes of the coins that it spends, and of those that it makes."""
        return self.hash(), self.list(self.hash), self.list(self.hash)

    def entry(self):
        """An entry of a Lock, and whether its reply is that all is held."""
        self.number()
        form, kind = self.form(), self.byte()
        self.take((0, 32, 48)[kind])
        return form, kind == 0

    def outcome(self):
        """The words of an outcome, in front of its batch and behind it."""
        kind = self.byte()
        if kind == 0:
            return "confirmed", ""
        shard, coin = self.number(), self.hash().hex()
        by = f" by {self.number()} {self.number()}" if kind == 2 else ""
        return f"rejected {('missing', 'locked')[kind - 1]} {coin} {shard}", by


class Batch:
    """A batch, by the records of its coordinator."""

    def __init__(self, forms):
        self.forms, self.phase, self.outcomes = forms, "prepare", []

    def confirmed(self):
        return [form[0] for form, (word, _) in zip(self.forms, self.outcomes) if word == "confirmed"]


class Rack:
    """The journals of a rack as they stand: batches by lane and number, and the hashes that are unspent."""

    def __init__(self, folder):
        self.batches, self.unspent = {}, set()
        for name in sorted(os.listdir(f"{folder}/rack")):
            with open(f"{folder}/rack/{name}", "rb") as journal:
                self.read(name, journal.read())
        self.committed = [it for batch in self.batches.values() for it in batch.confirmed()]

    def read(self, name, data):
        locks, at = {}, 0
        while at < len(data) and data[at] == 1:
            self.take_in(name, locks, Fields(data, at + 9))
            at += 9 + int.from_bytes(data[at + 1 : at + 9], "little")

    def take_in(self, name, locks, fields):
        """Takes in a record of a node, whose lanes hold these locks."""
        kind, _ = fields.byte(), fields.number()
        if kind == GENESIS:
            fields.take(80)
            self.unspent.update(fields.list(fields.hash))
        if kind not in PHASES and kind not in (LOCK, FINISH):
            return
        lane, own = fields.number(), fields.number()
        if kind == LOCK:
            locks[lane] = fields.list(fields.entry)
        elif kind == FINISH:
            self.finish(name, locks[lane], fields.list(fields.byte))
        elif kind == PREPARE:
            self.batches[lane, own] = Batch(fields.list(fields.form))
        else:
            self.batches[lane, own].phase = PHASES[kind]
        if kind == COMMIT:
            self.batches[lane, own].outcomes = fields.list(fields.outcome)

    def finish(self, name, entries, decisions):
        for ((tx_id, spent, made), is_held), decision in zip(entries, decisions):
            if decision and not (is_held and self.unspent.issuperset(spent)):
                raise Wrong(f"{name} commits {tx_id.hex()}, which spends what is not there or not held")
            if decision:
                self.unspent.difference_update(spent)
                self.unspent.update(made)

    def open_batches(self):
        return {key: batch for key, batch in self.batches.items() if batch.phase != "done"}

    def begun_since(self, before):
        return {key: batch for key, batch in self.batches.items() if key not in before.batches}


def run_text(work, before, rack):
    """What a run must have printed that began with one rack and ended with the other."""
    begun = rack.begun_since(before)
    lines = {}
    for (lane, own), batch in begun.items():
        for form, (word, by) in zip(batch.forms, batch.outcomes):
            lines[form[0]] = f"{form[0].hex()} {word} {lane} {own}{by}"
    confirmed = sum(len(batch.confirmed()) for batch in begun.values())
    text = "".join(f"{file} {place} {lines.get(tx.id)}\n" for file, txs in enumerate(work.files, 1) for place, tx in enumerate(txs))
    text += f"resumed 0\nbatches {len(begun)}\nconfirmed {confirmed}\nrejected {len(work.txs) - confirmed}\nrefused 0\n"
    return text + f"unspent {len(rack.unspent)}\n"


def recover_text(before, rack):
    """What a recovery must have printed that began with one rack and ended with the other."""
    text, resumed = "", sorted(before.open_batches().items())
    for (lane, own), batch in resumed:
        now = rack.batches[lane, own]
        confirmed = len(now.confirmed())
        text += f"batch {lane} {own} {batch.phase} confirmed {confirmed} rejected {len(now.forms) - confirmed}\n"
    return text + f"resumed {len(resumed)}\nunspent {len(rack.unspent)}\n"


def audit_text(work, rack):
    """What an audit must print of a rack on which nothing is open; the shards must hold what the committed transactions leave of the mint."""
    for batch in rack.batches.values():
        for tx_id, spent, made in batch.forms:
            if [spent, made] != [[it.hash for it in coins] for coins in (work.txs[tx_id].spent, work.txs[tx_id].made)]:
                raise Wrong(f"a Prepare has other coins of {tx_id.hex()} than its client file")
    left = work.left_by(rack.committed)
    if {it.hash for it in left} != rack.unspent:
        raise Wrong(f"the shards hold {len(rack.unspent)} coins, and not the {len(left)} that are left")
    value, minted = sum(it.value for it in left), sum(it.value for it in work.mint)
    return f"coins {len(left)}\nvalue {value}\nminted {minted}\ncommitted {len(rack.committed)}\nmoney {value}\nissued 0\nredeemed 0\n"


def compare(what, came, wanted):
    """Ends with the first line that is another than the one that is wanted."""
    for at, (one, other) in enumerate(itertools.zip_longest(came.split("\n"), wanted.split("\n")), 1):
        if one != other:
            raise Wrong(f"line {at} of what {what} printed is {one!r}, and by the journals {other!r}")


def text_of(program, words, folder):
    """What a command prints, which must end with status 0."""
    try:
        ran = subprocess.run([program, *words], cwd=folder, stdout=subprocess.PIPE, text=True, timeout=LIMIT)
    except subprocess.TimeoutExpired:
        raise Wrong(f"{words[0]} had not ended after {LIMIT} seconds") from None
    if ran.returncode:
        raise Wrong(f"{words[0]} ended with status {ran.returncode} and printed {ran.stdout[:200]!r}")
    return ran.stdout
