"""What tools/read-rack, compare-racks and make-pictures share: a reader of a rack's journals, and the lines of their records.

It reads by docs/FORMATS.md alone and takes nothing from `hamilton`. Of each journal it finds where it ends or is damaged, and checks that each
record is in the grammar and may come next on its node; of a whole rack it tells the records in the order of their history, the first that lacks
what it rests on, and what each shard holds.
"""
import collections
import json
import os
import stat
import struct

import least  # ends here where Python is older than that

KINDS = "Genesis Lock Finish Forget Start Prepare Commit Discard Done".split()
MAGIC = b"HAMJRNL1"
LATEST = 2**62
# So many stamps above it records behind a lock may have.
BEHIND = 2**20
MINTED = 1_000_000
# A rack has at most so many nodes.
NODES = 80
# A line for people shows so many items of a list, and so many digits of a hash.
ITEMS, DIGITS = 6, 8
HELD = ("Held",)

Header = collections.namedtuple("Header", "node shards coordinators lanes batch genesis")
Record = collections.namedtuple("Record", "node at size kind stamp lane number items header")
Entry = collections.namedtuple("Entry", "place id inputs outputs")
Transaction = collections.namedtuple("Transaction", "id inputs outputs")
Fault = collections.namedtuple("Fault", "node kind at why")


class Bad(Exception):
    """Bytes that are no record, or a record that may not stand where it stands."""


class NoRack(Exception):
    """A folder that holds no rack."""


def shard_of(hash_, shards):
    return hash_[0] * shards // 256


def role_of(header, node):
    """What a node is, by a header of its ledger."""
    if node < header.coordinators:
        return f"coordinator {node}"
    return f"shard {node - header.coordinators}"


# Bodies: fields, one behind another.


def need(holds, why):
    if not holds:
        raise Bad(why)


class Body:
    """The fields of a body."""

    def __init__(self, data, at, end):
        self.data, self.at, self.end = data, at, end

    def take(self, many):
        need(many <= self.end - self.at, "its body ends within a field")
        at, self.at = self.at, self.at + many
        return self.data[at : self.at]

    def byte(self):
        return self.take(1)[0]

    def number(self):
        return struct.unpack("<Q", self.take(8))[0]

    def hashes(self, most):
        count = self.number()
        need(count <= most, f"a list of {count} hashes, {most} at most")
        data = self.take(32 * count)
        return tuple(data[at : at + 32] for at in range(0, len(data), 32))

    def batch(self, header):
        lane, number = self.number(), self.number()
        lanes = header.coordinators * header.lanes
        need(lane < lanes, f"lane {lane} of {lanes}")
        need(1 <= number <= LATEST, f"batch number {number}")
        return lane, number

    def items(self, header, read):
        count = self.number()
        need(1 <= count <= header.batch, f"a list of {count} items, not 1 to {header.batch}")
        return tuple(read(self, header) for _ in range(count))


def read_header(body):
    need(body.take(8) == MAGIC, "its first record has no magic")
    numbers = [body.number() for _ in range(5)]  # ahead of the hash: before Python 3.9 a generator here would be read behind it
    header = Header(*numbers, body.take(32))
    limits = (("shards", 64), ("coordinators", 16), ("lanes", 16), ("batch", 1024))
    for name, most in limits:
        many = getattr(header, name)
        need(1 <= many <= most, f"its header has {name} {many}")
    return header


def read_result(body, header, where):
    """A reply, or with a shard in it (`where`) an outcome."""
    tag = body.byte()
    need(tag <= 2, f"a reply of kind {tag}")
    if tag == 0:
        return HELD
    shard = ()
    if where:
        shard = (body.number(),)
        need(shard[0] < header.shards, f"shard {shard[0]} of {header.shards}")
    hash_ = body.take(32)
    return ("Missing", *shard, hash_) if tag == 1 else ("Locked", *shard, hash_, *body.batch(header))


def read_part(body, header):
    place = body.number()
    need(place < header.batch, f"place {place} of a batch of {header.batch}")
    entry = Entry(place, body.take(32), body.hashes(255), body.hashes(255))
    own = header.node - header.coordinators
    need(entry.inputs or entry.outputs, f"an entry without a hash at place {place}")
    need(all(shard_of(it, header.shards) == own for it in entry.inputs + entry.outputs), f"a hash of another shard at place {place}")
    return entry, read_result(body, header, False)


def read_decision(body, header):
    decision = body.byte()
    need(decision <= 1, f"a decision {decision}")
    return decision


def read_transaction(body, header):
    return Transaction(body.take(32), body.hashes(255), body.hashes(255))


def read_outcome(body, header):
    return read_result(body, header, True)


ITEM = {"Lock": read_part, "Finish": read_decision, "Prepare": read_transaction, "Commit": read_outcome}


def read_first(body, kind):
    """The header and the minted hashes of a first record."""
    header = read_header(body)
    is_shard = header.coordinators <= header.node < header.coordinators + header.shards
    need(is_shard if kind == "Genesis" else header.node < header.coordinators, f"a {kind} of node {header.node}")
    if kind == "Start":
        return header, ()
    hashes = body.hashes(MINTED)
    own = header.node - header.coordinators
    need(all(shard_of(it, header.shards) == own for it in hashes), "a minted hash of another shard")
    return header, hashes


def read_body(data, at, end, header):
    """A body in the grammar, as kind, stamp, lane, number, items and header; `header` is None at a journal's first one."""
    body = Body(data, at, end)
    tag = body.byte()
    need(1 <= tag <= len(KINDS), f"a record of kind {tag}")
    kind, stamp = KINDS[tag - 1], body.number()
    lane = number = None
    items = ()
    if kind in ("Genesis", "Start"):
        need(stamp == 0, f"a {kind} of stamp {stamp}")
        header, items = read_first(body, kind)
    else:
        need(header, f"a {kind} as the first record")
        latest = LATEST if kind in ("Lock", "Prepare") else LATEST + BEHIND
        need(1 <= stamp <= latest, f"a {kind} of stamp {stamp}")
        lane, number = body.batch(header)
        if kind in ITEM:
            items = body.items(header, ITEM[kind])
        if kind == "Lock":
            places = [entry.place for entry, _ in items]
            need(all(a < b for a, b in zip(places, places[1:])), "places that do not rise")
    need(body.at == end, f"{end - body.at} bytes behind the {kind}")
    return kind, stamp, lane, number, items, header


# Nodes: which record may come next.


class Shard:
    """What a shard's records come to: each hash that it holds, with the batch that has it locked or None, and where each lane stands."""

    def __init__(self, first):
        self.held = dict.fromkeys(first.items)
        self.lanes = {}

    def reply(self, inputs):
        for it in inputs:
            if it not in self.held:
                return ("Missing", it)
            if self.held[it]:
                return ("Locked", it, *self.held[it])
        return HELD

    def lock(self, record):
        before, number, _ = self.lanes.get(record.lane, ("idle", 0, ()))
        need(before == "idle" and number < record.number, f"a Lock of batch {record.number} where its lane {before_text(before, number)}")
        for entry, reply in record.items:
            need(reply == self.reply(entry.inputs), f"at place {entry.place} a reply that the journal does not give")
            if reply == HELD:
                self.held.update(dict.fromkeys(entry.inputs, (record.lane, record.number)))
        self.lanes[record.lane] = ("locked", record.number, record.items)

    def finish(self, record):
        before, number, part = self.lanes.get(record.lane, ("idle", 0, ()))
        need((before, number) == ("locked", record.number), f"a Finish of batch {record.number} where its lane {before_text(before, number)}")
        need(len(record.items) == len(part), f"{len(record.items)} decisions for {len(part)} entries")
        for (entry, reply), decision in zip(part, record.items):
            need(reply == HELD or not decision, f"a commit of place {entry.place}, which is not held")
        held = [(entry, decision) for (entry, reply), decision in zip(part, record.items) if reply == HELD]
        for entry, decision in held:
            if decision:
                for it in entry.inputs:
                    self.held.pop(it, None)
            else:
                self.held.update(dict.fromkeys(entry.inputs))
        for entry, decision in held:
            if decision:
                self.held.update(dict.fromkeys(entry.outputs))
        self.lanes[record.lane] = ("finished", record.number, ())

    def forget(self, record):
        before, number, _ = self.lanes.get(record.lane, ("idle", 0, ()))
        need((before, number) == ("finished", record.number), f"a Forget of batch {record.number} where its lane {before_text(before, number)}")
        self.lanes[record.lane] = ("idle", record.number, ())

    def follow(self, record):
        step = {"Lock": self.lock, "Finish": self.finish, "Forget": self.forget}.get(record.kind)
        need(step, f"a {record.kind} on a shard")
        step(record)


class Coordinator:
    """Where each lane of a coordinator stands."""

    AFTER = {"Prepare": ("idle", "prepared"), "Commit": ("prepared", "committed"), "Discard": ("committed", "discarded")}
    AFTER["Done"] = ("discarded", "idle")

    def __init__(self, first):
        self.node, self.own = first.header.node, first.header.lanes
        self.lanes = {}

    def follow(self, record):
        need(record.kind in self.AFTER, f"a {record.kind} on a coordinator")
        need(record.lane // self.own == self.node, f"a {record.kind} of lane {record.lane}, which is another coordinator's")
        before, number, many = self.lanes.get(record.lane, ("idle", 0, 0))
        wanted, after = self.AFTER[record.kind]
        following = number + (record.kind == "Prepare")
        is_next = (before, following) == (wanted, record.number)
        need(is_next, f"a {record.kind} of batch {record.number} where its lane {before_text(before, number)}")
        if record.kind == "Commit":
            need(len(record.items) == many, f"{len(record.items)} outcomes for {many} transactions")
        self.lanes[record.lane] = (after, number if after != "prepared" else record.number, len(record.items))


def before_text(phase, number):
    if not number:
        return "had no batch"
    return f"is idle behind batch {number}" if phase == "idle" else f"has batch {number} {phase}"


class Journal:
    """A node's journal: its header, its records up to its end or to a damage, what they come to, and the bytes used."""

    def __init__(self, node, data):
        self.node, self.records, self.header, self.state, self.fault = node, [], None, None, None
        at = 0
        try:
            while not self.records or data[at] == 1:
                at = self.read(data, at)
        except Bad as why:
            self.fault = Fault(node, "damaged" if self.records else "not ready", at, str(why))
        # where the closing gate is, or would be
        self.used = at + 1 if self.records else 0

    def read(self, data, at):
        """Reads the record behind the open gate at `at`; its end, where the next gate is."""
        need(data, "its file is missing or empty")
        need(data[at] == 1, f"its first gate is closed (byte {data[at]:02x})")
        need(at + 9 <= len(data), "the file ends within the record's length")
        end = at + 9 + struct.unpack_from("<Q", data, at + 1)[0]
        need(end < len(data), f"the record would end at {end}, and the file has {len(data)} bytes")
        record = Record(self.node, at, end - at, *read_body(data, at + 9, end, self.header))
        if self.records:
            need(record.kind not in ("Genesis", "Start"), f"a second {record.kind}")
            before = self.records[-1].stamp
            need(record.stamp > before, f"stamp {record.stamp} behind stamp {before}")
            self.state.follow(record)
        else:
            self.header = record.header
            self.state = (Shard if record.kind == "Genesis" else Coordinator)(record)
        self.records.append(record)
        return end


# Racks.


def node_name(node):
    return f"node-{node:03}"


def read_file(folder, node):
    """The bytes of a node's file; none where it is missing, as the program makes it then. What is no file, as a pipe, is not waited for."""
    name = f"{folder}/{node_name(node)}"
    try:
        if not stat.S_ISREG(os.stat(name).st_mode):
            raise NoRack(f"{name} is no file")
        with open(name, "rb") as file:
            return file.read()
    except FileNotFoundError:
        return b""


def open_rack(folder, only_coordinators=False):
    """The rack in a folder, or that of its coordinators alone."""
    if not os.path.isdir(folder):
        raise NoRack(f"{folder}: there is no such folder")
    if not os.path.exists(f"{folder}/{node_name(0)}"):
        raise NoRack(f"{folder}: no rack, it has no file {node_name(0)}")
    return Rack(lambda node: read_file(folder, node), folder, only_coordinators)


def rack_of(disks):
    """The rack with these bytes on its nodes' disks."""
    return Rack(lambda node: disks[node] if node < len(disks) else b"", "rack")


class Rack:
    """The journals of a rack, and what is wrong with them, in the order of the nodes. The header of the first that has one says how many they are."""

    def __init__(self, read, name, only_coordinators=False):
        journals = [Journal(0, read(0))]
        while not journals[-1].header and len(journals) < NODES:
            journals.append(Journal(len(journals), read(len(journals))))
        self.header = journals[-1].header
        if not self.header:
            why = journals[0].fault.why
            raise NoRack(f"{name}: no rack, none of its journals has a whole first record ({node_name(0)}: {why})")
        nodes = self.header.coordinators + (0 if only_coordinators else self.header.shards)
        journals += [Journal(node, read(node)) for node in range(len(journals), nodes)]
        self.journals = journals[:nodes]
        self.faults = [fault for it in self.journals for fault in self.fault_of(it)]

    def fault_of(self, journal):
        if journal.fault:
            return [journal.fault]
        wanted = self.header._replace(node=journal.node)
        for name, asked, has in zip(Header._fields, wanted, journal.header):
            if asked != has:
                shown = (it if isinstance(it, int) else it.hex()[:DIGITS] for it in (has, asked))
                return [Fault(journal.node, "foreign", 0, "its header has {} {}, not {}".format(name, *shown))]
        return []

    def history(self):
        """All records in the order of the history: by stamp and node."""
        return sorted((record for it in self.journals for record in it.records), key=lambda it: (it.stamp, it.node))

    def held(self):
        """Each hash that the shards hold, with the batch that has it locked or None."""
        return {hash_: batch for it in self.journals if isinstance(it.state, Shard) for hash_, batch in it.state.held.items()}

    def uncaused(self):
        """The first record of the history that lacks what it rests on, as its place, the record and why; or None."""
        causes = Causes(self.header)
        for place, record in enumerate(self.history()):
            try:
                causes.follow(record)
            except Bad as why:
                return place, record, str(why)
        return None


class Batch:
    """What is known of a batch: its records, and its parts by the shards that it concerns."""

    def __init__(self, prepare, header):
        self.prepare, self.parts = prepare, parts_of(prepare.items, header.shards)
        self.locks, self.finishes, self.forgets = {}, {}, {}
        self.commit = self.discard = None


def parts_of(transactions, shards):
    """What of a batch lies on each shard that it concerns."""
    parts = collections.defaultdict(list)
    for place, tx in enumerate(transactions):
        sides = collections.defaultdict(lambda: ([], []))
        for side, hashes in enumerate((tx.inputs, tx.outputs)):
            for it in hashes:
                sides[shard_of(it, shards)][side].append(it)
        for shard, (inputs, outputs) in sides.items():
            parts[shard].append(Entry(place, tx.id, tuple(inputs), tuple(outputs)))
    return parts


def outcomes_of(batch):
    """Of each transaction of a batch, by its locks: held, or what the least shard said that did not hold its part."""
    outcomes = [HELD] * len(batch.prepare.items)
    for shard in sorted(batch.locks):
        for entry, reply in batch.locks[shard].items:
            if reply != HELD and outcomes[entry.place] == HELD:
                outcomes[entry.place] = (reply[0], shard, *reply[1:])
    return tuple(outcomes)


class Causes:
    """Goes along a history and sees that each record stands behind what it rests on, agrees with it, and has the stamp that follows."""

    def __init__(self, header):
        self.header, self.batches = header, {}
        # the last stamp of each node
        self.last = collections.Counter()

    def follow(self, record):
        if record.lane is not None:
            key = record.lane, record.number
            if record.kind == "Prepare":
                self.batches[key] = Batch(record, self.header)
            need(key in self.batches, f"no Prepare of batch {record.lane} {record.number} stands before it")
            causes = getattr(self, record.kind.lower())(self.batches[key], record)
            latest = max([self.last[record.node], *(it.stamp for it in causes)])
            need(record.stamp == latest + 1, f"the stamp behind its node's last one and what it rests on is {latest + 1}")
        self.last[record.node] = record.stamp

    def shard(self, record):
        return record.node - self.header.coordinators

    # Each takes a record of its kind into its batch, and gives the records on which it rests.

    def prepare(self, batch, record):
        return []

    def lock(self, batch, record):
        part = batch.parts.get(self.shard(record), [])
        need([entry for entry, _ in record.items] == part, "its entries are not what the Prepare has for this shard")
        batch.locks[self.shard(record)] = record
        return [batch.prepare]

    def commit(self, batch, record):
        locks = self.all_of(batch, batch.locks, "Lock")
        need(record.items == outcomes_of(batch), "its outcomes are not what the Locks say")
        batch.commit = record
        return locks

    def finish(self, batch, record):
        need(batch.commit, "no Commit stands before it")
        part = batch.parts[self.shard(record)]
        wanted = tuple(int(batch.commit.items[entry.place] == HELD) for entry in part)
        need(record.items == wanted, "its decisions are not what the Commit says")
        batch.finishes[self.shard(record)] = record
        return [batch.commit]

    def discard(self, batch, record):
        batch.discard = record
        return self.all_of(batch, batch.finishes, "Finish")

    def forget(self, batch, record):
        need(batch.discard, "no Discard stands before it")
        batch.forgets[self.shard(record)] = record
        return [batch.discard]

    def done(self, batch, record):
        return self.all_of(batch, batch.forgets, "Forget")

    def all_of(self, batch, there, kind):
        for shard in sorted(batch.parts):
            need(shard in there, f"no {kind} of shard {shard} stands before it")
        return there.values()


def batches_of(records):
    """The last record of each batch's coordinator that is among the records, by lane and number."""
    last = {}
    for it in records:
        if it.kind in Coordinator.AFTER:
            last[it.lane, it.number] = it
    return last


def is_open(last):
    return last.kind != "Done"


# Lines.


def count(many, what):
    return f"{many} {what}" + ("" if many == 1 else "es" if what.endswith("ch") else "s")


class Spelling:
    """How records are spelled in lines: shortened or in full."""

    def __init__(self, full=False):
        self.full = full

    def hash(self, data):
        return data.hex() if self.full else data.hex()[:DIGITS]

    def list(self, items, between):
        shown = items if self.full else items[:ITEMS]
        more = [f"and {len(items) - len(shown)} more"] if len(items) > len(shown) else []
        return between.join([*shown, *more])

    def sides(self, it):
        spends = self.list([self.hash(hash_) for hash_ in it.inputs], " ") or "nothing"
        makes = self.list([self.hash(hash_) for hash_ in it.outputs], " ") or "nothing"
        return f"{self.hash(it.id)} spends {spends} makes {makes}"

    def result(self, it):
        """A reply or an outcome: an outcome has the shard before the hash."""
        if it == HELD:
            return "Held"
        shard = f" on shard {it[1]}" if isinstance(it[1], int) else ""
        kind, hash_, *holder = it[0], *it[1 + bool(shard):]
        by = " by {} {}".format(*holder) if holder else ""
        return f"{kind} {self.hash(hash_)}{shard}{by}"

    def content(self, record):
        if record.kind in ("Genesis", "Start"):
            header = record.header
            shape = [count(header.shards, "shard"), f"{count(header.coordinators, 'coordinator')} of {count(header.lanes, 'lane')}"]
            text = ", ".join([*shape, f"batches of {header.batch}", f"genesis {self.hash(header.genesis)}"])
            if record.kind == "Start":
                return text
            hashes = self.list([self.hash(it) for it in record.items], " ")
            return f"{text}, {len(record.items)} minted here" + (f": {hashes}" if hashes else "")
        if record.kind == "Prepare":
            return self.list([f"{place}: {self.sides(it)}" for place, it in enumerate(record.items)], "; ")
        if record.kind == "Lock":
            return self.list([f"{it.place}: {self.sides(it)}: {self.result(reply)}" for it, reply in record.items], "; ")
        if record.kind == "Finish":
            return self.list(["commit" if it else "not" for it in record.items], ", ")
        if record.kind == "Commit":
            return self.list([f"{place}: {self.result(it)}" for place, it in enumerate(record.items)], "; ")
        return ""


def summary(rack):
    """A line of a whole rack: how many records and batches it has, and how long its journals are."""
    records = [record for journal in rack.journals for record in journal.records]
    last = batches_of(records)
    still = sum(map(is_open, last.values()))
    used = ", ".join(f"{node_name(it.node)} {it.used}" for it in rack.journals)
    return f"{count(len(records), 'record')}, {count(len(last), 'batch')}, {still} open; bytes used: {used}"


def told_wrong(rack, with_causes):
    """Lines of what is wrong with a rack: of each journal that is not in order, or else, where that is asked, of the first record without a cause."""
    lines = []
    for fault in rack.faults:
        place = f" at {fault.at}" if fault.kind == "damaged" else ""
        lines.append(f"{node_name(fault.node)}: {fault.kind}{place}: {fault.why}")
    found = rack.uncaused() if with_causes and not lines else None
    if found:
        place, record, why = found
        what = f"{record.kind} of batch {record.lane} {record.number} on {node_name(record.node)}, stamp {record.stamp}"
        lines.append(f"not caused at {place}: {what}: {why}")
    return lines


def verdict(rack, wrong):
    """A line that says whether a rack is in order, by what `told_wrong` says of it, and what it holds."""
    return f"{'not in order' if wrong else 'in order'}: {summary(rack)}"


def cells(record, spelling):
    """The columns of a record's line."""
    batch = [str(record.lane), str(record.number)] if record.lane is not None else ["", ""]
    return [str(record.stamp), node_name(record.node), role_of(record.header, record.header.node), *batch, record.kind, spelling.content(record)]


def result_value(it):
    names = {"Held": [], "Missing": ["hash"], "Locked": ["hash", "lane", "number"]}[it[0]]
    if len(it) > 1 + len(names):
        names = ["shard", *names]
    return {"kind": it[0], **{name: value.hex() if isinstance(value, bytes) else value for name, value in zip(names, it[1:])}}


def sides_value(it):
    return {"id": it.id.hex(), "inputs": [hash_.hex() for hash_ in it.inputs], "outputs": [hash_.hex() for hash_ in it.outputs]}


def json_line(record):
    """A record as one JSON value."""
    value = {"stamp": record.stamp, "node": record.node, "role": role_of(record.header, record.header.node)}
    value.update(kind=record.kind, at=record.at, bytes=record.size)
    if record.lane is not None:
        value.update(lane=record.lane, number=record.number)
    else:
        value["header"] = {**record.header._asdict(), "genesis": record.header.genesis.hex()}
    if record.kind == "Genesis":
        value["minted"] = [it.hex() for it in record.items]
    elif record.kind == "Prepare":
        value["transactions"] = [sides_value(it) for it in record.items]
    elif record.kind == "Lock":
        value["entries"] = [{"place": it.place, **sides_value(it), "reply": result_value(reply)} for it, reply in record.items]
    elif record.kind == "Finish":
        value["decisions"] = ["commit" if it else "not" for it in record.items]
    elif record.kind == "Commit":
        value["outcomes"] = [result_value(it) for it in record.items]
    return json.dumps(value)


def outcome_words(outcome, lane, number):
    """What `hamilton run` says of an outcome, with the batch that it is of."""
    if outcome == HELD:
        return f"confirmed {lane} {number}"
    kind, shard, hash_, *by = outcome
    behind = " by {} {}".format(*by) if by else ""
    return f"rejected {kind.lower()} {hash_.hex()} {shard} {lane} {number}{behind}"


def held_lines(held):
    """What `hamilton status` says of each hash that the shards hold, in the order of the hashes."""
    for hash_, batch in sorted(held.items()):
        yield f"{hash_.hex()} unspent" if batch is None else "{} locked {} {}".format(hash_.hex(), *batch)
