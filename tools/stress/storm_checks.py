"""What tools/stress/storm sees of a case: that what each stage printed, left on its disks and would have left behind a crash is what it must be.

Journals are read by `racks.py`, which goes by docs/FORMATS.md alone, checks that each record is in the grammar and may come next, and finds the
first that lacks what it rests on. Texts are told from the journals, as docs/FORMATS.md says; statuses are those that docs/OPERATING.md has for
what was done.
"""
import collections

import racks
from storm_cases import Tx, kind, worth

HELD = racks.HELD
PHASES = {"Prepare": "prepare", "Commit": "commit", "Discard": "discard"}
# What a node keeps free for a batch whose last record this is, and for each of its transactions or entries.
KEPT = {"Prepare": (110, 57), "Commit": (68, 0), "Discard": (34, 0), "Lock": (76, 1), "Finish": (34, 0)}

Batch = collections.namedtuple("Batch", "forms outcomes phase")
Left = collections.namedtuple("Left", "live none torn")


class Wrong(Exception):
    """Something that is not as it must be."""


def must(holds, why):
    if not holds:
        raise Wrong(why)


def same(what, came, wanted):
    """Ends with the first line that is another than the one that is wanted."""
    if came == wanted:
        return
    one, other = came.split("\n"), wanted.split("\n")
    at = next((at for at, (a, b) in enumerate(zip(one, other)) if a != b), min(len(one), len(other)))
    raise Wrong(f"{what}: line {at + 1} is {one[at:at + 1]}, wanted {other[at:at + 1]}")


class Rack(racks.Rack):
    """A rack by journals that were read."""

    def __init__(self, journals):
        self.journals, self.header = journals, journals[0].header
        self.faults = [fault for it in journals for fault in self.fault_of(it)]


class Reader:
    """Reads the disks of a case, each journal and each rack once."""

    def __init__(self):
        self.journals, self.racks = {}, {}

    def journal(self, node, data):
        if (node, data) not in self.journals:
            self.journals[node, data] = racks.Journal(node, data)
        return self.journals[node, data]

    def rack(self, disks):
        disks = tuple(disks)
        if disks not in self.racks:
            self.racks[disks] = Seen(disks, [self.journal(node, data) for node, data in enumerate(disks)])
        return self.racks[disks]


class Seen:
    """Disks, and what their journals say."""

    def __init__(self, disks, journals):
        self.disks = disks
        self.records = [it.records for it in journals]
        self.used = [it.used for it in journals]
        self.is_ledger = bool(self.records[0])
        self.batches, self.held, self.history = {}, {}, []
        if self.is_ledger:
            self.look(Rack(journals))

    def look(self, rack):
        must(not rack.faults, f"a journal is {rack.faults[:1]}")
        found = rack.uncaused()
        must(not found, f"a record is not caused: {found}")
        self.held, self.history = rack.held(), rack.history()
        for record in self.history:
            key = record.lane, record.number
            if record.kind == "Prepare":
                self.batches[key] = Batch(record.items, (), "prepare")
            elif record.kind == "Commit":
                self.batches[key] = self.batches[key]._replace(outcomes=record.items, phase="commit")
            elif record.kind in ("Discard", "Done"):
                self.batches[key] = self.batches[key]._replace(phase=record.kind.lower())

    def open(self):
        return {key: it for key, it in sorted(self.batches.items()) if it.phase != "done"}

    def last_number(self, lane):
        return max([number for own, number in self.batches if own == lane], default=0)

    def committed(self):
        """The ids that are committed, in the order of the history."""
        for record in self.history:
            if record.kind == "Commit":
                forms = self.batches[record.lane, record.number].forms
                yield from (form for form, outcome in zip(forms, record.items) if outcome == HELD)

    def kept_room(self, node):
        """What a node keeps free for its open batches."""
        last = {}
        for it in self.records[node]:
            if it.lane is not None:
                last[it.lane] = it
        sizes = [KEPT[it.kind] + (len(it.items),) for it in last.values() if it.kind in KEPT]
        return sum(size + each * many for size, each, many in sizes)

    def status_line(self, hash_):
        if hash_ not in self.held:
            return f"{hash_.hex()} absent\n"
        batch = self.held[hash_]
        return f"{hash_.hex()} unspent\n" if batch is None else "{} locked {} {}\n".format(hash_.hex(), *batch)


def counts(forms_outcomes):
    confirmed = sum(outcome == HELD for outcome in forms_outcomes)
    return confirmed, len(forms_outcomes) - confirmed


class Plan:
    """What a run of client files prepares: the submissions of each file by place, with the refusal or the batch and place in it; and each batch."""

    def __init__(self, case, files, seen):
        self.lanes = case.shape.coordinators * case.shape.lanes
        self.rows, self.batches, self.of_file = [], {}, []
        number = {lane: seen.last_number(lane) for lane in range(self.lanes)}
        for file, name in enumerate(files, 1):
            self.of_file.append(set())
            lanes = collections.defaultdict(list)
            for place, tx in enumerate(case.files[name]):
                refusal = tx.refusal(case.verdicts)
                if not refusal:
                    lanes[place % self.lanes].append((place, tx))
                self.rows.append((file, place, tx, refusal, []))
            rows = {row[1]: row for row in self.rows if row[0] == file}
            for lane, own in lanes.items():
                for first in range(0, len(own), case.shape.batch):
                    number[lane] += 1
                    chunk = own[first : first + case.shape.batch]
                    self.batches[lane, number[lane]] = [tx for _, tx in chunk]
                    self.of_file[-1].add((lane, number[lane]))
                    for at, (place, _) in enumerate(chunk):
                        rows[place][4].append(((lane, number[lane]), at))


def form_of(tx):
    return racks.Transaction(tx.id, tx.spent, tx.made)


class Checks:
    """The checks of a case, over what its rows told."""

    def __init__(self, case, told, spoil, tally):
        self.case, self.told, self.spoil, self.tally = case, told, spoil, tally
        self.reader = Reader()

    def all(self):
        entry = self.reader.rack([b""] * self.case.nodes)
        for at, stage in enumerate(self.case.stages):
            entry = self.stage(at, stage, entry)
        self.end(entry)

    # A stage.

    def stage(self, at, stage, entry):
        left = Left(*(self.reader.rack(self.told.disks(f"{kind}{at}")) for kind in ("live", "none", "torn")))
        if self.spoil == "image":
            left = self.shortened(left)
        text, status = self.told.ran(f"text{at}")
        if self.spoil == "text":
            text = text.replace("confirmed 0 1", "rejected 0 1", 1)
        where = f"stage {at} ({stage.verb})"
        try:
            self.count(stage, entry, text, status)
            self.images(entry, left, status if self.case.is_steady(stage) else None)
            self.rooms(stage, left)
            self.status(stage, entry, left, text, status)
            if self.case.is_steady(stage):
                self.again(at, stage, text, status)
                self.text(stage, entry, left.live, text, status)
            elif stage.verb == "run":
                self.prepared(stage, entry, left.live, False)
                self.form(stage, entry, text, status)
            return self.leave(at, stage, left)
        except Wrong as why:
            raise Wrong(f"{where}: {why}") from None

    def shortened(self, left):
        """As if a crash had lost the last record of a node."""
        disks = list(left.none.disks)
        node = max(range(len(disks)), key=lambda node: len(left.none.records[node]))
        if left.none.records[node]:
            at = left.none.records[node][-1].at
            disks[node] = disks[node][:at] + b"\0"
        return left._replace(none=self.reader.rack(disks))

    def count(self, stage, entry, text, status):
        self.tally[f"{stage.verb} {status}"] += 1
        self.tally["open batches found"] += len(entry.open()) if stage.verb != "init" else 0
        for word in (" confirmed ", " rejected missing ", " rejected locked ", " refused "):
            self.tally[f"lines{word}".strip()] += text.count(word) if stage.verb == "run" and not status else 0

    def images(self, entry, left, status):
        """What was there stays there, and a crash leaves all that was finished, and of the record that was being written all or nothing. Where there
        is no ledger yet, a node has its first record or none."""
        if not entry.is_ledger:
            must(all(len(it) <= 1 for seen in left for it in seen.records), "a node has a second record where there is no ledger")
            must(status not in (0, 11) or left.live.records == left.none.records == left.torn.records, "an init that ended well was not safe")
            return
        for node in range(self.case.nodes):
            before, live, none, torn = (it.records[node] for it in (entry, left.live, left.none, left.torn))
            must(none[: len(before)] == before, f"node {node} lost a record in a crash")
            must(live[: len(none)] == none and len(live) <= len(none) + 1, f"node {node} lost more than the record that was being written")
            must(torn in (live, none), f"node {node} has other records behind a crash with torn bytes")
            must(status not in (0, 11) or live == none, f"node {node} was not safe where the command had ended well")

    def rooms(self, stage, left):
        for node, capacity in enumerate(stage.caps or []):
            if left.live.is_ledger:
                must(left.live.used[node] + left.live.kept_room(node) <= capacity, f"node {node} has no room for what its batches will need")

    def again(self, at, stage, text, status):
        """Which calls failed, and that the status is the one for them. A disk that is full is told where it comes first: of the nodes that are asked in
        one phase the least is told, and of the lanes that are resumed."""
        faults = self.told.faults(f"again{at}")
        hit = {node for node, many in enumerate(faults) if many}
        must(hit <= set(stage.faults), f"calls of {hit} failed")
        is_full = status == 5 and stage.verb != "init"
        is_first = is_full and (not self.case.is_one_lane() or stage.room is not None or int(text.split()[2]) < min(hit, default=0))
        must((status == 12) == bool(hit) or is_first, f"status {status} where calls of {hit} failed")
        self.tally["stages with a call that failed"] += bool(hit)

    def status(self, stage, entry, left, text, status):
        """That the status is one that there may be for what was done."""
        if status == 12:
            nodes = [f"fault disk {node}\n" for node in stage.faults]
            must(any(self.is_front(stage, text, it) for it in nodes), f"status 12 and {text!r} where {stage.faults} was to fail")
        elif status == 5:
            must(stage.caps, f"status 5 and {text!r} where there is room")
            self.full(stage, entry, left, text)
        elif status == 4:
            self.not_ready(stage, entry, text)
        elif status == 11:
            must(stage.room is not None and len(text) == stage.room, f"status 11 where the output had room for {stage.room}, and took {len(text)}")
        else:
            must(status == 0, f"status {status} and {text!r}")
            must(stage.verb == "init" or entry.is_ledger, "status 0 where there is no ledger")

    def is_front(self, stage, text, wanted):
        """Whether this was printed, as far as there was room."""
        return text == (wanted if stage.room is None else wanted[: stage.room])

    def not_ready(self, stage, entry, text):
        if stage.verb == "init":
            second = [node for node in range(1, self.case.nodes) if len(entry.records[node]) > 1]
            must(entry.is_ledger or second, "status 4 of an init where no node is in use")
            node = 0 if entry.is_ledger else min(second)
            must(self.is_front(stage, text, f"fault not empty {node}\n"), f"status 4 and {text!r}")
        else:
            must(not entry.is_ledger, f"status 4 and {text!r} where there is a ledger")
            must(self.is_front(stage, text, "fault not ready 0\n"), f"status 4 and {text!r}")

    def full(self, stage, entry, left, text):
        words = text.split()
        if stage.room is not None and len(words) < 9:
            return
        must(words[:2] == ["fault", "full"], f"status 5 and {text!r}")
        node, used, need, capacity = (int(words[at]) for at in (2, 4, 6, 8))
        if stage.room is not None and len(text) == stage.room:
            return
        must(capacity == stage.caps[node], f"{text!r}, and the capacity is {stage.caps[node]}")
        must(used + need > capacity, f"{text!r}, which fits")
        if stage.verb == "init":
            nodes = [it for it in range(self.case.nodes) if self.case.first_size(it) > stage.caps[it]]
            must((node, used, need) == (max(nodes, default=None), 0, self.case.first_size(node)), f"{text!r}, and {nodes} are full")
        elif self.case.is_one_lane():
            must(used == left.live.used[node], f"{text!r}, and {left.live.used[node]} are used")
        elif self.case.is_steady(stage):
            # lanes behind the one that is told may have gone on
            must(entry.used[node] <= used <= left.live.used[node], f"{text!r}, and {left.live.used[node]} are used")

    # Texts.

    def text(self, stage, entry, live, text, status):
        if status not in (0, 11):
            if stage.verb == "run":
                self.prepared(stage, entry, live, False)
            return
        told = getattr(self, stage.verb)(stage, entry, live)
        if status == 11:
            must(len(told) > len(text) and told.startswith(text), f"status 11 and {text!r}, which is no front of {told!r}")
        else:
            same("its text", text, told)

    def init(self, stage, entry, live):
        must(not entry.is_ledger and live.is_ledger and all(len(it) == 1 for it in live.records), "an init that made no ledger")
        mint, shards = self.case.mint, self.case.shape.shards
        must(list(live.held) == [it for shard in range(shards) for it in mint.hashes_on(shard, shards)], "other minted hashes")
        must(live.records[0][0].header.genesis == mint.tx.id, "another genesis")
        return f"coins {len(mint.tx.outputs)}\nminted {mint.value}\ngenesis {mint.tx.id.hex()}\n"

    def recover(self, stage, entry, live):
        found, text = entry.open(), ""
        must(set(live.batches) == set(entry.batches), "a recovery that began a batch")
        must(not live.open(), "a batch is open behind a recovery")
        for (lane, own), batch in found.items():
            confirmed, rejected = counts(live.batches[lane, own].outcomes)
            text += f"batch {lane} {own} {batch.phase} confirmed {confirmed} rejected {rejected}\n"
        return text + f"resumed {len(found)}\nunspent {len(live.held)}\n"

    def prepared(self, stage, entry, live, is_all):
        """What a run prepared is what its files tell, as far as it came: each batch of each lane, in order."""
        plan = Plan(self.case, stage.files, entry)
        begun = {key: batch for key, batch in live.batches.items() if key not in entry.batches}
        for key, batch in begun.items():
            must(key in plan.batches, f"a batch {key} that no file tells")
            must(list(batch.forms) == [form_of(tx) for tx in plan.batches[key]], f"batch {key} has other transactions than its file tells")
        if is_all:
            must(set(begun) == set(plan.batches), "batches are missing")
            must(not live.open(), "a batch is open behind a run")
        for file, batches in enumerate(plan.of_file):
            earlier = {key for own in plan.of_file[:file] for key in own}
            is_done = all(key in begun and begun[key].phase == "done" for key in earlier)
            must(is_done or not any(key in begun for key in batches), f"file {file + 1} began before the ones before it had ended")
        must(not begun or all(live.batches[key].phase == "done" for key in entry.open()), "a batch began before those that were open had ended")
        return plan, begun

    def run(self, stage, entry, live):
        plan, begun = self.prepared(stage, entry, live, True)
        text, sums = "", collections.Counter()
        for file, place, tx, refusal, of in plan.rows:
            words = f"refused {refusal}"
            if not refusal:
                (key, at), = of
                words = racks.outcome_words(begun[key].outcomes[at], *key)
            sums[words.split()[0]] += 1
            text += f"{file} {place} {tx.id.hex()} {words}\n"
        self.lively(plan, entry, live)
        text += f"resumed {len(entry.open())}\nbatches {len(begun)}\nconfirmed {sums['confirmed']}\nrejected {sums['rejected']}\n"
        return text + f"refused {sums['refused']}\nunspent {len(live.held)}\n"

    def lively(self, plan, entry, live):
        """A sound transaction whose inputs are unspent when its file begins, and which no other sound one of the file spends, is confirmed."""
        for file, batches in enumerate(plan.of_file, 1):
            later = {key for own in plan.of_file[file - 1 :] for key in own}
            unspent = self.fold(live, lambda key: key not in later)
            rows = [row for row in plan.rows if row[0] == file and not row[3]]
            spenders = collections.Counter(it for row in rows for it in row[2].spent)
            for _, place, tx, _, ((key, at),) in rows:
                if all(it in unspent and spenders[it] == 1 for it in tx.spent):
                    must(live.batches[key].outcomes[at] == HELD, f"{file} {place} was not confirmed, and all that it spends was there for it alone")

    def form(self, stage, entry, text, status):
        """The text of a run whose lanes may come in any order, but for what its order decides."""
        if status:
            return
        plan, sums = Plan(self.case, stage.files, entry), collections.Counter()
        lines = text.split("\n")
        must(len(lines) == len(plan.rows) + 7, "a line is missing")
        for line, (file, place, tx, refusal, of) in zip(lines, plan.rows):
            words = line.split()
            must(words[:3] == [str(file), str(place), tx.id.hex()], f"{line!r} for {file} {place}")
            sums[words[3]] += 1
            if refusal:
                must(" ".join(words[3:]) == f"refused {refusal}", f"{line!r}, wanted {refusal}")
                continue
            own = list(map(str, of[0][0]))
            wanted = {"confirmed": words[4:6], "missing": words[7:9], "locked": words[7:9]}
            must(wanted.get(words[3], wanted.get(words[4])) == own, f"{line!r}, and its batch is {own}")
        behind = [f"resumed {len(entry.open())}", f"batches {len(plan.batches)}"]
        behind += [f"{word} {sums[word]}" for word in ("confirmed", "rejected", "refused")]
        must(lines[len(plan.rows) : -2] == behind, f"its sums are {lines[len(plan.rows):]}")

    # Behind a stage.

    def fold(self, seen, is_in=lambda _: True):
        """The hashes that are unspent once what is committed was done to the mint, one after another."""
        unspent = set(self.case.mint.tx.made)
        for record in seen.history:
            if record.kind != "Commit" or not is_in((record.lane, record.number)):
                continue
            for form, outcome in zip(seen.batches[record.lane, record.number].forms, record.items):
                if outcome == HELD:
                    must(unspent.issuperset(form.inputs), f"{form.id.hex()} spends what is not there")
                    unspent.difference_update(form.inputs)
                    unspent.update(form.outputs)
        return unspent

    def leave(self, at, stage, left):
        """The disks that the next stage finds, and what an audit and `status` say of them."""
        kinds = stage.crash or ["all"] * self.case.nodes
        by = {"all": left.live, "none": left.none, "torn": left.torn}
        seen = self.reader.rack([by[kind].disks[node] for node, kind in enumerate(kinds)])
        self.tally["crashes"] += bool(stage.crash)
        if not seen.is_ledger:
            for name in ("audit", "status"):
                must(self.told.ran(f"{name}{at}")[1] == 4, f"{name} of no ledger")
            return seen
        text, status = self.told.ran(f"status{at}")
        must(status == 0, f"`status` ended with {status} and {text!r}")
        same("`status`", text, "".join(map(seen.status_line, self.case.hashes())))
        text, status = self.told.ran(f"audit{at}")
        if seen.open():
            is_told = status == 6 and text.startswith("fault unsound ") and text.endswith(" unfinished\n")
            must(is_told, f"an audit with open batches ended with {status} and {text!r}")
        else:
            must(status == 0, f"an audit ended with {status} and {text!r}")
            same("the audit", text, self.audit(seen))
        return seen

    def audit(self, seen):
        unspent = self.fold(seen)
        if self.spoil == "output":
            unspent = set(sorted(unspent)[1:])
        must(unspent == set(seen.held), f"the shards hold {len(seen.held)} hashes, and what is committed leaves {len(unspent)}")
        committed = list(seen.committed())
        sound = {tx.id: tx for txs in self.case.files.values() for tx in txs if not tx.refusal(self.case.verdicts)}
        for form in committed:
            must(form.id in sound and form == form_of(sound[form.id]), f"{form.id.hex()} is committed, and no file has it")
        mint = self.case.mint
        outputs = {hash_: output for tx in (mint.tx, *sound.values()) for hash_, output in zip(tx.made, tx.outputs)}
        left = [outputs[it] for it in unspent]
        value, money, permits = sum(it for _, it in left), sum(worth(left, "money")), worth(left, "permit")
        issued, redeemed = (sum(of(sound[it.id]) for it in committed) for of in (Tx.issued, Tx.redeemed))
        if self.spoil != "output":
            must(value == mint.value, f"of a mint of {mint.value} there is {value}")
            must(money == mint.money + issued - redeemed, f"of {mint.money} of money {issued} issued and {redeemed} redeemed leave {money}")
            must(len(permits) == len(mint.permits), f"of {len(mint.permits)} permits there are {len(permits)}")
            must(sum(permits) + issued == sum(mint.permits), f"of permits of {sum(mint.permits)} {issued} were issued, and {sum(permits)} are left")
        must(all(kind(it.owner) != "burn" for form in committed for it in sound[form.id].inputs), "what was burnt was spent")
        for word, many in (("issued", issued), ("redeemed", redeemed)):
            self.tally[f"audits with money {word}"] += bool(many)
        sums = f"coins {len(unspent)}\nvalue {value}\nminted {mint.value}\ncommitted {len(committed)}\n"
        return f"{sums}money {money}\nissued {issued}\nredeemed {redeemed}\n"

    def end(self, seen):
        must(seen.is_ledger, "at the end there is no ledger")
        must(not seen.open(), "at the end a batch is open")
        outcomes = collections.Counter(outcome[0] for batch in seen.batches.values() for outcome in batch.outcomes)
        for kind, many in outcomes.items():
            self.tally[f"outcomes in the end: {kind}"] += many
        self.tally["cases with a conflict"] += bool(outcomes["Locked"] + outcomes["Missing"])
