"""What tools/stress/storm tries: random cases, and the rows of `ledger_rows` that each becomes.

A case is a shape, a mint, transactions, client files with their verdicts, and stages: each makes the ledger, runs files or recovers, on disks that
may fail, stop or be full, over an output that may be short, and may be followed by a crash. Files are written and hashes computed by
docs/FORMATS.md alone.
"""
import collections
import copy
import hashlib

# So many bytes a disk may have where a case does not make it small, and so many an output takes.
AMPLE = 60_000
LIMIT = 2**64

# What the first 16 bytes of a program are for a permit to issue money and for what is burnt.
MARKS = {"permit": bytes([254]) * 16, "burn": bytes([255]) * 16}

# An owner is a number, or the digits of a program.
Input = collections.namedtuple("Input", "id index owner value")
Shape = collections.namedtuple("Shape", "shards coordinators lanes batch")


def sha(data):
    return hashlib.sha256(data).digest()


def number(n):
    return n.to_bytes(8, "little")


def program(owner):
    return bytes.fromhex(owner) if isinstance(owner, str) else number(owner) + bytes(24)


def word(owner):
    """An owner as rows spell it."""
    return owner if isinstance(owner, str) else f"k{owner}"


def kind(owner):
    """permit, burn or money."""
    return next((it for it, mark in MARKS.items() if program(owner).startswith(mark)), "money")


def worth(outputs, of):
    """The values of the outputs of a kind, each an owner and a value."""
    return [value for owner, value in outputs if kind(owner) == of]


def output_bytes(owner, value):
    return program(owner) + number(value)


def input_bytes(it):
    return it.id + number(it.index) + output_bytes(it.owner, it.value)


def counted(items):
    return number(len(items)) + b"".join(items)


class AllGood:
    """Verdicts that are all good."""

    def get(self, _):
        return "good"


class Tx:
    """A transaction: its id, the hashes of the coins that it spends and of those that it makes."""

    def __init__(self, name, inputs, outputs, witnesses=None):
        self.name, self.inputs, self.outputs = name, tuple(inputs), tuple(outputs)
        self.witnesses = len(self.inputs) if witnesses is None else witnesses
        body = counted([input_bytes(it) for it in self.inputs]) + counted([output_bytes(*it) for it in self.outputs])
        self.id = sha(body)
        self.coins = [Input(self.id, at, *it) for at, it in enumerate(self.outputs)]
        self.spent = tuple(sha(input_bytes(it)) for it in self.inputs)
        self.made = tuple(sha(input_bytes(it)) for it in self.coins)
        self.bytes = body + counted([number(64) + bytes(64)] * self.witnesses)

    def line(self):
        spent = [f"{it.id.hex()}/{it.index}/{word(it.owner)}:{it.value}" for it in self.inputs]
        made = [f"{word(owner)}:{value}" for owner, value in self.outputs]
        return " ".join(["tx", self.name, *spent, "->", *made, "witnesses", str(self.witnesses)])

    def permits(self):
        """The values of the permits that it spends, and of those that it makes."""
        return worth([it[2:] for it in self.inputs], "permit"), worth(self.outputs, "permit")

    def issued(self):
        old, new = map(sum, self.permits())
        return max(0, old - new)

    def redeemed(self):
        return sum(worth(self.outputs, "burn"))

    def refusal(self, verdicts):
        """The first reason for which a sentinel refuses it, or None."""
        old, new = self.permits()
        ins, outs = [it.value for it in self.inputs], [value for _, value in self.outputs]
        points = [(it.id, it.index) for it in self.inputs]
        of = [verdicts.get((self.id, at)) for at in range(len(ins))]

        def first(word, holds):
            return next((f"{word} {at}" for at, it in enumerate(holds) if it), None)

        reasons = [
            "no-inputs" if not ins else None,
            "no-outputs" if not outs else None,
            "witness-count" if self.witnesses != len(ins) else None,
            first("repeated-input", [it in points[:at] for at, it in enumerate(points)]),
            first("zero-input", [it == 0 for it in ins]),
            first("zero-output", [it == 0 for it in outs]),
            "input-overflow" if sum(ins) >= LIMIT else None,
            "output-overflow" if sum(outs) >= LIMIT else None,
            f"unbalanced {sum(ins)} {sum(outs)}" if sum(ins) != sum(outs) else None,
            first("burned-input", [kind(it.owner) == "burn" for it in self.inputs]),
            f"permit-count {len(old)} {len(new)}" if len(old) != len(new) or len(old) > 1 else None,
            f"permit-raised {sum(old)} {sum(new)}" if sum(new) > sum(old) else None,
            first("bad-witness", [it == "bad" for it in of]),
            first("unverified", [it is None for it in of]),
        ]
        return next((it for it in reasons if it), None)


class Mint:
    """The minted coins, as those of a transaction without inputs."""

    def __init__(self, outputs):
        self.tx = Tx("g", [], outputs)
        self.value = sum(value for _, value in outputs)
        self.money = sum(worth(outputs, "money"))
        self.permits = worth(outputs, "permit")

    def hashes_on(self, shard, shards):
        return [it for it in self.tx.made if it[0] * shards // 256 == shard]


class Stage:
    """One command over the disks, what is to fail in it, and what a crash behind it leaves of each disk (None where there is none)."""

    def __init__(self, verb, files=(), faults=None, room=None, caps=None, crash=None, torn=7, repeats=0):
        self.verb, self.files, self.faults, self.room = verb, list(files), faults or {}, room
        self.caps, self.crash, self.torn, self.repeats = caps, crash, torn, repeats

    def words(self, case):
        if self.verb == "init":
            shape = case.shape
            return f"init --shards {shape.shards} --coordinators {shape.coordinators} --lanes {shape.lanes} --batch {shape.batch} m"
        if self.verb == "recover":
            return "recover"
        repeats = f"--repeats {self.repeats} " if self.repeats else ""
        return f"run --verdicts v {repeats}{' '.join(self.files)}"

    def is_quiet(self):
        """Nothing is to fail, and there is room."""
        return not self.faults and self.room is None and self.caps is None


class Case:
    def __init__(self, dice, repeats=False):
        self.dice = dice
        one = dice.random() < 0.45
        self.shape = Shape(dice.randint(1, 4), 1 if one else dice.randint(1, 3), 1 if one else dice.randint(1, 3), dice.randint(1, 8))
        self.nodes = self.shape.coordinators + self.shape.shards
        # whether the ledger has permits and what is burnt
        self.issues = dice.random() < 0.5
        self.mint = Mint([(self.any_owner(0.3), self.value()) for _ in range(dice.choice((dice.randint(0, 3), 4, 6, 8, 10, 12)))])
        self.txs, self.files, self.verdicts = [], {}, {}
        self.make_txs()
        self.make_files()
        self.make_verdicts()
        self.make_stages(repeats)

    def value(self):
        dice = self.dice
        return dice.choice((1, 2, dice.randint(1, 100), dice.randint(1, 100), dice.randint(1, 10**6), dice.randrange(1, 2**59)))

    def owner(self, of="money"):
        """Somebody's money, a permit or what is burnt, of a random program."""
        dice = self.dice
        if of != "money":
            return (MARKS[of] + dice.choice((MARKS[of], dice.randbytes(16)))).hex()
        if self.issues and dice.random() < 0.05:
            # 15 of the 16 bytes
            mark = dice.choice(list(MARKS.values()))
            other = bytes([mark[0] ^ 1])
            return (dice.choice((mark[:15] + other, other + mark[1:], mark[:15] + bytes(1))) + mark).hex()
        return dice.randrange(2**20)

    def any_owner(self, many):
        """Where the ledger issues, so many are permits, and a third as many burnt."""
        at = self.dice.random() if self.issues else 1
        return self.owner("permit" if at < many else "burn" if at < many * 4 / 3 else "money")

    # Transactions.

    def make_txs(self):
        """The transactions by rounds: most spend what was there when their round begins."""
        dice, pool, spent = self.dice, list(self.mint.tx.coins), []
        self.rounds = []
        for round_ in range(dice.choice((1, 1, 2, 2, 3, 4))):
            green, own = [], []
            for at in range(dice.randint(0, min(len(pool) + 2, 12))):
                tx = Tx(f"t{round_}.{at}", *self.parts(pool if dice.random() < 0.92 else pool + green, spent))
                own.append(tx)
                if dice.random() < 0.03:
                    # the same id with another number of witnesses
                    own.append(Tx(f"w{round_}.{at}", tx.inputs, tx.outputs, tx.witnesses + 1))
                if not tx.refusal(AllGood()) and all(it in pool for it in tx.inputs):
                    spent += tx.inputs
                    pool = [it for it in pool if it not in tx.inputs]
                    green += tx.coins
            pool += green
            self.rounds.append(own)
        self.txs = [tx for own in self.rounds for tx in own]

    def coin(self):
        """A coin that no transaction makes."""
        return Input(sha(number(self.dice.randrange(10**6))), self.dice.randrange(3), self.any_owner(0.1), self.value())

    def split(self, total):
        """Outputs of this sum."""
        cuts = sorted(self.dice.randint(0, total) for _ in range(self.dice.choice((0, 0, 1, 1, 2, 3))))
        parts = [b - a for a, b in zip([0, *cuts], [*cuts, total])]
        return [(self.owner(), it) for it in parts if it]

    def shared(self, inputs, total):
        """Outputs of this sum where the ledger issues: most often the permit goes on with less and something is burnt, else anything."""
        dice, permits = self.dice, worth([it[2:] for it in inputs], "permit")
        if dice.random() < 0.1:
            return [(self.any_owner(0.4), value) for _, value in self.split(total)]
        if len(permits) != 1:
            outputs = self.split(total)
        else:
            most = total if dice.random() < 0.1 else permits[0]
            left = dice.choice((1, most, dice.randint(1, most), dice.randint(1, most)))
            outputs = self.split(total - left)
            outputs.insert(dice.randint(0, len(outputs)), (self.owner("permit"), left))
        return [(self.owner("burn"), value) if kind(owner) == "money" and dice.random() < 0.15 else (owner, value) for owner, value in outputs]

    def spendable(self, coins):
        """What is not burnt of these, in a random order with one permit at most."""
        coins = [it for it in self.dice.sample(coins, len(coins)) if kind(it.owner) != "burn"]
        permits = [it for it in coins if kind(it.owner) == "permit"]
        return [it for it in coins if it not in permits[1:]]

    def parts(self, pool, spent):
        dice = self.dice
        how = dice.random()
        source = pool + spent if spent and (how < 0.2 or not pool) else pool
        if self.issues and dice.random() < 0.9:
            source = self.spendable(source)
        inputs = dice.sample(source, min(len(source), dice.choice((1, 1, 1, 2, 2, 3)))) if source else [self.coin()]
        if 0.2 < how < 0.23:
            inputs.append(self.coin())
        if 0.23 < how < 0.25:
            inputs[0] = inputs[0]._replace(value=inputs[0].value + 1)
        total = min(sum(it.value for it in inputs), LIMIT - 1)
        outputs = self.shared(inputs, total) if self.issues else self.split(total)
        return self.spoilt(inputs, outputs) if how > 0.9 else (inputs, outputs)

    def spoilt(self, inputs, outputs):
        """Something that a sentinel refuses, most often."""
        dice = self.dice
        how = dice.randrange(9)
        owner, value = outputs[0]
        if how == 0:
            return [], outputs
        if how == 1:
            return inputs, []
        if how == 2:
            return inputs, outputs, len(inputs) + dice.choice((-1, 1))
        if how == 3:
            return [*inputs, inputs[0]], outputs
        if how == 4:
            return [*inputs, self.coin()._replace(value=0)], outputs
        if how == 5:
            return inputs, [*outputs, (owner, 0)]
        if how == 6:
            return [*inputs, self.coin()._replace(value=LIMIT - 1), self.coin()], outputs
        if how == 7:
            return inputs, [*outputs, (owner, LIMIT - 1), (owner, 2)]
        return inputs, [(owner, value + 1), *outputs[1:]]

    # Files.

    def make_files(self):
        """A file for each round, and transactions that were or will be handed in by another one."""
        dice = self.dice
        for file, txs in enumerate(self.rounds):
            own = list(txs)
            for _ in range(dice.choice((0, 0, 0, 1, 2))):
                if self.txs:
                    own.insert(dice.randint(0, len(own)), dice.choice(self.txs))
            if dice.random() < 0.1:
                dice.shuffle(own)
            self.files[f"c{file}"] = own

    def make_verdicts(self):
        dice = self.dice
        for tx in self.txs:
            if tx.refusal(AllGood()) and dice.random() < 0.5:
                continue
            for at in range(len(tx.inputs)):
                word = "good" if dice.random() < 0.985 else dice.choice(("bad", None))
                if word and (tx.id, at) not in self.verdicts:
                    self.verdicts[tx.id, at] = word

    # Stages.

    def make_stages(self, repeats):
        dice = self.dice
        caps = self.small_disks() if dice.random() < 0.22 else None
        self.stages = [self.stage("init", 10, caps)]
        while len(self.stages) < 4 and not self.stages[-1].is_quiet() and dice.random() < 0.93:
            caps = self.wider(caps)
            self.stages.append(self.stage("init", 10, caps))
        names, at = list(self.files), 0
        for _ in range(dice.choice((1, 1, 2, 2, 3, 4))):
            upto = dice.randint(at + 1, len(names)) if at < len(names) else at
            files = names[at:upto] or [dice.choice(names)]
            if dice.random() < 0.12:
                files = files + [dice.choice(names)]
            caps = self.wider(caps)
            batches = sum(len(self.files[it]) for it in files) // self.shape.batch + 1
            stage = self.stage("run", 6 + 14 * batches, caps, files)
            stage.repeats = dice.choice((0, 0, 1, 2, 3)) if repeats else 0
            self.stages.append(stage)
            while dice.random() < 0.4:
                self.stages.append(self.stage("recover", dice.choice((2, 8, 16, 32)), caps))
            # behind a stop the same files may be handed in again
            at = at if stage.faults and dice.random() < 0.6 else upto
        self.stages += [Stage("init"), Stage("recover")]

    def stage(self, verb, calls, caps, files=()):
        dice, faults = self.dice, {}
        if dice.random() < {"init": 0.25, "run": 0.5, "recover": 0.55}[verb]:
            for _ in range(dice.choice((1, 1, 1, 2))):
                faults[dice.randrange(self.nodes)] = [dice.choice(("fails", "stops", "stops")), dice.randint(0, calls)]
        room = dice.choice((0, dice.randint(0, 60), dice.randint(0, 600))) if dice.random() < 0.08 else None
        crash = [dice.choice(("none", "all", "torn")) for _ in range(self.nodes)]
        if dice.random() < 0.3:
            crash = [dice.choice(("none", "all", "torn"))] * self.nodes
        crash = crash if dice.random() < (0.75 if faults else 0.15) else None
        return Stage(verb, files, faults, room, caps, crash, dice.choice((0, 1, 1, 7, dice.randrange(256))))

    def small_disks(self):
        """Disks that have room for little more than their first records, and some not for these."""
        dice = self.dice
        sizes = [dice.choice((dice.randint(-2, 10), dice.randint(0, 900), dice.randint(200, 4000))) for _ in range(self.nodes)]
        return [self.first_size(node) + more for node, more in enumerate(sizes)]

    def first_size(self, node):
        """The size of a node's first record, with a gate behind it."""
        if node < self.shape.coordinators:
            return 99
        return 107 + 32 * len(self.mint.hashes_on(node - self.shape.coordinators, self.shape.shards))

    def wider(self, caps):
        dice = self.dice
        return caps and [it + dice.choice((0, 0, 0, dice.randint(0, 1000))) for it in caps]

    # What is known of a case without the program.

    def hashes(self):
        """The hashes of all coins that are spoken of, and one of none."""
        known = dict.fromkeys([sha(b"none"), *self.mint.tx.made])
        for tx in self.txs:
            known.update(dict.fromkeys(tx.spent + tx.made))
        return list(known)

    def is_one_lane(self):
        return self.shape.coordinators * self.shape.lanes == 1

    def is_steady(self, stage):
        """It comes out the same at each run: on one thread."""
        return stage.verb != "run" or self.is_one_lane()

    def audit_words(self):
        return " ".join(["audit", "m", *self.files])

    def status_words(self):
        return " ".join(["status", *(it.hex() for it in self.hashes())])

    def smaller(self):
        """Cases with something less."""
        for at in range(len(self.stages) - 2):
            yield self.less(lambda it, at=at: it.stages.pop(at))
        for at, stage in enumerate(self.stages):
            if stage.crash:
                yield self.less(lambda it, at=at: setattr(it.stages[at], "crash", None))
            if stage.room is not None:
                yield self.less(lambda it, at=at: setattr(it.stages[at], "room", None))
            for node in stage.faults:
                yield self.less(lambda it, at=at, node=node: it.stages[at].faults.pop(node))
        for name, txs in self.files.items():
            for at in range(len(txs)):
                yield self.less(lambda it, name=name, at=at: it.files[name].pop(at))

    def less(self, change):
        other = copy.deepcopy(self)
        change(other)
        handed = [tx for txs in other.files.values() for tx in txs]
        other.txs = [tx for tx in other.txs if any(it.name == tx.name for it in handed)]
        return other


class Rows:
    """The lines of a case's file. What stands before its first row does the case once and keeps the disks of each stage; the rows behind it tell
    them, each by a last step that can't hold."""

    def __init__(self, case, spoils_byte=False):
        self.case, self.lines, self.spoils_byte = case, [], spoils_byte
        self.setup()
        for at, stage in enumerate(case.stages):
            self.show(at, stage)
        self.text = "\n".join(self.lines) + "\n"

    def put(self, *lines):
        self.lines += lines

    def setup(self):
        case = self.case
        for tx in case.txs:
            self.put(tx.line())
        self.put(" ".join(["file m mint", *(f"{word(owner)}:{value}" for owner, value in case.mint.tx.outputs)]))
        for name, txs in case.files.items():
            self.put(" ".join([f"file {name} client", *(tx.name for tx in txs)]))
        self.put("file v text", *(f"| {tx.hex()} {at} {word}" for (tx, at), word in case.verdicts.items()))
        self.put("keep nothing", " ".join(["rack", *[str(AMPLE)] * case.nodes]), "keep empty")
        for at, stage in enumerate(case.stages):
            self.enter(at, stage)
            self.run(stage.words(case), "any")
            self.put(f"keep live{at}", "crash none", f"keep none{at}", f"crash torn {stage.torn:02x}", f"keep torn{at}")

    def lay(self, at, caps=None):
        """The disks as a stage finds them."""
        caps = " ".join(map(str, caps or [AMPLE] * self.case.nodes))
        before = self.case.stages[at - 1] if at else None
        self.put(f"load {f'live{at - 1}' if at else 'empty'} {caps}")
        for node, kind in enumerate(before.crash if before and before.crash else []):
            if kind != "all":
                self.put(f"node {node} like {kind}{at - 1} {node}")

    def enter(self, at, stage):
        self.lay(at, stage.caps)
        for node, (how, call) in stage.faults.items():
            self.put(f"node {node} {how} {call}")
        if stage.room is not None:
            self.put(f"room {stage.room}")

    def run(self, words, status):
        self.put(f"$ hamilton {words}", "~", f"= {status}")

    def show(self, at, stage):
        for kind in ("live", "none", "torn"):
            self.put(f"row {kind}{at}", f"load {kind}{at}{f' {AMPLE}' * self.case.nodes}", "same nothing")
        self.put(f"row text{at}")
        self.enter(at, stage)
        self.run(stage.words(self.case), 999)
        if self.case.is_steady(stage):
            self.put(f"row again{at}")
            self.enter(at, stage)
            self.run(stage.words(self.case), "any")
            self.put(f"same live{at}", "faults none")
        for name, words in (("audit", self.case.audit_words()), ("status", self.case.status_words())):
            self.put(f"row {name}{at}")
            self.lay(at + 1)
            if self.spoils_byte and at == len(self.case.stages) - 1:
                # the number of shards in the last node's header
                self.put(f"node {self.case.nodes - 1} set 34 ff")
            self.run(words, 999)
