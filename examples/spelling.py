"""Mint, client and verdict files as bytes, both ways, and the ids and hashes that stand in them: docs/FORMATS.md says how each is spelled."""
import collections
import hashlib
import struct

# A coin is a program and a value; an outpoint the id that made it and its index. An input is an outpoint and the coin that it claims to be there.
Output = collections.namedtuple("Output", "program value")
Point = collections.namedtuple("Point", "id index")
Input = collections.namedtuple("Input", "point output")
Tx = collections.namedtuple("Tx", "inputs outputs witnesses")

LARGEST = 2**64 - 1
NOWHERE = Point(bytes(32), 0)
WITNESS = bytes(64)
# The greatest numbers of items in a list of a transaction, and of coins or transactions in a file.
MOST_ITEMS, MOST_IN_FILE = 255, 1_000_000


# What the first 16 bytes of a program are for a permit and for what is burnt.
MARKS = {"permit": bytes([254]) * 16, "burn": bytes([255]) * 16}


class BadFile(Exception):
    """Bytes that are not a file of this kind."""


def sha(data):
    return hashlib.sha256(data).digest()


def program_of(owner):
    """An owner's program: the SHA-256 of the name; a permit's and a burn's begins with its mark, and has the first 16 bytes of that behind it."""
    kind = owner.partition("/")[0]
    return MARKS[kind] + sha(owner.encode())[:16] if kind in MARKS else sha(owner.encode())


def kind_of(program):
    """permit, burn, or None where it is money."""
    return next((kind for kind, mark in MARKS.items() if program.startswith(mark)), None)


def number(n):
    return struct.pack("<Q", n)


def spell_list(items):
    return number(len(items)) + b"".join(items)


def spell_output(output):
    return output.program + number(output.value)


def spell_input(one):
    return one.point.id + number(one.point.index) + spell_output(one.output)


def spell_body(tx):
    """What the id of a transaction is the SHA-256 of."""
    return spell_list([spell_input(it) for it in tx.inputs]) + mint_bytes(tx.outputs)


def spell_tx(tx):
    return spell_body(tx) + spell_list([number(len(it)) + it for it in tx.witnesses])


def mint_bytes(coins):
    return spell_list([spell_output(it) for it in coins])


def client_bytes(txs):
    return spell_list([spell_tx(it) for it in txs])


def tx_id(tx):
    return sha(spell_body(tx))


def genesis_id(coins):
    return sha(number(0) + mint_bytes(coins))


def coin_hash(point, output):
    return sha(spell_input(Input(point, output)))


def first_journals(coins):
    """The journals of a new ledger of these coins, of one shard and one coordinator with one lane, whose batches have at most 16 transactions: a Start
    and a Genesis, as `hamilton init` writes them."""
    made_by, shape = genesis_id(coins), (1, 1, 1, 16)
    minted = spell_list([coin_hash(Point(made_by, index), coin) for index, coin in enumerate(coins)])
    for node, (kind, rest) in enumerate(((5, b""), (1, minted))):
        header = b"HAMJRNL1" + b"".join(map(number, (node, *shape))) + made_by
        body = bytes([kind]) + number(0) + header + rest
        yield b"\1" + number(len(body)) + body + b"\0"


class Reader:
    """Takes one field after another from the bytes of a file."""

    def __init__(self, data):
        self.data, self.at = data, 0

    def take(self, count):
        if self.at + count > len(self.data):
            raise BadFile(f"it is cut at byte {self.at}")
        self.at += count
        return self.data[self.at - count : self.at]

    def number(self):
        return struct.unpack("<Q", self.take(8))[0]

    def items(self, most, read):
        count = self.number()
        if count > most:
            raise BadFile(f"at byte {self.at - 8} it has {count} items, and {most} are allowed")
        return [read() for _ in range(count)]

    def output(self):
        return Output(self.take(32), self.number())

    def input(self):
        return Input(Point(self.take(32), self.number()), self.output())

    def tx(self):
        lists = [self.items(MOST_ITEMS, read) for read in (self.input, self.output, self.witness)]
        return Tx(*lists)

    def witness(self):
        return self.take(self.number())

    def whole(self, read):
        """A list, and then the end."""
        items = self.items(MOST_IN_FILE, read)
        if self.at < len(self.data):
            raise BadFile(f"it goes on behind its end, at byte {self.at}")
        return items


def read_mint(data):
    reader = Reader(data)
    return reader.whole(reader.output)


def read_client(data):
    reader = Reader(data)
    return reader.whole(reader.tx)
