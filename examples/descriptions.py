"""Reads descriptions of mints and transactions, as text and as tables: examples/make says how they are written."""
import collections
import csv
import re

from spelling import LARGEST, MOST_IN_FILE, MOST_ITEMS, NOWHERE, WITNESS, Input, Output, Point, Tx, genesis_id, program_of, tx_id

OPTIONS = ("with", "bad", "unverified")
COLUMNS = ("transaction", "side", "owner", "value")
SIDES = ("input", "again", "output")
# How many first digits of an id stand for it at least, and how many values of an owner a mistake names at most.
FEWEST_DIGITS, MOST_TOLD = 8, 5

Place = collections.namedtuple("Place", "file line")
# An input or output as it is written. An input's point is None (the oldest coin), "again", "!", or the digits and the index behind an @.
Word = collections.namedtuple("Word", "place owner value point")
Mint = collections.namedtuple("Mint", "place coins")
Owner = collections.namedtuple("Owner", "place name program")
# The verdicts are good, bad or unverified for the place of each input of which a line says so.
Pay = collections.namedtuple("Pay", "place inputs outputs witnesses verdicts")
# A transaction that a line made, with the verdict on each input; and a coin that a line made, of a transaction or of the mint.
Made = collections.namedtuple("Made", "place id tx verdicts")
Coin = collections.namedtuple("Coin", "place point output")


class Mistake(Exception):
    """What is wrong in a description, with its file and line."""

    def __init__(self, place, text):
        super().__init__(f"{place.file}:{place.line}: {text}" if place.line else f"{place.file}: {text}")


def tell_values(values):
    return ", ".join(map(str, values[:MOST_TOLD])) + (", .." if len(values) > MOST_TOLD else "") or "none"


def near(place, other):
    """How a person is led from a place to another one."""
    return f"on line {other.line}" if place.file == other.file else f"in {other.file}:{other.line}"


# --- words


def read_value(place, text):
    if not (text.isascii() and text.isdigit()):
        raise Mistake(place, f"{text!r} is not a value: expected a whole number, its digits alone")
    digits = text.lstrip("0") or "0"
    if len(digits) > 20 or int(digits) > LARGEST:
        raise Mistake(place, f"{text} is more than a value can be, {LARGEST} (2^64 - 1)")
    return int(digits)


def read_index(place, text, what):
    if not (text.isascii() and text.isdigit() and len(text) < 20 and int(text) <= LARGEST):
        raise Mistake(place, f"{text!r} is not {what}")
    return int(text)


def read_coin(place, word):
    """The owner of OWNER:VALUE, and what stands behind the colon."""
    owner, colon, value = word.rpartition(":")
    if not owner or not colon:
        raise Mistake(place, f"{word!r} is not OWNER:VALUE")
    if any("\ud800" <= it <= "\udfff" for it in owner):
        raise Mistake(place, f"{word!r} is no text in UTF-8")
    if not value:
        raise Mistake(place, f"{word!r} has no value: expected OWNER:VALUE, without a space")
    if ":" in owner and re.search(r":[0-9]+[,;]", owner):
        raise Mistake(place, f"{word!r} looks like several coins: expected spaces between them")
    return owner, value


def read_output(place, word):
    if word.startswith("!"):
        raise Mistake(place, f"{word!r} has a '!', which stands before an input alone: expected OWNER:VALUE")
    owner, value = read_coin(place, word)
    return Word(place, owner, read_value(place, value), None)


def read_input(place, word, is_again):
    owner, value = read_coin(place, word)
    value, at, point = value.partition("@")
    if is_again and (at or word.startswith("!")):
        raise Mistake(place, f"'again' before {word!r}, which names one coin by itself")
    if at:
        digits, dot, index = point.partition(".")
        if not dot or digits.strip("0123456789abcdef") or len(digits) < FEWEST_DIGITS:
            raise Mistake(place, f"{word!r} is not OWNER:VALUE@ID.INDEX, with {FEWEST_DIGITS} or more lower case hexadecimal digits of an id")
        how = digits, read_index(place, index, "an index")
    else:
        how = "!" if word.startswith("!") else "again" if is_again else None
    return Word(place, owner.lstrip("!"), read_value(place, value), how)


def read_inputs(place, words):
    inputs, is_again = [], False
    for word in words:
        if word == "again" and not is_again:
            is_again = True
            continue
        inputs.append(read_input(place, word, is_again))
        is_again = False
    if is_again:
        raise Mistake(place, "nothing behind 'again': expected OWNER:VALUE")
    return inputs


# --- the options of a pay line


def read_witnesses(place, words):
    """The witnesses of `with N witnesses` or `with witnesses DIGITS ..`."""
    if len(words) == 2 and words[1] in ("witness", "witnesses"):
        count = read_index(place, words[0], "a number of witnesses")
        if count > MOST_ITEMS:
            raise Mistake(place, f"{count} witnesses: expected at most {MOST_ITEMS}")
        return [WITNESS] * count
    if words[:1] != ["witnesses"]:
        raise Mistake(place, "expected 'with N witnesses', or 'with witnesses' and the hexadecimal digits of each")
    return [read_hex(place, "" if word == "-" else word) for word in words[1:]]


def read_hex(place, word):
    try:
        return bytes.fromhex(word)
    except ValueError:
        raise Mistake(place, f"{word!r} is not bytes: expected hexadecimal digits, two for each byte") from None


def read_verdicts(place, verdict, words, count, verdicts):
    """Adds the verdict on these places of inputs."""
    if not words:
        raise Mistake(place, f"nothing behind '{verdict}': expected places of inputs, the first is 0")
    for word in words:
        at = read_index(place, word, "the place of an input, a number from 0")
        if at >= count:
            raise Mistake(place, f"{verdict} {at}: expected a place below {count}, the number of this line's inputs")
        if verdicts.setdefault(at, verdict) != verdict:
            raise Mistake(place, f"input {at} is both bad and unverified")


def read_options(place, words, count):
    """The witnesses and the verdicts that the options name, for so many inputs."""
    witnesses, verdicts = None, {}
    starts = [at for at, word in enumerate(words) if word in OPTIONS]
    for start, end in zip(starts, starts[1:] + [len(words)]):
        option, rest = words[start], words[start + 1 : end]
        if option != "with":
            read_verdicts(place, option, rest, count, verdicts)
        elif witnesses is None:
            witnesses = read_witnesses(place, rest)
        else:
            raise Mistake(place, "a second 'with'")
    return [WITNESS] * count if witnesses is None else witnesses, verdicts


# --- lines


def read_pay(place, words):
    arrows = [at for at, word in enumerate(words) if word == "->"]
    if len(arrows) != 1:
        found = "there is none" if not arrows else "there is more than one"
        raise Mistake(place, f"expected 'pay OWNER:VALUE .. -> OWNER:VALUE ..', with one '->' between spaces: {found}")
    before, behind = words[: arrows[0]], words[arrows[0] + 1 :]
    first = next((at for at, word in enumerate(behind) if word in OPTIONS), len(behind))
    inputs = read_inputs(place, before)
    outputs = [read_output(place, word) for word in behind[:first]]
    return make_pay(place, inputs, outputs, *read_options(place, behind[first:], len(inputs)))


def make_pay(place, inputs, outputs, witnesses, verdicts):
    for items, name in ((inputs, "inputs"), (outputs, "outputs"), (witnesses, "witnesses")):
        if len(items) > MOST_ITEMS:
            raise Mistake(place, f"{len(items)} {name}: expected at most {MOST_ITEMS}")
    return Pay(place, inputs, outputs, witnesses, verdicts)


def make_mint(place, coins):
    for coin in coins:
        if coin.value == 0:
            raise Mistake(coin.place, f"{coin.owner}:0: a minted coin has a value of at least 1")
    if len(coins) > MOST_IN_FILE:
        raise Mistake(place, f"{len(coins)} coins: expected at most {MOST_IN_FILE}")
    total = sum(coin.value for coin in coins)
    if total > LARGEST:
        raise Mistake(place, f"the coins add up to {total}: expected at most {LARGEST} (2^64 - 1)")
    return Mint(place, coins)


def read_mint_words(place, words):
    return make_mint(place, [read_output(place, word) for word in words])


def read_owner(place, words):
    if len(words) != 2 or len(words[1]) != 64:
        raise Mistake(place, "expected 'owner NAME PROGRAM', with a program of 64 hexadecimal digits")
    return Owner(place, words[0], read_hex(place, words[1]))


READERS = {"mint": read_mint_words, "pay": read_pay, "owner": read_owner}


def read_text(name, lines):
    """The lines of a description."""
    for at, line in enumerate(lines, 1):
        words = line.split("#")[0].split()
        if not words:
            continue
        if words[0] not in READERS:
            raise Mistake(Place(name, at), f"unknown word {words[0]!r}: expected a line that begins with mint, pay or owner")
        yield READERS[words[0]](Place(name, at), words[1:])


# --- tables


def read_table(name, lines):
    """The same lines from a table: its rows in groups, one for each transaction."""
    groups = {}
    last = None
    for place, transaction, side, word in read_rows(name, lines):
        if transaction in groups and transaction != last:
            raise Mistake(place, f"transaction {transaction!r} goes on behind {last!r}: expected its rows together")
        groups.setdefault(transaction, []).append((place, side, word))
        last = transaction
    for transaction, rows in groups.items():
        place = rows[0][0]
        outputs = [word for _, side, word in rows if side == "output"]
        inputs = [word for _, side, word in rows if side != "output"]
        if transaction != "mint":
            yield make_pay(place, inputs, outputs, [WITNESS] * len(inputs), {})
        elif inputs:
            raise Mistake(inputs[0].place, "a mint has no inputs: expected output in the column side")
        else:
            yield make_mint(place, outputs)


def cells_of(lines):
    """The rows of a table as lists of cells."""
    first = lines[0] if lines else ""
    return csv.reader(lines, delimiter=";" if first.count(";") > first.count(",") else ",")


def read_rows(name, lines):
    """The rows of a table that aren't empty: the place, the transaction, the side, and the coin as a word."""
    rows = cells_of(lines)
    header = [cell.strip().lower() for cell in next(rows, [])]
    missing = [column for column in COLUMNS if column not in header]
    if missing:
        raise Mistake(Place(name, 1), f"no column {missing[0]!r}: expected a first line with {', '.join(COLUMNS)}")
    columns = [header.index(column) for column in COLUMNS]
    for row in rows:
        cells = [row[at].strip() if at < len(row) else "" for at in columns]
        if not any(cells):
            continue
        place = Place(name, rows.line_num)
        for column, cell in zip(COLUMNS, cells):
            if not cell:
                raise Mistake(place, f"the column {column!r} is empty")
        transaction, side, owner, value = cells
        if transaction != "mint" and transaction.lower() == "mint":
            raise Mistake(place, f"{transaction!r} is neither the mint nor a name for a transaction: expected mint, in lower case")
        if side not in SIDES:
            raise Mistake(place, f"{side!r} is not a side: expected {', '.join(SIDES)}")
        yield place, transaction, side, Word(place, owner, read_value(place, value), "again" if side == "again" else None)


def read_file(name):
    """The lines of a description or of a table."""
    try:
        with open(name, encoding="utf-8-sig", newline="" if is_table(name) else None) as text:
            lines = text.readlines()
        return list(read_table(name, lines) if is_table(name) else read_text(name, lines))
    except UnicodeDecodeError as what:
        raise Mistake(Place(name, None), f"expected a text in UTF-8, which byte {what.start} breaks") from None
    except csv.Error as what:
        raise Mistake(Place(name, None), f"expected a table: {what}") from None


def is_table(name):
    return name.lower().endswith(".csv")


# --- what the lines make


class Book:
    """The coins that were made so far, and which of them were spent."""

    def __init__(self):
        self.made = collections.defaultdict(collections.deque)  # the points of each output, oldest first, without spent ones at its front
        self.spent = {}  # where each point was spent
        self.last = {}  # the point that was spent last of each output
        self.ids = collections.defaultdict(dict)  # by their first digits

    def add(self, made_by, outputs):
        for index, output in enumerate(outputs):
            self.made[output].append(Point(made_by, index))
        self.ids[made_by.hex()[:FEWEST_DIGITS]][made_by] = None

    def oldest(self, output):
        """The oldest coin that is such an output and wasn't spent, or None."""
        points = self.made[output]
        while points and points[0] in self.spent:
            points.popleft()
        return points[0] if points else None

    def spend(self, place, point, output):
        self.spent.setdefault(point, place)
        self.last[output] = point

    def ids_from(self, digits):
        """The ids that begin with these digits."""
        return [it for it in self.ids.get(digits[:FEWEST_DIGITS], ()) if it.hex().startswith(digits)]

    def unspent_of(self, program):
        """The values of the coins with this program that weren't spent."""
        points = ((output.value, point) for output, points in self.made.items() if output.program == program for point in points)
        return sorted({value for value, point in points if point not in self.spent})


class Ledger:
    """What descriptions make, one behind another."""

    def __init__(self):
        self.book = Book()
        self.owners = {}  # the lines of owners, by name
        self.mint = None
        self.first_pay = None
        self.made = []  # of all pay lines
        self.begun = 0  # how many of these stand in files before the last one
        self.is_minting = False  # whether the last file has the mint line

    def read(self, name):
        """Takes in a file behind those that were read."""
        lines = read_file(name)
        self.begun = len(self.made)
        self.is_minting = any(isinstance(line, Mint) for line in lines)
        self.check_order(lines)
        for line in lines:
            if isinstance(line, Owner):
                self.take_owner(line)
        for line in lines:
            if isinstance(line, Mint):
                self.take_mint(line)
            elif isinstance(line, Pay):
                self.take_pay(line)
        if len(self.made) - self.begun > MOST_IN_FILE:
            raise Mistake(lines[-1].place, f"{len(self.made) - self.begun} transactions: expected at most {MOST_IN_FILE}")

    def check_order(self, lines):
        """There is one mint line, ahead of all pay lines."""
        for line in lines:
            if isinstance(line, Mint):
                if self.mint:
                    raise Mistake(line.place, f"a second mint line: the first is {near(line.place, self.mint.place)}")
                if self.first_pay:
                    raise Mistake(line.place, f"the mint line stands behind a pay line, {near(line.place, self.first_pay)}: expected it first")
                self.mint = line
            elif isinstance(line, Pay):
                self.first_pay = self.first_pay or line.place

    def take_owner(self, line):
        known = self.owners.setdefault(line.name, line)
        if known.program != line.program:
            raise Mistake(line.place, f"{line.name!r} has another program {near(line.place, known.place)}")

    def take_mint(self, line):
        outputs = [self.output(word) for word in line.coins]
        self.book.add(genesis_id(outputs), outputs)

    def take_pay(self, line):
        inputs = [Input(self.point(line.place, word), self.output(word)) for word in line.inputs]
        outputs = [self.output(word) for word in line.outputs]
        tx = Tx(inputs, outputs, line.witnesses)
        made = Made(line.place, tx_id(tx), tx, [line.verdicts.get(at, "good") for at in range(len(inputs))])
        self.made.append(made)
        self.book.add(made.id, outputs)

    def unbalanced(self):
        """The transactions of the last file whose inputs and outputs, where they have both, have other sums, with these."""
        for made in self.made[self.begun :]:
            given, taken = sum(it.output.value for it in made.tx.inputs), sum(it.value for it in made.tx.outputs)
            if given != taken and made.tx.inputs and made.tx.outputs:
                yield made.place, given, taken

    def coins(self):
        """All coins that the lines made, in their order."""
        minted = [self.output(word) for word in self.mint.coins] if self.mint else []
        lines = [(self.mint.place, genesis_id(minted), minted)] if self.mint else []
        lines += [(made.place, made.id, made.tx.outputs) for made in self.made]
        return (Coin(place, Point(made_by, index), output) for place, made_by, outputs in lines for index, output in enumerate(outputs))

    def output(self, word):
        return Output(self.program(word.owner), word.value)

    def program(self, owner):
        return self.owners[owner].program if owner in self.owners else program_of(owner)

    def point(self, place, word):
        """The outpoint that an input names."""
        if word.point == "!":
            return NOWHERE
        output = self.output(word)
        if word.point is None:
            point = self.book.oldest(output) or self.tell_missing(word, output)
        elif word.point == "again":
            point = self.book.last.get(output) or self.tell_unspent(word)
        else:
            point = self.named_point(word)
        self.book.spend(place, point, output)
        return point

    def named_point(self, word):
        """The outpoint that stands behind an @."""
        digits, index = word.point
        known = self.book.ids_from(digits)
        if len(digits) == 64:
            return Point(bytes.fromhex(digits), index)
        if len(known) != 1:
            raise Mistake(word.place, f"{len(known)} ids of the mint and the transactions before begin with {digits}: expected one")
        return Point(known[0], index)

    def tell_missing(self, word, output):
        name = f"{word.owner}:{word.value}"
        if output in self.book.last:
            spent = near(word.place, self.book.spent[self.book.last[output]])
            again = "the side again" if is_table(word.place.file) else f"'again {name}'"
            raise Mistake(word.place, f"{name} was spent {spent}: {again} spends it once more")
        if not self.mint:
            raise Mistake(word.place, f"no unspent coin {name} (there is no mint line)")
        raise Mistake(word.place, f"no unspent coin {name} ({word.owner} has {tell_values(self.book.unspent_of(output.program))})")

    def tell_unspent(self, word):
        raise Mistake(word.place, f"no coin {word.owner}:{word.value} was spent before: 'again' names one that was")


def read_files(names):
    """The ledger that these descriptions make, one behind another."""
    ledger = Ledger()
    for name in names:
        ledger.read(name)
    return ledger
