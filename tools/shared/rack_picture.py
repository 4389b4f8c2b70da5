"""Draws records of a rack as an SVG: a row for each lane and each shard, a column for each stamp, a colour for each batch. See tools/read-rack."""
import collections
import html

import racks

# So many records are drawn where nobody chose a window.
MOST = 400
# With more rows than this those without a record are left out.
ROWS = 24
# What each kind rests on.
CAUSE = {"Lock": "Prepare", "Commit": "Lock", "Finish": "Commit", "Discard": "Finish", "Forget": "Discard", "Done": "Forget"}
LEGEND = (
    ("Start", "the first record of a coordinator: the ledger's shape"),
    ("Genesis", "the first record of a shard: the minted coins that lie on it"),
    ("Prepare", "a coordinator writes down the transactions of a batch"),
    ("Lock", "a shard locks the coins that they spend there; it replies for each"),
    ("Commit", "the coordinator decides: committed are those that every shard held"),
    ("Finish", "a shard applies that: spent coins go, made coins come"),
    ("Discard", "the coordinator writes down that all shards have finished"),
    ("Forget", "a shard forgets the batch"),
    ("Done", "all shards have forgotten it: the lane is free"),
)
# The colours of Okabe and Ito, which people with any sort of colour vision tell apart, each with a darker one for lines and outlines.
COLOURS = (
    ("#e69f00", "#8f6300"),
    ("#56b4e9", "#1a6fa3"),
    ("#009e73", "#00604a"),
    ("#cc79a7", "#8c3d6a"),
    ("#f0e442", "#857d00"),
    ("#0072b2", "#004a75"),
    ("#d55e00", "#8a3d00"),
)
PLAIN = ("#e6e6e6", "#707070")
INK, SOFT, ALARM = "#1a1a1a", "#5a5a5a", "#a01010"
FONT = "system-ui, -apple-system, 'Segoe UI', 'DejaVu Sans', Arial, sans-serif"
# Left and right of the columns, above the first band, between bands.
LEFT, RIGHT, TOP, GAP = 124, 16, 52, 22
NOTE = 84
# A picture is at least so wide.
LEAST = 640

Size = collections.namedtuple("Size", "column box height row columns kind batch")
WIDE = Size(82, 66, 38, 58, 12, 13, 12)
NARROW = Size(48, 34, 32, 44, 18, 13, 11)


# Where there are several lanes, a line turns this far from the box of a shard's record, by its lane: so those of different lanes lie apart, and those
# that go up from those that go down.
TURNS = (2, 5, 3, 6)


def text(x, y, words, size, more=""):
    return f'<text x="{x}" y="{y}" font-size="{size}"{more}>{html.escape(words)}</text>'


def fitting(x, y, words, size, room, more=""):
    """Text about its middle, squeezed where it would not fit."""
    if len(words) * size * 6 // 10 > room:
        more += f' textLength="{room}" lengthAdjust="spacingAndGlyphs"'
    return text(x, y, words, size, ' text-anchor="middle"' + more)


def brightness(colour):
    red, green, blue = (int(colour[at : at + 2], 16) for at in (1, 3, 5))
    return 299 * red + 587 * green + 114 * blue


def tint(colour):
    """The colour mixed with much white."""
    return "#" + "".join(f"{255 - (255 - int(colour[at : at + 2], 16)) * 3 // 10:02x}" for at in (1, 3, 5))


class Picture:
    def __init__(self, rack, records, title, left_out):
        self.rack, self.records, self.left_out = rack, records, left_out
        self.everything = rack.history()
        self.last = racks.batches_of(self.everything)
        self.title = title or self.own_title()
        self.header = rack.header
        self.many_lanes = self.header.coordinators * self.header.lanes > 1
        self.stamps = sorted({it.stamp for it in records})
        self.size = WIDE if len(self.stamps) <= WIDE.columns else NARROW
        self.column = {stamp: at for at, stamp in enumerate(self.stamps)}
        self.rows = self.chosen_rows()
        self.row = {key: at for at, key in enumerate(self.rows)}
        batches = dict.fromkeys((it.lane, it.number) for it in records if it.lane is not None)
        self.colours = {key: COLOURS[at % len(COLOURS)] for at, key in enumerate(batches)}
        self.open = {key for key in self.colours if key not in self.last or racks.is_open(self.last[key])}
        self.notes = self.row_notes()
        self.bands = max(1, -(-len(self.stamps) // self.size.columns))
        self.columns = columns = max(1, -(-len(self.stamps) // self.bands))
        margin = NOTE if self.notes else RIGHT
        self.step = max(self.size.column, (LEAST - LEFT - margin) // columns)
        self.right = LEFT + columns * self.step
        self.width = self.right + margin
        self.band_height = 20 + len(self.rows) * self.size.row + GAP

    def own_title(self):
        batches = {(it.lane, it.number) for it in self.records if it.lane is not None}
        return f"{racks.count(len(self.records), 'record')} of {racks.count(len(batches), 'batch')}"

    # Rows: a lane is (node, lane), a shard (node, None).

    def chosen_rows(self):
        """All rows, or those with a record where they are many."""
        header = self.header
        lanes = [(lane // header.lanes, lane) for lane in range(header.coordinators * header.lanes)]
        rows = lanes + [(header.coordinators + shard, None) for shard in range(header.shards)]
        if len(rows) <= ROWS:
            return rows
        busy = {key for it in self.records for key in self.keys(it, dict.fromkeys(rows))}
        return [key for key in rows if key in busy]

    def keys(self, record, rows):
        """The rows of a record, of these: that of its lane or shard, or for a coordinator's first record those of all its lanes."""
        key = (record.node, record.lane if record.node < self.header.coordinators else None)
        return [key] if key in rows else [it for it in rows if it[0] == record.node]

    def label(self, key):
        node, lane = key
        if lane is not None:
            return f"lane {lane}", f"coordinator {node}"
        shard, shards = node - self.header.coordinators, self.header.shards
        first, end = -(-256 * shard // shards), -(-256 * (shard + 1) // shards)
        return f"shard {shard}", f"hashes {first:02x}.. to {end - 1:02x}.."

    def row_notes(self):
        """What stands at a row's end: that its batch is open, or that its journal is not whole."""
        notes = {}
        for lane, _ in self.open:
            notes[(lane // self.header.lanes, lane)] = "open"
        for fault in self.rack.faults:
            for key in self.rows:
                if key[0] == fault.node:
                    notes[key] = fault.kind
        return {key: note for key, note in notes.items() if key in self.row}

    # Places.

    def place(self, record):
        """The middle of a record's box, and the band."""
        band, column = divmod(self.column[record.stamp], self.columns)
        rows = [self.row[key] for key in self.keys(record, self.row)]
        return LEFT + column * self.step + self.step // 2, (self.row_y(band, rows[0]) + self.row_y(band, rows[-1])) // 2, band

    def row_y(self, band, row):
        return TOP + band * self.band_height + 20 + row * self.size.row + self.size.row // 2

    # Parts.

    def band(self, band):
        top = TOP + band * self.band_height + 20
        lanes = sum(lane is not None for _, lane in self.rows)
        height, shards = lanes * self.size.row, (len(self.rows) - lanes) * self.size.row
        yield f'<rect x="{LEFT}" y="{top}" width="{self.right - LEFT}" height="{height}" fill="#eef2f8"/>'
        yield f'<rect x="{LEFT}" y="{top + height}" width="{self.right - LEFT}" height="{shards}" fill="#f7f2ea"/>'
        yield text(LEFT - 8, top - 6, "stamp", 12, f' text-anchor="end" fill="{SOFT}"')
        for at, stamp in enumerate(self.stamps[band * self.columns : (band + 1) * self.columns]):
            yield fitting(LEFT + at * self.step + self.step // 2, top - 6, str(stamp), 12, self.step - 4, f' fill="{SOFT}"')
        for at, key in enumerate(self.rows):
            y = self.row_y(band, at)
            name, more = self.label(key)
            yield f'<path d="M{LEFT} {y}H{self.right}" stroke="#c4c4c4"/>'
            yield text(12, y - 1, name, 14, ' font-weight="bold"')
            yield text(12, y + 14, more, 11, f' fill="{SOFT}"')
            if key in self.notes and band == self.bands - 1:
                yield text(self.right + 8, y + 5, self.notes[key], 14, f' font-weight="bold" fill="{ALARM}"')

    def lines(self):
        """The lines from each record to those that rest on it. One of the two is a coordinator's: the line runs along the row of its lane, on which
        no other batch has a record meanwhile, and turns next to the shard's record. It goes on from band to band, and where one of the two is
        not drawn it begins or ends at the edge."""
        by_kind = collections.defaultdict(list)
        for it in self.everything:
            by_kind[it.lane, it.number, it.kind].append(it)
        drawn = {(it.node, it.at) for it in self.records}
        for it in self.everything:
            for cause in by_kind[it.lane, it.number, CAUSE[it.kind]] if it.kind in CAUSE else ():
                begin = self.place(cause) if (cause.node, cause.at) in drawn else None
                end = self.place(it) if (it.node, it.at) in drawn else None
                rows = self.keys(cause if cause.kind in racks.Coordinator.AFTER else it, self.row)
                if rows and (begin or end):
                    yield from self.line(begin, end, self.row[rows[0]], it)

    def line(self, begin, end, row, record):
        colour = self.colours[record.lane, record.number][1]
        half = self.size.box // 2
        turn = TURNS[record.lane % len(TURNS)] if self.many_lanes else (self.size.column - self.size.box) // 2
        width = 2 if self.size is WIDE else "1.5"
        first, last = begin[2] if begin else 0, end[2] if end else self.bands - 1
        for band in range(first, last + 1):
            y = self.row_y(band, row)
            path = f"M{LEFT} {y}"
            if begin and band == first:
                path = f"M{begin[0] + half} {begin[1]}" + (f"h{turn}V{y}" if begin[1] != y else "")
            if end and band == last:
                path += (f"H{end[0] - half - turn}V{end[1]}" if end[1] != y else "") + f"H{end[0] - half}"
            else:
                path += f"H{self.right}"
            yield f'<path d="{path}" stroke="{colour}" stroke-width="{width}"/>'

    def box(self, record, spelling):
        x, y, band = self.place(record)
        size, key = self.size, (record.lane, record.number)
        rows = [self.row[it] for it in self.keys(record, self.row)]
        height = size.height + (rows[-1] - rows[0]) * size.row
        fill, edge = self.colours.get(key, PLAIN)
        dash = ""
        if key in self.open:
            fill, dash = tint(fill), ' stroke-dasharray="5 3"'
        ink = "#ffffff" if brightness(fill) < 100_000 else INK
        stamp, *rest = racks.cells(record, spelling)
        line = f"stamp {stamp}: " + " ".join(it for it in rest if it)
        yield f"<g><title>{html.escape(line)}</title>"
        yield f'<rect x="{x - size.box // 2}" y="{y - height // 2}" width="{size.box}" height="{height}" rx="4" fill="{fill}" stroke="{edge}"'
        yield f' stroke-width="{3 if dash else 1}"{dash}/>'
        name = record.kind if size is WIDE else record.kind[:2]
        if record.lane is None:
            yield fitting(x, y + 5, name, size.kind, size.box - 4, f' font-weight="bold" fill="{ink}"')
        else:
            yield fitting(x, y - 3, name, size.kind, size.box - 4, f' font-weight="bold" fill="{ink}"')
            yield fitting(x, y + 11, self.batch_name(key), size.batch, size.box - 4, f' fill="{ink}"')
        if turned_down(record):
            yield f'<circle cx="{x + size.box // 2}" cy="{y - height // 2}" r="7" fill="#ffffff" stroke="{ALARM}" stroke-width="2"/>'
            yield text(x + size.box // 2, y - height // 2 + 4, "\u00d7", 12, f' text-anchor="middle" font-weight="bold" fill="{ALARM}"')
        yield "</g>"

    def batch_name(self, key):
        name = f"{key[0]}:{key[1]}" if self.many_lanes else str(key[1])
        return f"batch {name}" if self.size is WIDE else name

    def legend(self, top):
        code = WIDE.box if self.size is WIDE else NARROW.box
        for at, (kind, meaning) in enumerate(LEGEND):
            y = top + at * 24
            yield f'<rect x="12" y="{y}" width="{code}" height="19" rx="4" fill="#ffffff" stroke="{SOFT}"/>'
            name = kind if self.size is WIDE else kind[:2]
            yield fitting(12 + code // 2, y + 14, name, 13, code - 4, ' font-weight="bold"')
            yield text(22 + code, y + 14, meaning if self.size is WIDE else f"{kind}: {meaning}", 13)
        for at, line in enumerate(self.remarks()):
            yield text(12, top + len(LEGEND) * 24 + 16 + at * 20, line, 13)

    def remarks(self):
        lines = ["Each batch has a colour and a number" + (" (0:1 is batch 1 of lane 0)." if self.many_lanes else ".")]
        lines.append("A line leads from a record to one that rests on it.")
        if self.open:
            lines.append("A dashed outline: the batch is open, it was not brought to its end.")
        if len(self.rows) < self.header.coordinators * self.header.lanes + self.header.shards:
            lines.append("Lanes and shards without a record here are left out.")
        if any(map(turned_down, self.records)):
            lines.append("A cross: a transaction of the batch was not held there (Lock), or is not committed (Commit, Finish).")
        if self.left_out:
            lines.append(f"Only the first {len(self.records)} records are drawn, {self.left_out} more follow.")
        return lines

    def draw(self):
        legend = TOP + self.bands * self.band_height + 4
        height = legend + len(LEGEND) * 24 + 16 + len(self.remarks()) * 20
        spelling = racks.Spelling()
        yield f'<svg xmlns="http://www.w3.org/2000/svg" viewBox="0 0 {self.width} {height}" font-family="{FONT}" fill="{INK}"'
        yield ' aria-labelledby="title desc">'
        yield f'<title id="title">{html.escape(self.title)}</title>'
        lanes = sum(lane is not None for _, lane in self.rows)
        rows = f"{racks.count(lanes, 'lane')} and {racks.count(len(self.rows) - lanes, 'shard')}"
        yield f'<desc id="desc">Records of a rack as boxes, in rows for {rows}, from left to right by stamp. Each box has its record as title.</desc>'
        yield f'<rect width="{self.width}" height="{height}" rx="6" fill="#ffffff"/>'
        yield fitting(self.width // 2, 28, self.title, 19, self.width - 24, ' font-weight="bold"')
        for band in range(self.bands):
            yield from self.band(band)
        yield '<g fill="none" stroke-linejoin="round">'
        # of the same line along a row there is one for each shard: those that are alike are drawn once
        yield from dict.fromkeys(self.lines())
        yield "</g>"
        for it in self.records:
            yield "".join(self.box(it, spelling))
        yield from self.legend(legend)
        yield "</svg>"


def turned_down(record):
    """Whether a transaction of the batch was not held by this Lock, or is not committed by this Commit or Finish."""
    if record.kind == "Lock":
        return any(reply != racks.HELD for _, reply in record.items)
    if record.kind == "Commit":
        return any(it != racks.HELD for it in record.items)
    return record.kind == "Finish" and not all(record.items)


def draw(rack, records, title=None, left_out=0):
    """The picture of these records of a rack as text."""
    return "\n".join(Picture(rack, records, title, left_out).draw()) + "\n"
