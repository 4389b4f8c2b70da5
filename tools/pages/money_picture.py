"""Draws how a ledger's value is divided day by day, into what permits may issue, money and what is burnt, as an SVG: a bar for each day, and between
two bars what went over from one kind to another. See tools/pages/make-pictures."""
import collections
import html

from rack_picture import COLOURS, FONT, INK, SOFT, fitting, text

# What an audit says of a day: `minted` is all that was minted, and `committed` counts transactions.
Day = collections.namedtuple("Day", "name minted committed money issued redeemed")
# The kinds in the order in which they stand in a bar, with their colours.
KINDS = (
    ("permit", "what may still be issued", COLOURS[0][0]),
    ("money", "what people have", COLOURS[1][0]),
    ("burnt", "what was redeemed: its hash stays, and is never spent", COLOURS[3][0]),
)
# The picture's width; left and right of the bars, above the first; a bar's height, and the room between two.
WIDTH, LEFT, RIGHT, TOP, BAR, BETWEEN = 720, 108, 20, 56, 34, 40


class Picture:
    def __init__(self, days, title):
        self.days, self.title = days, title
        self.value, self.permit = days[0].minted, days[0].minted - days[0].money
        self.width, self.right = WIDTH, WIDTH - RIGHT

    def at(self, value):
        """How far to the right a value reaches."""
        return LEFT + (self.right - LEFT) * value // self.value

    def parts(self, day):
        """The value of each kind on a day."""
        return self.permit - day.issued, day.money, day.redeemed

    def top(self, row):
        return TOP + row * (BAR + BETWEEN)

    def moved(self, before, day):
        """What a day did: its words, and from where to where in the bar the value lies of which they speak."""
        issued, redeemed = day.issued - before.issued, day.redeemed - before.redeemed
        left = self.permit - day.issued
        if issued:
            yield f"{issued:,} issued", left, left + issued
        if redeemed:
            yield f"{redeemed:,} redeemed", self.value - day.redeemed, self.value - before.redeemed
        if not issued and not redeemed and day.committed > before.committed:
            yield "payments", left, self.value - day.redeemed

    def bar(self, row, day):
        y, begin = self.top(row), 0
        yield text(LEFT - 12, y + 22, day.name, 14, ' text-anchor="end" font-weight="bold"')
        for (name, _, colour), part in zip(KINDS, self.parts(day)):
            if part:
                x, end = self.at(begin), self.at(begin + part)
                yield f"<g><title>{html.escape(f'{day.name}: {name} {part:,}')}</title>"
                yield f'<rect x="{x}" y="{y}" width="{end - x}" height="{BAR}" fill="{colour}" stroke="#ffffff"/>'
                yield fitting((x + end) // 2, y + 22, f"{part:,}", 14, end - x - 4)
                yield "</g>"
            begin += part

    def between(self, row, before, day):
        """The way of what a day moved, down to that day's bar."""
        y = self.top(row) - BETWEEN
        moves = list(self.moved(before, day))
        for words, begin, end in moves:
            left, right = self.at(begin), self.at(end)
            middle, foot = (left + right) // 2, y + BETWEEN - 12
            yield f'<path d="M{left} {y}H{right}V{foot}L{middle} {y + BETWEEN}L{left} {foot}Z" fill="#eef2f8"/>'
            yield fitting(middle, y + 22, words, 13, right - left - 4)
        if not moves:
            yield fitting((LEFT + self.right) // 2, y + 24, "all is refused", 13, self.right - LEFT, f' fill="{SOFT}"')

    def draw(self):
        legend = self.top(len(self.days)) - BETWEEN + 24
        height = legend + (len(KINDS) + 1) * 24 + 4
        yield f'<svg xmlns="http://www.w3.org/2000/svg" viewBox="0 0 {self.width} {height}" font-family="{FONT}" fill="{INK}"'
        yield ' aria-labelledby="title desc">'
        yield f'<title id="title">{html.escape(self.title)}</title>'
        yield '<desc id="desc">A bar for each day, one below the other: permits, money, what is burnt. Between two bars, what the day moved.</desc>'
        yield f'<rect width="{self.width}" height="{height}" rx="6" fill="#ffffff"/>'
        yield fitting(self.width // 2, 28, self.title, 19, self.width - 24, ' font-weight="bold"')
        for row, day in enumerate(self.days):
            if row:
                yield from self.between(row, self.days[row - 1], day)
            yield from self.bar(row, day)
        for at, (name, meaning, colour) in enumerate(KINDS):
            y = legend + at * 24
            yield f'<rect x="12" y="{y}" width="66" height="19" rx="4" fill="{colour}"/>'
            yield fitting(45, y + 14, name, 13, 62, ' font-weight="bold"')
            yield text(88, y + 14, meaning, 13)
        yield text(12, legend + len(KINDS) * 24 + 14, f"Each bar is the value of all coins: {self.value:,}, as minted.", 13)
        yield "</svg>"


def draw(days, title):
    """The picture of these days as text."""
    return "\n".join(Picture(days, title).draw()) + "\n"
