"""Draws a promotion as an SVG: members one below the other, events from left to right, packets as arrows from where they are sent to where they come.
The events are done by group_model. See tools/pages/make-pictures."""
import html

from group_model import Group
from rack_picture import COLOURS, FONT, INK, PLAIN, SOFT, fitting, text

# The events with their words below the picture.
EVENTS = (
    (("take", "a"), "take a"),
    (("send", 2, 1), "send"),
    (("send", 1, 1), "send"),
    (("deliver", 1), "it comes"),
    (("promote", 1), "promote 1"),
    (("deliver", 3), "Hello comes"),
    (("deliver", 0), "too late"),
    (("send", 2, 1), "send"),
    (("deliver", 4), "it comes"),
    (("deliver", 5), "Ack comes"),
    (("answer",), "answer"),
)
TITLE = "A promotion: member 0 is lost while the record a is in flight"
KINDS = {
    "copy": ("Copy", "the primary's record at a place, for a member", COLOURS[5][0]),
    "ack": ("Ack", "how many records the member holds", COLOURS[2][0]),
    "hello": ("Hello", "a new primary's last record: its term is taken, what is beyond is cut", COLOURS[6][0]),
}
LEFT, TOP, COLUMN, ROW, BOX, LINE = 108, 74, 74, 92, 34, 15


def middle(column):
    return LEFT + column * COLUMN + COLUMN // 2


def height_of(member):
    return TOP + member * ROW


class Told:
    """What is seen of a list of events: members behind each event, and where each packet was sent and came."""

    def __init__(self):
        group = Group(2, "g", lambda records, name: name not in records)
        self.columns, self.sent, self.came = [self.seen(group)], [], {}
        for column, (event, _) in enumerate(EVENTS):
            before, leads = len(group.sent), group.primary
            changed = self.columns[-1]
            group.happen(event)
            self.columns.append(self.seen(group))
            if event[0] == "deliver":
                self.came[event[1]] = (column, leads, self.columns[-1] != changed or len(group.sent) > before or group.sent[event[1]][0] == "ack")
            for packet in group.sent[before:]:
                self.sent.append((column, packet[1] if packet[0] == "ack" else group.primary, packet))

    @staticmethod
    def seen(group):
        return [(own.inside, own.term, own.records, at == group.primary) for at, own in enumerate(group.members)]


def member(told, at):
    """A member's line up to where it leaves, and its records where they change."""
    y, last = height_of(at), None
    end = next((column for column, seen in enumerate(told.columns) if not seen[at][0]), None)
    right = middle(end - 1) if end else LEFT + len(EVENTS) * COLUMN
    yield text(LEFT - 24, y + 5, f"member {at}", 14, ' text-anchor="end" font-weight="bold"')
    yield f'<path d="M{LEFT - 16} {y}H{right}" stroke="{PLAIN[0]}" stroke-width="6"/>'
    if end:
        yield f'<path d="M{right - 8} {y - 8}L{right + 8} {y + 8}M{right - 8} {y + 8}L{right + 8} {y - 8}" stroke="{COLOURS[6][1]}" stroke-width="4"/>'
        yield text(right + 14, y + 5, "lost", 13, f' fill="{SOFT}"')
    for column, seen in enumerate(told.columns):
        inside, term, records, leads = seen[at]
        if inside and (term, records, leads) != last:
            x = middle(column - 1) if column else LEFT
            fill, edge = COLOURS[4] if leads else COLOURS[1]
            yield f"<g><title>{html.escape(f'member {at}: term {term}, records {records}')}</title>"
            yield f'<rect x="{x - BOX // 2}" y="{y - LINE}" width="{BOX}" height="{2 * LINE}" rx="5" fill="{fill}" stroke="{edge}"/>'
            yield fitting(x, y - 1, " ".join(records), 13, BOX - 4, ' font-weight="bold"')
            yield fitting(x, y + 12, f"term {term}", 10, BOX - 4)
            yield "</g>"
            last = (term, records, leads)


def packet(told, number):
    """The arrow of a packet; a dashed one where it changes nothing or does not come."""
    column, sender, (kind, to, *_) = told.sent[number]
    colour = KINDS[kind][2]
    x, y = middle(column), height_of(sender)
    until, leads, counts = told.came.get(number, (column + 1, sender, False))
    goal = leads if kind == "ack" else to
    if number not in told.came:
        goal_x, goal_y = x + COLUMN // 2, y - ROW // 2
    else:
        goal_x, goal_y = middle(until), height_of(goal)
    down = 1 if goal_y > y else -1
    dashes = "" if counts else ' stroke-dasharray="5 4"'
    yield f'<path d="M{x} {y + down * LINE}L{goal_x} {goal_y - down * (LINE + 6)}" stroke="{colour}" stroke-width="2"{dashes} marker-end="url(#{kind})"/>'


def draw():
    """The picture as text."""
    told = Told()
    width, foot = LEFT + len(EVENTS) * COLUMN + 12, height_of(2) + 62
    height = foot + len(KINDS) * 24 + 34
    lines = [
        f'<svg xmlns="http://www.w3.org/2000/svg" viewBox="0 0 {width} {height}" font-family="{FONT}" fill="{INK}" aria-labelledby="title desc">',
        f'<title id="title">{html.escape(TITLE)}</title>',
        '<desc id="desc">Three members, one below the other, and eleven events from left to right; arrows are packets between members.</desc>',
        "<defs>",
        *(
            f'<marker id="{kind}" viewBox="0 0 8 8" refX="6" refY="4" markerWidth="8" markerHeight="8" markerUnits="userSpaceOnUse" orient="auto">'
            f'<path d="M0 0L8 4L0 8Z" fill="{colour}"/></marker>'
            for kind, (_, _, colour) in KINDS.items()
        ),
        "</defs>",
        f'<rect width="{width}" height="{height}" rx="6" fill="#ffffff"/>',
        fitting(width // 2, 28, TITLE, 19, width - 24, ' font-weight="bold"'),
    ]
    for column, (_, words) in enumerate(EVENTS):
        x = middle(column)
        lines.append(f'<path d="M{x} {TOP - 20}V{foot - 24}" stroke="{PLAIN[0]}" stroke-dasharray="2 4"/>')
        lines.append(fitting(x, foot - 8, words, 12, COLUMN - 6))
    for number in range(len(told.sent)):
        lines += packet(told, number)
    for at in range(3):
        lines += member(told, at)
    for row, (name, meaning, colour) in enumerate(KINDS.values()):
        y = foot + 12 + row * 24
        lines.append(f'<path d="M12 {y + 9}H72" stroke="{colour}" stroke-width="3" marker-end="url(#{name.lower()})"/>')
        lines.append(text(84, y + 14, name, 13, ' font-weight="bold"'))
        lines.append(text(134, y + 14, meaning, 13))
    lines.append(text(12, foot + 26 + len(KINDS) * 24, "Yellow leads. A dashed packet changes nothing, or never comes.", 13, f' fill="{SOFT}"'))
    lines.append("</svg>")
    return "\n".join(lines) + "\n"
