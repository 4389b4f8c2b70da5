"""A group of members by the table of events in docs/DEFINITIONS.md: a model of its own, which shares no code with the program. Records are letters, events
words, as ("send", 2, 1). See tools/stress/group-lists, tools/pages/promotion_picture.py and examples/members."""

# How the model is made wrong, for a look at what shows it.
BROKEN = ("early", "old", "ack", "cut", "lead", "second")


class Member:
    def __init__(self, records):
        self.inside, self.term, self.records = True, 1, records


class Group:
    """Members by number, and every packet that was ever sent: (kind, member, term, place or count, record)."""

    def __init__(self, backups, records, is_after, spoil=None):
        self.members = [Member(records) for _ in range(backups + 1)]
        self.primary, self.term, self.answered = 0, 1, len(records)
        self.known, self.flying = [0] * (backups + 1), False
        self.sent = []
        self.is_after, self.spoil = is_after, spoil

    @property
    def records(self):
        return self.members[self.primary].records

    def backups(self):
        return [at for at, it in enumerate(self.members) if it.inside and at != self.primary]

    def is_free(self):
        return self.answered == len(self.records) or self.spoil == "second"

    def is_told(self):
        told = [self.known[at] == len(self.records) for at in self.backups()]
        return all(told) or self.spoil == "early" and any(told)

    def may_lead(self, to):
        return to in self.backups() and (self.members[to].term == self.term or self.spoil == "lead")

    def happen(self, event):
        kind, *words = event
        getattr(self, kind)(*words)

    def world(self, event):
        """What an event is at the group's node of a world, in the words of rows."""
        kind, *words = event
        if kind == "take" and self.is_free():
            return f"begin {words[0]}"
        if kind == "answer" and self.is_told() and self.flying:
            return "end"
        if kind == "promote" and self.may_lead(*words):
            is_kept = self.flying and len(self.members[words[0]].records) == len(self.records)
            return f"crash {'kept' if is_kept else 'lost'} reopen"
        return ""

    def take(self, name):
        if self.is_free() and self.is_after(self.records, name):
            self.members[self.primary].records += name
            self.flying = True

    def send(self, to, place):
        if place < len(self.records):
            self.sent.append(("copy", to, self.term, place, self.records[place]))

    def deliver(self, number):
        if number >= len(self.sent):
            return
        kind, to, term, place, *record = self.sent[number]
        if kind == "ack":
            if term == self.term or self.spoil == "ack":
                self.known[to] = max(self.known[to], place)
        elif to < len(self.members) and self.members[to].inside:
            (self.copied if kind == "copy" else self.greeted)(to, term, place, record[0])

    def copied(self, to, term, place, record):
        own = self.members[to]
        if term == own.term or self.spoil == "old":
            if place == len(own.records):
                own.records += record
            self.sent.append(("ack", to, own.term, len(own.records)))

    def greeted(self, to, term, place, record):
        own = self.members[to]
        if term > own.term:
            own.term = term
            own.records = own.records[: None if self.spoil == "cut" else place] + record

    def answer(self):
        if self.is_told():
            self.answered, self.flying = len(self.records), False

    def promote(self, to):
        if not self.may_lead(to):
            return
        self.members[self.primary].inside = False
        self.term += 1
        self.primary = to
        self.members[to].term = self.term
        self.known, self.flying = [0] * len(self.members), False
        place = len(self.records) - 1
        self.sent += [("hello", at, self.term, place, self.records[place]) for at in self.backups()]

    def told(self):
        """A line for each member, and one of what is answered, as rows have them."""
        for at, own in enumerate(self.members):
            word = "leads" if at == self.primary else "follows" if own.inside else "left"
            yield f"{word} {own.term} {' '.join(own.records)}"
        yield f"answered {self.answered}{' flying' if self.flying else ''}"
