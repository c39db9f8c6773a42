"""Reads a journal for tests, and keeps the book of its acts: the bytes of docs/design/two_files.md and the conditions of docs/design/book.md, by code that shares nothing
with the program's."""
import os
from collections import defaultdict, namedtuple

from journal_bytes import CONSUMER, DUE, HEAD, LINK_ROWS, MAGIC, PRODUCER, read, sides
from proton import Data

KINDS = {1: "Make", 2: "Admit", 3: "Decide", 4: "Forget", 5: "Drop"}
ACCEPTED, RELEASED = ("accepted",), ("released",)
# what the router itself decides of a delivery whose consumer's link is gone
FAILED = ("modified", True, False, {})
# the order of the acts of an event
ORDER = {"Decide": 0, "Forget": 1, "Drop": 2, "Make": 3, "Admit": 3}
# a journal that is being written is read again once a file has so many bytes more or less
MOVED = DUE // 4


class Fault(Exception):
    """What the journal or the program should not have done."""


Act = namedtuple("Act", "kind number more")
Terminus = namedtuple("Terminus", "number role user container name address")


class Row:
    """A durable delivery of the journal; its consumer is 0 where that link isn't durable."""

    def __init__(self, number, producer, tag, consumer, form, payload):
        self.number, self.producer, self.tag, self.consumer = number, producer, tag, consumer
        self.form, self.payload = form, payload
        self.outcome, self.forgotten = None, False

    def acts(self):
        """Those that a checkpoint has of it."""
        acts = [Act("Admit", self.number, (self.producer, self.tag, self.consumer, self.form, self.payload))]
        acts += [Act("Decide", self.number, (self.outcome,))] * (self.outcome is not None)
        return acts + [Act("Forget", self.number, ())] * self.forgotten


class Bytes:
    """Reads the bytes of a batch's acts."""

    def __init__(self, data):
        self.data, self.at = data, 0

    def number(self, size):
        return int.from_bytes(self.text(size), "big")

    def text(self, size):
        if self.at + size > len(self.data):
            raise Fault("an act isn't whole")
        self.at += size
        return self.data[self.at - size:self.at]

    def act(self):
        """An act: its kind, the number of its row or else terminus, and what else it says."""
        kind = KINDS.get(self.number(1))
        number, more = self.number(8), ()
        if kind == "Make":
            more = (self.number(1), *(self.text(self.number(2)).decode() for _ in range(4)))
        elif kind == "Admit":
            more = (self.number(8), self.text(self.number(1)), self.number(8), self.number(4), self.text(self.number(4)))
        elif kind == "Decide":
            more = (outcome_of(self.text(self.number(2))),)
        elif kind is None:
            raise Fault("an act of no kind")
        return Act(kind, number, more)


def outcome_of(data, known={}):
    """An outcome's name and what it says, as Proton's codec reads its bytes."""
    if data not in known:
        found = Data()
        if found.decode(data) != len(data):
            raise Fault(f"the outcome {data.hex()} isn't one value")
        found.rewind()
        found.next()
        value = found.get_object()
        known[data] = terminal(int(value.descriptor), list(value.value))
    return known[data]


def terminal(code, fields):
    """A terminal state (part 3, section 3.4) of this code and these fields: a tuple that begins with its name."""
    fields = fields + [None] * 3
    if code == 0x25:
        return rejection(*error_of(fields[0]))
    if code == 0x27:
        return modification(fields[0], fields[1], fields[2])
    if code in (0x24, 0x26):
        return (ACCEPTED, RELEASED)[code == 0x26]
    raise Fault(f"{code:x} is no terminal state")


def error_of(value):
    if value is None:
        return None, None, None
    fields = list(value.value) + [None] * 3
    return fields[:3]


def rejection(condition, description, info):
    return "rejected", condition and str(condition), description or None, dict(info or {})


def modification(failed, undeliverable, annotations):
    return "modified", bool(failed), bool(undeliverable), dict(annotations or {})


class Side:
    """The head of a side: its epoch, if its gate is open, and what is behind it. `number` is that with which the file's name ends."""

    def __init__(self, number, data):
        if data[:8] != MAGIC or len(data) < 9:
            raise Fault("a side of the journal has no head")
        self.number, self.data, self.epoch = number, data, 0
        if data[8:9] == b"\1":
            found = Bytes(data)
            found.at = 9
            self.epoch, self.base = found.number(8), found.number(8)
            self.kept = Bytes(found.text(found.number(4)))
            self.start = found.at


class Journal:
    """A journal's files, as far as they were read: the termini and rows of its book, and what became of them. `acts` are the lines of those behind the
    checkpoint of the active side, `place` is that of the last gate that was read on it."""

    def __init__(self, path):
        self.path, self.active, self.place = path, None, 0
        # the bytes of both files when they were last read, the most that one had, the bytes of the longest batch, and how many checkpoints were read
        self.sizes, self.most_bytes, self.longest, self.checkpoints = (0, 0), 0, 0, 0
        self.termini, self.dropped, self.numbers = {}, set(), {}
        self.rows, self.standing = {}, set()
        self.next_terminus, self.next_row = 1, 1
        self.batches, self.begins = 0, False
        # the rows that a producer's terminus has, by tag those not forgotten, and those that a consumer's has undecided
        self.sent, self.named, self.bound = defaultdict(set), {}, defaultdict(set)
        self.acts = []

    def grow(self, ordered=True):
        """Reads the files, which go on where they ended before, and gives the new batches as lists of acts, each those of an event. There is at most one
        checkpoint among them: where a program writes, it is asked by `moved` when to read, and stands still meanwhile."""
        first, second = (Side(number, data) for number, data in enumerate(read(self.path)))
        self.sizes = len(first.data), len(second.data)
        self.most_bytes = max(self.most_bytes, *self.sizes)
        if first.epoch == second.epoch:
            raise Fault(f"both sides have the epoch {first.epoch}")
        old, new = sorted((first, second), key=lambda it: it.epoch)
        if self.active is None:
            self.begin(new)
        elif new.epoch == self.active.epoch + 1 == old.epoch + 1:
            # the other side has the next checkpoint, and this one the batches up to it
            batches = self.follow(old, ordered)
            self.take_over(new)
            return batches + self.follow(new, ordered)
        elif new.epoch != self.active.epoch:
            raise Fault(f"the epoch was {self.active.epoch}, and is {new.epoch}, beside {old.epoch}: the batches between two checkpoints weren't read")
        return self.follow(new, ordered)

    def moved(self):
        """Whether so much was written since the files were read that a checkpoint may have been made, but not yet a second one."""
        return any(abs(os.path.getsize(name) - size) >= MOVED for name, size in zip(sides(self.path), self.sizes))

    def begin(self, side):
        """The checkpoint of a journal that wasn't read before: numbers rise in it, and termini are asked for at its end."""
        kept = side.kept
        next_terminus, next_row = kept.number(8), kept.number(8)
        self.begins = True
        while kept.at < len(kept.data):
            self.do(kept.act())
        self.begins = False
        for row in (self.rows[it] for it in self.standing):
            if not row.forgotten:
                self.terminus(row.producer, PRODUCER)
            if row.consumer and not row.outcome:
                self.terminus(row.consumer, CONSUMER)
        if self.next_terminus > next_terminus or self.next_row > next_row:
            raise Fault(f"the checkpoint has next numbers {next_terminus} and {next_row}, behind {self.next_terminus} and {self.next_row}")
        self.next_terminus, self.next_row, self.batches = next_terminus, next_row, side.base
        self.look_at(side)

    def take_over(self, side):
        """A further checkpoint: it has the book, and nothing else."""
        kept = side.kept
        if (side.base, kept.number(8), kept.number(8)) != (self.batches, self.next_terminus, self.next_row):
            raise Fault(f"the checkpoint is of batch {side.base} where {self.batches} were read")
        wanted = [Act("Make", number, self.termini[number][1:]) for number in sorted(self.termini.keys() - self.dropped)]
        for number in sorted(self.standing):
            wanted += self.rows[number].acts()
        found = []
        while kept.at < len(kept.data):
            found.append(kept.act())
        if found != wanted:
            raise Fault(f"the checkpoint has {str(found)[:200]}, and not {str(wanted)[:200]}")
        self.look_at(side)

    def look_at(self, side):
        """From now on this side is active."""
        self.active, self.place, self.acts = side, side.start, []
        self.checkpoints += side.epoch > 1
        self.kept = len(self.standing), len(self.termini) - len(self.dropped)

    def follow(self, side, ordered):
        """The further batches of the active side."""
        data = side.data
        if side.epoch != self.active.epoch or data[:self.place] != self.active.data[:self.place]:
            raise Fault("the journal doesn't begin as it did")
        batches, self.active = [], side
        while data[self.place:self.place + 1] == b"\1":
            size = int.from_bytes(data[self.place + 1:self.place + 5], "big")
            batch = Bytes(data[self.place + 5:self.place + 5 + size])
            if len(batch.data) != size or not size:
                raise Fault(f"the batch at {self.place} isn't whole")
            acts = []
            while batch.at < size:
                acts.append(batch.act())
                self.acts.append(f"{self.place} {acts[-1].kind} {acts[-1].number}")
                self.do(acts[-1])
            if ordered:
                in_order(acts)
            batches.append(acts)
            self.batches += 1
            self.place += 5 + size
            self.longest = max(self.longest, 5 + size)
        if data[self.place:self.place + 1] != b"\0":
            raise Fault(f"the gate at {self.place} isn't closed")
        return batches

    def limit(self):
        """The most bytes that the active side may have: a checkpoint, what may stand behind it before the next one is due, and one batch."""
        kept = len(self.active.kept.data)
        return HEAD + kept + max(DUE, kept) + self.longest

    def behind(self):
        """How many bytes follow the gate that ends the active side."""
        return len(self.active.data) - self.place - 1

    def do(self, act):
        """Does an act to the book, or says why it doesn't apply."""
        getattr(self, act.kind.lower())(act.number, *act.more)

    def make(self, number, role, *texts):
        it = Terminus(number, role, *texts)
        key = (role, *texts[:3])
        if not self.comes_next(number, self.next_terminus) or key in self.numbers:
            raise Fault(f"{it} is made, where {self.next_terminus} comes next, and its key has {self.numbers.get(key)}")
        self.termini[number], self.numbers[key] = it, number
        self.next_terminus = number + 1

    def comes_next(self, number, wanted):
        return number == wanted or self.begins and number > wanted

    def drop(self, number):
        it = self.terminus(number)
        kept = {row for row in self.sent[number] if not self.rows[row].forgotten} | self.bound[number]
        if kept:
            raise Fault(f"{it} is dropped, and has rows {kept}")
        self.dropped.add(number)
        del self.numbers[(it.role, it.user, it.container, it.name)]

    def terminus(self, number, role=None):
        """A terminus that stands."""
        if number not in self.termini or number in self.dropped or role not in (None, self.termini[number].role):
            raise Fault(f"{number} is no terminus that stands, or has another role")
        return self.termini[number]

    def admit(self, number, producer, tag, consumer, form, payload):
        if not self.begins:
            self.terminus(producer, PRODUCER)
        if consumer and not self.begins:
            self.terminus(consumer, CONSUMER)
        if not self.comes_next(number, self.next_row):
            raise Fault(f"row {number} is admitted where {self.next_row} comes next")
        if (producer, tag) in self.named:
            raise Fault(f"row {number} has the tag of row {self.named[producer, tag]}, and its producer")
        had = len(self.standing), len(self.sent[producer]), len(self.bound[consumer])
        if had[0] >= 4_096 or had[1] >= LINK_ROWS or had[2] >= LINK_ROWS:
            raise Fault(f"row {number} comes behind {had[0]} rows, {had[1]} of its producer, {had[2]} of its consumer")
        self.rows[number] = Row(number, producer, tag, consumer, form, payload)
        self.next_row = number + 1
        self.standing.add(number)
        self.sent[producer].add(number)
        self.named[producer, tag] = number
        if consumer:
            self.bound[consumer].add(number)

    def decide(self, number, outcome):
        row = self.row(number)
        if row.outcome:
            raise Fault(f"row {number} is decided as {outcome}, and was decided as {row.outcome}")
        row.outcome = outcome
        self.bound[row.consumer].discard(number)
        self.leave(row)

    def forget(self, number):
        row = self.row(number)
        if row.forgotten:
            raise Fault(f"row {number} is forgotten twice")
        row.forgotten = True
        del self.named[row.producer, row.tag]
        self.leave(row)

    def row(self, number):
        if number not in self.standing:
            raise Fault(f"row {number} doesn't stand")
        return self.rows[number]

    def leave(self, row):
        if row.outcome and row.forgotten:
            self.standing.discard(row.number)
            self.sent[row.producer].discard(row.number)

    def undecided(self):
        return [self.rows[it] for it in sorted(self.standing) if not self.rows[it].outcome]

    def first_line(self):
        """The first line that `amqr journal` prints of it."""
        rows, termini = self.kept
        return f"epoch {self.active.epoch} base {self.active.base} rows {rows} termini {termini}"

    def last_line(self):
        """The last line that `amqr journal` prints of it."""
        return f"end {self.place} rows {len(self.standing)} termini {len(self.termini) - len(self.dropped)}"


def in_order(acts):
    """What an event decides stands first, then what it forgets, each in the order of rows, then the terminus that it drops, last the one that it makes or the
    row that it admits."""
    said = [(ORDER[it.kind], it.number) for it in acts]
    if said != sorted(said) or sum(it[0] == 3 for it in said) > 1:
        raise Fault(f"a batch is {str(said)[:200]}")
