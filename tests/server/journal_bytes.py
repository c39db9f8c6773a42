"""Journals as bytes, for checks that begin with one: the format of docs/design/two_files.md, without a client library.

  tests/server/journal_bytes.py      the bytes of the journals that the cases of case_program begin with, as their lines have them
"""
MAGIC = b"AMQRJ002"
OPEN, CLOSED = b"\1", b"\0"
PRODUCER, CONSUMER = 0, 1
MOST_BYTES = 67_108_864
# what the journal keeps free for an undecided row, for one that its producer hasn't settled, and for a terminus
DECISION_RESERVE, ROW_RESERVE, TERMINUS_RESERVE = 416, 416 + 14, 14
# a checkpoint is made once the batches have so many bytes, and as many as the last checkpoint
DUE = 1_048_576
# a batch's gate and its length, which a checkpoint doesn't keep; a head, and the gate of the first batch
BATCH, HEAD = 1 + 4, 29 + 1
LINK_ROWS = 64


def number(value, size=8):
    return value.to_bytes(size, "big")


def text_of(data, size):
    return number(len(data), size) + data


def made(terminus, role, *texts):
    return b"\1" + number(terminus) + bytes([role]) + b"".join(text_of(it.encode(), 2) for it in texts)


def admitted(row, producer, tag, consumer, payload):
    return b"\2" + number(row) + number(producer) + text_of(tag, 1) + number(consumer) + bytes(4) + text_of(payload, 4)


def accepted(row):
    return b"\3" + number(row) + text_of(b"\x00\x53\x24\x45", 2)


def forgotten(row):
    return b"\4" + number(row)


def checkpoint(next_terminus=1, next_row=1, acts=b""):
    """A book: the numbers that come next in it, and the acts from which it is read back."""
    return number(next_terminus) + number(next_row) + acts


def side(*batches, epoch=1, base=0, kept=checkpoint()):
    """A side with these batches, each the bytes of its acts, behind a checkpoint."""
    head = MAGIC + OPEN + number(epoch) + number(base) + text_of(kept, 4)
    return head + b"".join(OPEN + text_of(it, 4) for it in batches) + CLOSED


IDLE = MAGIC + CLOSED


def sides(path):
    """The files of a journal of this name."""
    return f"{path}.0", f"{path}.1"


def write(path, *batches, kept=checkpoint()):
    """Makes a journal of these batches, each the bytes of its acts, behind a checkpoint."""
    for name, data in zip(sides(path), (side(*batches, kept=kept), IDLE)):
        with open(name, "wb") as file:
            file.write(data)


def read(path):
    """The bytes of a journal's two files."""
    found = []
    for name in sides(path):
        with open(name, "rb") as file:
            found.append(file.read())
    return tuple(found)


def other_termini(count):
    return b"".join(made(at + 1, PRODUCER, "anonymous", "other", f"s{at}", "other") for at in range(count))


def filled(room):
    """A checkpoint of deliveries that were accepted, and that their producers haven't settled, beside which a journal has this room."""
    def message(row, size):
        return admitted(row, (row - 1) // LINK_ROWS + 1, b"%d" % row, 0, b"." * size) + accepted(row)

    def needs(acts, termini, rows):
        return HEAD + len(checkpoint(acts=acts)) + TERMINUS_RESERVE * termini + (ROW_RESERVE - DECISION_RESERVE) * rows

    most = 65_536
    rows = (MOST_BYTES - room) // most
    termini = rows // LINK_ROWS + 1
    made_first = other_termini(termini)
    # all rows but the last two are as large as they may be; these share what is left, so that neither is too short or too long
    acts = made_first + b"".join(message(row, most) for row in range(1, rows - 1))
    left = MOST_BYTES - room - needs(acts + message(rows - 1, 0) + message(rows, 0), termini, rows)
    acts += message(rows - 1, left // 2) + message(rows, left - left // 2)
    assert needs(acts, termini, rows) + room == MOST_BYTES and 0 <= left // 2 and left - left // 2 <= most
    return checkpoint(termini + 1, rows + 1, acts)


def nearly_due(left):
    """A batch of messages that are accepted and settled, all but one of 60,000 bytes: so many bytes more, and a checkpoint is due."""
    def message(row, size):
        return admitted(row, 1, b"%d" % row, 0, b"." * size) + accepted(row) + forgotten(row)

    acts, row = other_termini(1), 0
    while (rest := DUE - left - BATCH - len(acts) - len(message(row + 1, 0))) >= 0:
        row += 1
        acts += message(row, min(60_000, rest))
    return acts


def made_room(role, container, name, address):
    """How much room a terminus takes for good: its batch costs BATCH more."""
    return len(made(1, role, "anonymous", container, name, address)) + TERMINUS_RESERVE


if __name__ == "__main__":
    TERMINI = made(1, CONSUMER, "anonymous", "c", "c1", "q.a"), made(2, PRODUCER, "anonymous", "p", "p1", "q.a")
    MESSAGE = admitted(1, 2, b"\1", 1, b"\0\x53\x77\xa1\x01h")
    WHOLE = (*TERMINI, MESSAGE, accepted(1), forgotten(1))
    KEPT = checkpoint(3, 2, b"".join(TERMINI))
    HALF = checkpoint(3, 3, b"".join(TERMINI) + MESSAGE + accepted(1) + admitted(2, 2, b"\2", 0, b"\0\x53\x77\xa1\x01i") + forgotten(2))
    for name, first, second in (
            ("a delivery from its link's termini to its end", side(*WHOLE), IDLE),
            ("the last gate closed", side(*WHOLE)[:-15] + CLOSED + side(*WHOLE)[-14:], IDLE),
            ("the same decision a second time", side(*WHOLE[:4], accepted(1)), IDLE),
            ("a checkpoint behind five batches", side(*WHOLE), side(epoch=2, base=5, kept=KEPT)),
            ("one batch behind it", side(*WHOLE), side(made(3, PRODUCER, "anonymous", "p", "p2", "q.b"), epoch=2, base=5, kept=KEPT)),
            ("the same epoch on both sides", side(), side()),
            ("a checkpoint with a decided row and a forgotten one", IDLE, side(epoch=7, base=9, kept=HALF)),
            ("a new journal", side(), IDLE),
            ("a forget, of no row", side(forgotten(1)), IDLE),
            ("a length past the file", side()[:-1] + b"\1\0\0\0\xff\4", IDLE),
            ("a length of 0", side()[:-1] + b"\1\0\0\0\0\0", IDLE),
            ("a next terminus of 0", side(kept=checkpoint(0, 1)), IDLE),
            ("a base above 2^62", side(base=2**62 + 1), IDLE),
            ("a base of 2^62", side(base=2**62), IDLE),
            ("no gate behind the head", side()[:-1], IDLE),
            ("no open gate", IDLE, IDLE),
    ):
        print(f"# {name}\n{first.hex().upper()} {second.hex().upper()}")
