"""Rows of durable links for tests/server/clients: limits of the book and of the journal, each over a journal that comes near it, and deliveries that end early.
Wanted answers are those of docs/design/durable.md, docs/design/book.md and docs/design/journal.md."""
import tempfile

import journals
from durable_messages import End, Pair, Scene, quiet
from journal_bytes import BATCH, LINK_ROWS, ROW_RESERVE, admitted, checkpoint, filled, made_room, other_termini, read, write
from journals import ACCEPTED, FAILED
from peer import ACTIVE, GONE, attached, outcome, until
from proton import Delivery, Terminus
from served import Served, expect

MOST_TERMINI, MOST_ROWS = 1_024, 4_096


class Begun(Scene):
    """A journal of these batches behind a checkpoint, over which a program is served."""

    def __init__(self, folder, *batches, kept):
        self.journal = journals.Journal(f"{folder}/journal")
        write(self.journal.path, *batches, kept=kept)
        self.journal.grow(ordered=False)


def over(*batches, kept=checkpoint()):
    """A row that has a program over a journal of these batches behind a checkpoint."""
    def row(body):
        def run():
            with tempfile.TemporaryDirectory() as folder:
                scene = Begun(folder, *batches, kept=kept)
                with scene.served() as served:
                    return body(scene, served)
        return run
    return row


@over(other_termini(MOST_TERMINI - 1))
def termini(scene, served):
    peer = End(served, "c")
    link = peer.receiver("d.last", "last", durable=True)
    until(attached(link), peer)
    expect((link.remote_source.durability, scene.acts()), (Terminus.DELIVERIES, "Make"))
    late = peer.receiver("d.late", "late", durable=True)
    until(lambda: late.state & GONE, peer)
    expect((late.remote_condition.name, scene.acts()), ("amqp:resource-limit-exceeded", ""))
    late.close()
    link.close()
    until(lambda: link.state & GONE, peer)
    again = peer.receiver("d.late", "again", durable=True)
    until(lambda: again.state & ACTIVE, peer)
    expect((again.remote_source.durability, scene.acts()), (Terminus.DELIVERIES, "Drop Make"))
    peer.close()


def other_rows(count):
    """Rows of other links, whose consumers weren't durable: a program that begins with them decides them."""
    return b"".join(admitted(number + 1, number // LINK_ROWS + 1, b"%d" % number, 0, b"x") for number in range(count))


@over(other_termini(LINK_ROWS), other_rows(MOST_ROWS - 1))
def rows(scene, served):
    """The book has 4,096 rows at most: the message behind that is released, until one is settled."""
    peer = End(served, "early")
    until(lambda: peer.connection.state & ACTIVE, peer)
    expect(len(scene.journal.undecided()), MOST_ROWS - 1)
    expect((scene.acts().split() == ["Decide"] * (MOST_ROWS - 1), all(it.outcome == FAILED for it in scene.journal.rows.values())), (True, True))
    peer.close()
    it = Pair(scene, served, "d.full")
    sent, delivery = it.sent()
    expect(len(scene.journal.standing), MOST_ROWS)
    for settled in (False, True):
        more = it.p.send(it.sender, "more", settled=settled)
        if settled:
            # a settled message has no row
            it.came(2)
        else:
            it.told(more)
            expect((outcome(more), scene.acts()), ("released", ""))
            more.settle()
    it.c.decide(delivery, Delivery.ACCEPTED)
    it.told(sent)
    it.settle(sent)
    expect((scene.acts(), len(scene.journal.standing)), ("Decide Forget", MOST_ROWS - 1))
    it.sent("again")
    it.close()


def full():
    """What begins has to fit, with what it will need: to the byte. What ends has always room."""
    address, body = "d.room", b"m" * 100
    row = BATCH + len(admitted(1, 1, b"1", 1, body)) + ROW_RESERVE
    ends = made_room(1, f"c.{address}", "r", address) + made_room(0, f"p.{address}", "s", address)
    link = BATCH + made_room(1, "c", "r", "a")
    over(kept=filled(ends + row))(lambda scene, served: fits(scene, served, address, body))()
    over(kept=filled(ends + row - 1))(lambda scene, served: fits_not(scene, served, address, body))()
    over(kept=filled(link))(lambda scene, served: links_fit(scene, served, True))()
    over(kept=filled(link - 1))(lambda scene, served: links_fit(scene, served, False))()


def fits(scene, served, address, body):
    it = Pair(scene, served, address)
    sent, delivery = it.sent(body, tag="1")
    it.c.decide(delivery, Delivery.ACCEPTED)
    it.told(sent)
    it.settle(sent)
    expect((scene.acts(), scene.row().outcome), ("Decide Forget", ACCEPTED))
    it.close()
    expect(scene.acts(), "Drop Drop")


def fits_not(scene, served, address, body):
    it = Pair(scene, served, address)
    before = read(scene.journal.path)
    more = it.p.send(it.sender, body, tag="1")
    it.told(more)
    expect((outcome(more), scene.acts(), it.c.got["r"]), ("released", "", []))
    expect(read(scene.journal.path) == before, True)
    it.settle(more)
    sent, delivery = it.sent(body[1:], tag="1")
    it.c.cut()
    it.close()
    expect(scene.acts(), "Forget Drop")
    expect((sent.remote_state, delivery.settled), (0, False))


def links_fit(scene, served, wanted):
    peer = End(served, "c")
    link = peer.receiver("a", "r", durable=True)
    until(lambda: link.state & (GONE if not wanted else ACTIVE), peer)
    if wanted:
        expect((link.remote_source.durability, scene.acts()), (Terminus.DELIVERIES, "Make"))
    else:
        expect((link.remote_condition.name, scene.acts()), ("amqp:resource-limit-exceeded", ""))
    # another has no room, and one that isn't durable needs none
    other, volatile = peer.receiver("a" * 10, "other", durable=True), peer.receiver("a", "volatile")
    until(lambda: other.state & GONE and volatile.state & ACTIVE, peer)
    expect((other.remote_condition.name, scene.acts()), ("amqp:resource-limit-exceeded", ""))
    peer.close()


def stolen():
    """A durable link takes the key of one that isn't durable: what that had undecided failed, in the batch that makes the terminus."""
    with tempfile.TemporaryDirectory() as folder:
        scene = Scene(folder)
        with scene.served() as served:
            it = Pair(scene, served, "d.stolen", consumer=False)
            sent = [it.sent(str(number))[0] for number in range(2)]
            thief = End(served, "c.d.stolen")
            theirs = thief.receiver("d.stolen", durable=True)
            until(lambda: theirs.state & ACTIVE and it.receiver.remote_condition and all(one.remote_state for one in sent), thief, it.c, it.p)
            expect((it.receiver.remote_condition.name, theirs.remote_source.durability), ("amqp:link:stolen", Terminus.DELIVERIES))
            expect([(outcome(one), one.remote.failed, one.settled) for one in sent], [("modified", True, False)] * 2)
            place = scene.journal.place
            expect((scene.acts(), {line.split()[0] for line in scene.journal.acts[-3:]}), ("Decide Decide Make", {str(place)}))
            it.c.close()
            thief.close()
            it.p.close()


def received():
    """A consumer that tells how far it is (`received`, which is no outcome) decides nothing by it; one that settles so has failed."""
    with tempfile.TemporaryDirectory() as folder:
        scene = Scene(folder)
        with scene.served() as served:
            it = Pair(scene, served, "d.received")
            sent, delivery = it.sent()
            delivery.update(Delivery.RECEIVED)
            it.quiet()
            expect((scene.acts(), sent.remote_state, delivery.settled), ("", 0, False))
            delivery.settle()
            it.told(sent)
            expect((outcome(sent), sent.remote.failed, scene.acts(), scene.row().outcome), ("modified", True, "Decide", FAILED))
            it.close()


def in_the_middle():
    """A message that isn't whole has no row: neither one that its sender aborts, nor one whose link ends, nor one that is settled before its end."""
    with tempfile.TemporaryDirectory() as folder:
        scene = Scene(folder)
        with scene.served() as served:
            for name in ("aborted", "detached", "cut", "settled"):
                it = Pair(scene, served, f"d.middle.{name}")
                delivery = it.sender.delivery("t")
                it.sender.stream(b"x" * 40_000)
                it.until(lambda: it.sender.queued == 0 or it.p.transport.pending() == 0)
                if name == "aborted":
                    delivery.abort()
                elif name == "detached":
                    it.sender.detach()
                elif name == "cut":
                    it.p.cut()
                else:
                    # Proton ends the message with that
                    delivery.settle()
                quiet(it.p, it.c)
                expect((scene.acts(), it.c.aborted), ("", 0))
                expect([(got.settled, len(data)) for got, data in it.c.got["r"]], [(True, 40_000)] * (name == "settled"))
                if name == "aborted":
                    it.sent(tag="t")
                it.close()


ROWS = (("1,024 termini", termini), ("4,096 rows", rows), ("a journal that is full", full), ("a link that isn't durable is stolen", stolen),
        ("received, which is no outcome", received), ("a message that isn't whole", in_the_middle))


def durable_limits(rows_of_checks):
    for name, body in ROWS:
        rows_of_checks.row(f"durable: {name}", body)
