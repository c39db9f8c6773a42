"""Rows of durable links for tests/server/clients: Qpid Proton's engine as producers and consumers whose termini keep their unsettled deliveries. Wanted answers are
those of the AMQP standard (part 2, sections 2.6 and 2.7; part 3, sections 3.4 and 3.5) and of docs/design/durable.md; the journal's acts are read by journals.py.
"""
import subprocess
import tempfile
import time

from journals import ACCEPTED, FAILED, RELEASED, Journal, modification, rejection
from peer import ACTIVE, GONE, Peer, asks_durable, attached, heard, outcome, state_of, tag_of, until
from proton import Condition, Delivery, Event, Message, Terminus, symbol
from proton.handlers import MessagingHandler
from proton.reactor import Container, DurableSubscription, SenderOption
from served import PROGRAM, Served, expect

# rows of a producer's link; deliveries of one that are bound to nothing and not settled
MOST_ROWS, MOST_UNBOUND = 64, 1_024
MANY = 300
# messages of a busy pair
BUSY = 50
# messages of 60,000 bytes that pass two checkpoints
LARGE = 40


class End(Peer):
    """A client that notes the links of which a detach came that leaves them open, and which outcome of a delivery came how often."""

    def __init__(self, served, container, **more):
        super().__init__(served, container, **more)
        self.detached, self.updates = [], []

    def on(self, event):
        super().on(event)
        if event.type is Event.LINK_REMOTE_DETACH:
            self.detached.append(event.link.name)
        if event.type is Event.DELIVERY and event.delivery.updated:
            self.updates.append(event.delivery)


class Scene:
    """A program over a journal of its own."""

    def __init__(self, folder):
        self.journal = Journal(f"{folder}/journal")
        subprocess.run([PROGRAM, "format", self.journal.path], check=True, capture_output=True, timeout=60)

    def served(self):
        return Served(words=("--quiet", "--journal", self.journal.path))

    def acts(self):
        """The kinds of the acts that are new in the journal, whose book has these acts applied."""
        return " ".join(act.kind for batch in self.journal.grow() for act in batch)

    def row(self):
        """The row admitted last."""
        return self.journal.rows[len(self.journal.rows)]


class Pair:
    """A consumer that grants this much, and a producer that has it; both links are durable unless said otherwise."""

    def __init__(self, scene, served, address, credit=10, consumer=True, producer=True, rcv=None, **more):
        scene.acts()
        self.scene = scene
        self.c, self.p = End(served, f"c.{address}", **more), End(served, f"p.{address}")
        self.receiver = self.c.receiver(address, credit=credit, rcv=rcv, durable=consumer)
        until(attached(self.receiver), self.c)
        self.sender = self.p.sender(address, durable=producer)
        until(lambda: self.sender.credit > 0 if credit else self.sender.state & ACTIVE, self.c, self.p)
        expect(scene.acts(), " ".join(["Make"] * (consumer + producer)))

    def until(self, test):
        until(test, self.c, self.p)

    def quiet(self):
        """All that both said was handled, and what came of it is here."""
        quiet(self.c, self.p)

    def came(self, count=1):
        """What came last of this many messages."""
        self.until(lambda: len(self.c.got["r"]) == count)
        return self.c.got["r"][-1][0]

    def sent(self, body="m", **more):
        """A message that the consumer has and didn't decide, and how it has it. Its row stands before that."""
        sent = self.p.send(self.sender, body, **more)
        delivery = self.came(len(self.c.got["r"]) + 1)
        expect(self.scene.acts(), "Admit")
        row = self.scene.row()
        expect((row.tag, row.payload), (tag_of(sent), self.c.got["r"][-1][1]))
        expect((tag_of(delivery), delivery.settled), (row.number.to_bytes(8, "big"), False))
        return sent, delivery

    def told(self, sent, settled=False):
        self.until(lambda: sent.remote_state)
        expect(sent.settled, settled)

    def settle(self, *sent):
        """The producer settles, which has no answer."""
        before = len(self.p.updates), len(self.c.updates)
        for it in sent:
            it.settle()
        self.quiet()
        expect((len(self.p.updates), len(self.c.updates)), before)

    def close(self):
        """Both links are closed for good where they are still attached, and the connections."""
        for peer, link in ((self.p, self.sender), (self.c, self.receiver)):
            link.close()
            until(lambda peer=peer, link=link: peer.lost or link.state & GONE or link.name in peer.detached or peer.first.state & GONE, peer)
            peer.close()


def quiet(*peers):
    """What these have said was handled, and what came of it at each of them is here."""
    peers = [it for it in peers if not it.lost]
    for it in peers + peers:
        heard(it, *peers)


def decided(scene, served, address, change, state, wanted):
    """A message that its consumer decides: the journal and the producer have the same outcome; the producer settles."""
    it = Pair(scene, served, address)
    sent, delivery = it.sent()
    change(delivery.local)
    it.c.decide(delivery, state)
    it.told(sent)
    expect((scene.acts(), scene.row().outcome, state_of(sent)), ("Decide", wanted, wanted))
    it.settle(sent)
    expect((scene.acts(), len(it.p.updates)), ("Forget", 1))
    it.close()
    expect(scene.acts(), "Drop Drop")


def attach(scene, served):
    """A durable link's answer has the terminus that was asked for, which never expires."""
    it = Pair(scene, served, "d.attach")
    for ours in (it.sender.remote_target, it.receiver.remote_source):
        expect((ours.address, ours.durability, ours.expiry_policy, ours.timeout), ("d.attach", Terminus.DELIVERIES, Terminus.EXPIRE_NEVER, 0))
    for theirs in (it.sender.remote_source, it.receiver.remote_target):
        expect(theirs.durability, Terminus.NONDURABLE)
    it.close()
    expect(scene.acts(), "Drop Drop")


def accepted(scene, served):
    decided(scene, served, "d.accepted", lambda local: None, Delivery.ACCEPTED, ACCEPTED)


def rejected(scene, served):
    info = {symbol("field"): 7}

    def why(local):
        local.condition = Condition("app:bad", "a text", info)

    # the description is dropped, in the journal and in what is told
    decided(scene, served, "d.rejected", why, Delivery.REJECTED, rejection("app:bad", None, info))


def released(scene, served):
    decided(scene, served, "d.released", lambda local: None, Delivery.RELEASED, RELEASED)


def modified(scene, served):
    notes = {symbol("x-why"): "late"}

    def how(local):
        local.failed, local.undeliverable, local.annotations = False, True, notes

    decided(scene, served, "d.modified", how, Delivery.MODIFIED, modification(False, True, notes))


def long_outcome(scene, served):
    """An outcome of more than 400 bytes is journaled without its annotations, and told as it is journaled."""
    def how(local):
        local.failed, local.undeliverable, local.annotations = True, True, {symbol("x-why"): "late" * 100}

    decided(scene, served, "d.long", how, Delivery.MODIFIED, modification(True, True, None))


def long_condition(scene, served):
    def why(local):
        local.condition = Condition("x" * 129)

    decided(scene, served, "d.condition", why, Delivery.REJECTED, rejection("amqp:internal-error", None, None))


def settled_second(scene, served):
    """A consumer that leaves the settlement to the router: it is told the same, settled, and the producer not settled."""
    it = Pair(scene, served, "d.second")
    sent, delivery = it.sent()
    it.c.decide(delivery, Delivery.ACCEPTED, settle=False)
    it.told(sent)
    it.until(lambda: delivery.settled)
    expect((outcome(delivery), outcome(sent), scene.acts()), ("accepted", "accepted", "Decide"))
    delivery.settle()
    it.settle(sent)
    expect(scene.acts(), "Forget")
    it.close()


def settled_without_outcome(scene, served):
    it = Pair(scene, served, "d.nothing")
    sent, delivery = it.sent()
    delivery.settle()
    it.told(sent)
    expect((outcome(sent), sent.remote.failed), ("modified", True))
    expect((scene.acts(), scene.row().outcome), ("Decide", FAILED))
    it.settle(sent)
    it.close()


def settled_first(scene, served):
    """A producer may settle before it knows the outcome: the row is forgotten, goes on to its consumer, and leaves with its outcome, told to nobody."""
    it = Pair(scene, served, "d.early")
    sent, delivery = it.sent()
    it.settle(sent)
    expect((scene.acts(), len(scene.journal.standing)), ("Forget", 1))
    it.c.decide(delivery, Delivery.ACCEPTED)
    it.quiet()
    expect((scene.acts(), scene.row().outcome, it.p.updates), ("Decide", ACCEPTED, []))
    it.close()


def settled_by_nobody(scene, served):
    """What a producer doesn't settle stays its own: other deliveries go on, and the row stands until the link is closed."""
    it = Pair(scene, served, "d.kept")
    sent, delivery = it.sent("first")
    it.c.decide(delivery, Delivery.ACCEPTED)
    it.told(sent)
    expect(scene.acts(), "Decide")
    again, delivery = it.sent("second")
    it.c.decide(delivery, Delivery.ACCEPTED)
    it.told(again)
    it.settle(again)
    expect((scene.acts(), len(scene.journal.standing), len(it.p.updates)), ("Decide Forget", 1, 2))
    it.close()
    expect((scene.acts(), len(scene.journal.standing)), ("Forget Drop Drop", 0))


def presettled(scene, served):
    """A settled message on durable links is an ordinary delivery: no row, no outcome."""
    it = Pair(scene, served, "d.settled")
    it.p.send(it.sender, "m", settled=True)
    delivery = it.came()
    it.quiet()
    expect((delivery.settled, tag_of(delivery)[:1], len(tag_of(delivery)), scene.acts(), it.p.updates), (True, b"v", 9, "", []))
    it.close()


def ordinary_producer(scene, served):
    """A message of a link that isn't durable has no row, whoever takes it, and its outcome is told settled."""
    it = Pair(scene, served, "d.ordinary", producer=False)
    sent = it.p.send(it.sender, "m")
    delivery = it.came()
    expect((delivery.settled, tag_of(delivery)[:1], len(tag_of(delivery))), (False, b"v", 9))
    it.c.decide(delivery, Delivery.ACCEPTED)
    it.told(sent, settled=True)
    expect((outcome(sent), scene.acts()), ("accepted", ""))
    it.close()


def ordinary_consumer(scene, served):
    it = Pair(scene, served, "d.volatile", consumer=False)
    sent, delivery = it.sent()
    expect(scene.row().consumer, 0)
    it.c.decide(delivery, Delivery.ACCEPTED)
    it.told(sent)
    expect((scene.acts(), scene.row().outcome), ("Decide", ACCEPTED))
    it.settle(sent)
    expect(scene.acts(), "Forget")
    it.close()


def ordinary_consumer_lost(scene, served):
    """What a consumer that isn't durable had and didn't decide failed, where its link ends."""
    for end in (lambda it: it.c.cut(), lambda it: it.receiver.close(), lambda it: it.receiver.detach(), lambda it: it.c.first.close()):
        it = Pair(scene, served, "d.lost", consumer=False)
        sent, _ = it.sent()
        end(it)
        until(lambda: sent.remote_state, it.p, *([] if it.c.lost else [it.c]))
        expect((outcome(sent), sent.remote.failed, sent.settled), ("modified", True, False))
        expect((scene.acts(), scene.row().outcome), ("Decide", FAILED))
        it.close()


def no_credit(scene, served):
    """A message that no consumer has credit for is released: not settled, and no row."""
    it = Pair(scene, served, "d.nobody", credit=5)
    it.receiver.drain(0)
    it.until(lambda: not it.receiver.draining())
    sent = it.p.send(it.sender, "m")
    it.told(sent)
    expect((outcome(sent), scene.acts(), it.c.got["r"]), ("released", "", []))
    it.settle(sent)
    expect(scene.acts(), "")
    it.close()


def suspended(scene, served):
    """A durable consumer's link that ends and isn't closed leaves what it had undecided, and nothing is told of it; what of that is no row failed."""
    for name, end in (("detach", lambda it: it.receiver.detach()), ("end", lambda it: it.c.first.close()),
                      ("close", lambda it: it.c.connection.close()), ("cut", lambda it: it.c.cut())):
        it = Pair(scene, served, f"d.suspended.{name}")
        other = End(served, f"o.{name}")
        theirs = other.sender(f"d.suspended.{name}")
        until(attached(theirs), other)
        # the producer has all the credit, so it goes, and the other gets some
        sent, _ = it.sent()
        it.receiver.flow(100)
        until(lambda: theirs.credit > 0, other, it.c, it.p)
        volatile = other.send(theirs, "v")
        until(lambda: len(it.c.got["r"]) == 2, other, it.c, it.p)
        end(it)
        until(lambda: volatile.settled, other, it.p, *([] if it.c.lost else [it.c]))
        expect((outcome(volatile), volatile.remote.failed), ("modified", True))
        quiet(it.p, other)
        expect((sent.remote_state, scene.acts(), scene.row().outcome), (0, "", None))
        other.close()
        it.p.close()
        it.c.close()


def closed(scene, served):
    """A durable consumer's link that is closed for good decides what it had as failed, and its terminus goes."""
    it = Pair(scene, served, "d.closed")
    sent = [it.sent(str(number))[0] for number in range(3)]
    it.receiver.close()
    it.until(lambda: it.receiver.state & GONE and all(one.remote_state for one in sent))
    expect([(outcome(one), one.remote.failed, one.settled) for one in sent], [("modified", True, False)] * 3)
    expect(scene.acts(), "Decide Decide Decide Drop")
    it.settle(*sent)
    expect(scene.acts(), "Forget Forget Forget")
    it.close()


def producer_closed(scene, served):
    """A producer's link that is closed for good forgets its rows, which go on to their consumer."""
    it = Pair(scene, served, "d.gone")
    _, delivery = it.sent()
    it.sender.close()
    it.until(lambda: it.sender.state & GONE)
    expect(scene.acts(), "Forget Drop")
    it.c.decide(delivery, Delivery.ACCEPTED, settle=False)
    it.until(lambda: delivery.settled)
    expect((scene.acts(), scene.row().outcome, len(scene.journal.standing) == 0 or scene.row().number in scene.journal.standing), ("Decide", ACCEPTED, False))
    it.close()


def producer_lost(scene, served):
    """A producer's link that ends otherwise keeps its rows; they are decided, and wait for it."""
    for name, end in (("detach", lambda it: it.sender.detach()), ("cut", lambda it: it.p.cut())):
        it = Pair(scene, served, f"d.away.{name}")
        _, delivery = it.sent()
        end(it)
        quiet(it.c, it.p)
        expect(scene.acts(), "")
        it.c.decide(delivery, Delivery.ACCEPTED, settle=False)
        until(lambda: delivery.settled, it.c)
        expect((scene.acts(), scene.row().outcome, scene.row().number in scene.journal.standing), ("Decide", ACCEPTED, True))
        it.close()


def same_tag(scene, served):
    """A tag that an unsettled delivery of the link has ends the link, which is left open; one that was settled may come again."""
    def released_one(it):
        it.receiver.drain(0)
        it.until(lambda: not it.receiver.draining())
        sent = it.p.send(it.sender, "m", tag="twice")
        it.told(sent)
        it.receiver.drain_mode = False
        it.receiver.flow(5)
        it.quiet()

    def told_one(it):
        sent, delivery = it.sent(tag="twice")
        it.c.decide(delivery, Delivery.ACCEPTED)
        it.told(sent)

    for name, before in (("undecided", lambda it: it.sent(tag="twice")), ("told", told_one), ("released", released_one)):
        it = Pair(scene, served, f"d.twice.{name}")
        before(it)
        scene.acts()
        count = len(it.c.got["r"])
        it.p.send(it.sender, "m", tag="twice")
        it.until(lambda: it.p.detached)
        expect((it.sender.remote_condition.name, bool(it.sender.state & GONE)), ("amqp:not-allowed", False))
        it.quiet()
        expect((scene.acts(), len(it.c.got["r"])), ("", count))
        it.p.close()
        it.close()
    it = Pair(scene, served, "d.again")
    for _ in range(3):
        sent, delivery = it.sent(tag="again")
        it.c.decide(delivery, Delivery.ACCEPTED)
        it.told(sent)
        it.settle(sent)
        expect(scene.acts(), "Decide Forget")
    it.close()


def taken_again(scene, served):
    """A durable link is stolen by another with its key, durable or not, and taken up again once it was left, which writes nothing. One of another address isn't
    allowed. One that was closed is made anew."""
    it = Pair(scene, served, "d.key")
    thief = End(served, "c.d.key")
    other = thief.receiver("d.key.other", durable=True)
    until(lambda: other.state & GONE, thief)
    expect((other.remote_condition.name, scene.acts()), ("amqp:not-allowed", ""))
    other.close()
    thief.close()
    thief = End(served, "c.d.key")
    theirs = thief.receiver("d.key", durable=True)
    until(lambda: theirs.state & ACTIVE and it.receiver.remote_condition, thief, it.c)
    expect((it.receiver.remote_condition.name, theirs.remote_source.durability, scene.acts()), ("amqp:link:stolen", Terminus.DELIVERIES, ""))
    theirs.detach()
    until(lambda: thief.detached, thief)
    thief.close()
    back = End(served, "c.d.key")
    again = back.receiver("d.key", durable=True)
    until(attached(again), back)
    volatile = End(served, "c.d.key")
    last = volatile.receiver("d.key")
    until(lambda: last.state & ACTIVE and again.remote_condition, volatile, back)
    expect((again.remote_condition.name, last.remote_source.durability, scene.acts()), ("amqp:link:stolen", Terminus.NONDURABLE, ""))
    for peer in (back, volatile):
        peer.close()
    it.sender.close()
    it.until(lambda: it.sender.state & GONE)
    it.sender.free()
    expect(scene.acts(), "Drop")
    it.sender = it.p.sender("d.key", durable=True)
    it.until(attached(it.sender))
    expect(scene.acts(), "Make")
    it.p.close()
    it.c.close()


def long_messages(scene, served):
    """A message of 60,000 bytes, in frames of 16,384 in and of 512 out, is one row."""
    it = Pair(scene, served, "d.large", max_frame=512)
    body = Message(body=bytes(range(256)) * 234).encode()
    sent, delivery = it.sent(body)
    expect(it.c.got["r"][0][1] == body, True)
    it.c.decide(delivery, Delivery.ACCEPTED)
    it.told(sent)
    it.settle(sent)
    expect(scene.acts(), "Decide Forget")
    it.close()


def checkpoints(scene, served):
    """Large messages, each accepted and settled, pass two checkpoints: the book is the same behind each, and the numbers of rows go on."""
    it = Pair(scene, served, "d.checkpoints", credit=LARGE)
    before, row = scene.journal.checkpoints, scene.journal.next_row
    for number in range(LARGE):
        sent, delivery = it.sent(number.to_bytes(2, "big") * 30_000)
        it.c.decide(delivery, Delivery.ACCEPTED)
        it.told(sent)
        it.settle(sent)
        expect((scene.acts(), scene.row().number), ("Decide Forget", row + number))
    made = scene.journal.checkpoints - before
    expect(made >= 2, True)
    it.close()
    return f"{made} checkpoints"


def sixty_four(it, scene, settled):
    """A producer's link has as many rows as it may: decided and not settled, or settled and not decided."""
    sent = []
    while len(sent) < MOST_ROWS:
        it.until(lambda: it.sender.credit > 0)
        sent.append(it.p.send(it.sender, len(sent)))
        delivery = it.came(len(sent))
        if settled:
            sent[-1].settle()
        else:
            it.c.decide(delivery, Delivery.ACCEPTED)
            it.told(sent[-1])
    it.quiet()
    kinds = scene.acts().split()
    expect(({act: kinds.count(act) for act in kinds}, len(scene.journal.sent[scene.row().producer])),
           ({"Admit": MOST_ROWS, "Forget" if settled else "Decide": MOST_ROWS}, MOST_ROWS))
    return sent


def most_rows(scene, served):
    """A link has 64 rows at most, decided ones too: no credit goes beyond that until one is forgotten."""
    it = Pair(scene, served, "d.rows", credit=200)
    sent = sixty_four(it, scene, settled=False)
    expect(it.sender.credit, 0)
    it.settle(*sent[:5])
    it.until(lambda: it.sender.credit > 0)
    expect(scene.acts(), " ".join(["Forget"] * 5))
    it.sent("again")
    it.close()


def most_rows_settled(scene, served):
    """Those that are forgotten first count until they are decided: what comes beyond is released, or there is no credit for it."""
    it = Pair(scene, served, "d.rows.settled", credit=200)
    sixty_four(it, scene, settled=True)
    credit = it.sender.credit
    if credit > 0:
        more = it.p.send(it.sender, "more")
        it.told(more)
        expect((outcome(more), len(it.c.got["r"]), scene.acts()), ("released", MOST_ROWS, ""))
    for delivery, _ in it.c.got["r"]:
        it.c.decide(delivery, Delivery.ACCEPTED)
    it.quiet()
    expect(scene.acts(), " ".join(["Decide"] * MOST_ROWS))
    it.until(lambda: it.sender.credit > 0)
    it.sent("again")
    it.close()
    return f"the producer has {credit} credits beside 64 rows"


def most_unbound(scene, served):
    """A link has at most 1,024 deliveries that are bound to nothing and not settled: one more ends it, and leaves it open."""
    it = Pair(scene, served, "d.unbound", credit=MOST_ROWS)
    sent = []
    while len(sent) < MOST_UNBOUND:
        it.receiver.drain(0)
        it.until(lambda: not it.receiver.draining())
        for _ in range(min(it.sender.credit, MOST_UNBOUND - len(sent))):
            sent.append(it.p.send(it.sender, "m"))
        it.until(lambda: all(one.remote_state for one in sent[-MOST_ROWS:]))
        it.receiver.drain_mode = False
        it.receiver.flow(MOST_ROWS)
        it.until(lambda: it.sender.credit > 0)
    expect(({outcome(one) for one in sent}, scene.acts(), it.p.detached, it.c.got["r"]), ({"released"}, "", [], []))
    # a message that becomes a row isn't one of them
    it.sent("row")
    it.receiver.drain(0)
    it.until(lambda: not it.receiver.draining())
    it.p.send(it.sender, "m")
    it.until(lambda: it.p.detached)
    expect((it.sender.remote_condition.name, bool(it.sender.state & GONE), scene.acts()), ("amqp:resource-limit-exceeded", False, ""))
    it.p.close()
    it.close()


def many(scene, served):
    """Messages as fast as credit goes, in order, each settled as soon as it is told: in the end no row stands."""
    it = Pair(scene, served, "d.many", credit=50)
    standing, sent, taken, told = len(scene.journal.standing), [], 0, []

    def go_on():
        nonlocal taken
        while len(sent) < MANY and it.sender.credit > 0:
            sent.append(it.p.send(it.sender, len(sent)))
        for delivery, _ in it.c.got["r"][taken:]:
            it.c.decide(delivery, Delivery.ACCEPTED)
            taken += 1
        if it.receiver.credit < 25:
            it.receiver.flow(50 - it.receiver.credit)
        for one in it.p.updates[len(told):]:
            told.append(outcome(one))
            one.settle()
        return len(told) == MANY

    until(go_on, it.c, it.p, seconds=60)
    it.quiet()
    expect((it.c.bodies(), told), (list(range(MANY)), ["accepted"] * MANY))
    acts = scene.acts().split()
    expect(([acts.count(kind) for kind in ("Admit", "Decide", "Forget")], len(acts), len(scene.journal.standing)), ([MANY] * 3, 3 * MANY, standing))
    it.close()


def told_soon(scene, served):
    """A pair that sends one message and stops is told within a second: alone, and beside four pairs that have 50 messages each under way."""
    alone, others = Pair(scene, served, "d.soon"), [Pair(scene, served, f"d.busy{n}", credit=BUSY) for n in range(4)]
    for beside in ([], others):
        pairs = [alone, *beside]
        for it in beside:
            for n in range(BUSY):
                it.p.send(it.sender, n)
        sent, began, taken = alone.p.send(alone.sender, "m"), time.monotonic(), {it: len(it.c.got["r"]) for it in pairs}
        taken.update({it: 0 for it in beside})

        def told():
            for it in pairs:
                for delivery, _ in it.c.got["r"][taken[it]:]:
                    it.c.decide(delivery, Delivery.ACCEPTED)
                    taken[it] += 1
            return sent.remote_state

        until(told, *(peer for it in pairs for peer in (it.c, it.p)))
        expect(time.monotonic() - began < 1, True)
        until(lambda: told() and all(len(it.p.updates) == BUSY for it in beside), *(peer for it in pairs for peer in (it.c, it.p)))
        for it in pairs:
            it.settle(*(one for one in it.p.updates if not one.settled))
    for it in [alone, *others]:
        it.close()
    scene.acts()


class KeepsTarget(SenderOption):
    """A sender whose target keeps what is unsettled."""

    def apply(self, sender):
        asks_durable(sender.target)


class Handler(MessagingHandler):
    """What a program of Proton's guide does: it sends once it may, and its messages are accepted as they come. It settles what it is told: by itself Proton
    settles only what the router settled."""

    def __init__(self, url, count):
        super().__init__(prefetch=10)
        self.url, self.count, self.sent, self.bodies, self.accepted, self.settled = url, count, 0, [], 0, 0

    def on_start(self, event):
        connection = event.container.connect(self.url, sasl_enabled=False)
        event.container.create_receiver(connection, "d.handler", name="r", options=DurableSubscription())
        event.container.create_sender(connection, "d.handler", name="s", options=KeepsTarget())

    def on_sendable(self, event):
        while self.sent < self.count and event.sender.credit > 0:
            event.sender.send(Message(body=self.sent))
            self.sent += 1

    def on_message(self, event):
        self.bodies.append(event.message.body)

    def on_accepted(self, event):
        self.accepted += 1
        event.delivery.settle()

    def on_settled(self, event):
        self.settled += event.link.is_sender


def handler(scene, served):
    """Proton's handlers: a durable subscription, and a sender whose outcomes the router never settles itself."""
    scene.acts()
    it = Handler(f"amqp://127.0.0.1:{served.port}", 40)
    container, end = Container(it), time.monotonic() + 20
    container.timeout = 0.1
    container.start()
    while it.accepted < it.count and time.monotonic() < end:
        container.process()
    for _ in range(3):
        container.process()
    expect((it.bodies, it.accepted, it.settled), (list(range(40)), 40, 0))
    container.stop()
    container.process()
    acts = scene.acts().split()
    expect({kind: acts.count(kind) for kind in acts}, {"Make": 2, "Admit": 40, "Decide": 40, "Forget": 40})


def opened_again(scene):
    """A program that is killed with rows undecided: the next one decides those of consumers that aren't durable, first of all, and leaves the others."""
    with scene.served() as served:
        one, other = Pair(scene, served, "d.kept.row"), Pair(scene, served, "d.failed.row", consumer=False)
        kept, failed, decided_row = one.sent(), other.sent(), other.sent()
        numbers = [int.from_bytes(tag_of(it), "big") for _, it in (kept, failed, decided_row)]
        other.c.decide(decided_row[1], Delivery.ACCEPTED)
        other.told(decided_row[0])
        expect(scene.acts(), "Decide")
        served.process.kill()
        served.wait()
        one.c.cut(), one.p.cut(), other.c.cut(), other.p.cut()
    old = len(scene.journal.standing)
    with scene.served() as served:
        peer = End(served, "late")
        until(lambda: peer.connection.state & ACTIVE, peer)
        acts = scene.acts().split()
        rows = [scene.journal.rows[it] for it in numbers]
        expect((set(acts), [it.outcome for it in rows]), ({"Decide"}, [None, FAILED, ACCEPTED]))
        expect((len(scene.journal.standing), [it for it in scene.journal.undecided() if not it.consumer]), (old, []))
        peer.close()


ROWS = (
    ("links attached and closed", attach), ("accepted", accepted), ("rejected", rejected), ("released", released), ("modified", modified),
    ("an outcome that is too long", long_outcome), ("a condition that is too long", long_condition),
    ("accepted by a receiver that settles second", settled_second), ("settled with no outcome", settled_without_outcome),
    ("settled by the producer first", settled_first), ("settled by nobody", settled_by_nobody), ("a settled message", presettled),
    ("a producer that isn't durable", ordinary_producer), ("a consumer that isn't durable", ordinary_consumer),
    ("a consumer that isn't durable is lost", ordinary_consumer_lost), ("a message that nobody has credit for", no_credit),
    ("a consumer's link is left", suspended), ("a consumer's link is closed", closed), ("a producer's link is closed", producer_closed),
    ("a producer's link is left", producer_lost), ("a tag that is used twice", same_tag), ("a link's key is used again", taken_again),
    ("60,000 bytes", long_messages), (f"{LARGE} of 60,000 bytes, and two checkpoints", checkpoints),
    ("64 rows", most_rows), ("64 rows that are settled first", most_rows_settled),
    ("1,024 released ones, and one more", most_unbound),
    (f"{MANY} messages in order", many), ("one message is told soon", told_soon), ("Proton's handlers", handler),
)


def durable_messages(rows):
    with tempfile.TemporaryDirectory() as folder:
        scene = Scene(folder)
        with scene.served() as served:
            for name, body in ROWS:
                rows.row(f"durable: {name}", lambda body=body: body(scene, served))
        rows.row("durable: a program that is killed", lambda: opened_again(scene))
