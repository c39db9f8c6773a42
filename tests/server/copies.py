"""Rows of multicast addresses for tests/server/clients: Qpid Proton's engine as producers and subscribers. How a router copies is its own choice
(docs/design/credit.md); what the frames then say is the standard's (part 2, sections 2.6.7 and 2.6.12)."""
from proton import Message
from proton.reactor import AtMostOnce
from proton.utils import BlockingConnection
from messages import close
from peer import Peer, attached, heard, outcome, quiet, told, until
from served import expect

COPIES = "prefix: all\ndistribution: multicast"


def subscriber(served, address, container, credit, durable=False):
    """A consumer that has granted this much, and the router knows it."""
    peer = Peer(served, container)
    receiver = peer.receiver(address, credit=credit, durable=durable)
    until(attached(receiver), peer)
    heard(peer)
    return peer


def publisher(served, address, container="p", durable=False):
    """A producer that has credit."""
    peer = Peer(served, container)
    sender = peer.sender(address, durable=durable)
    until(lambda: sender.credit > 0, peer)
    return peer, sender


def three_subscribers(served):
    """Each subscriber with credit gets each settled message, in order; one without gets none."""
    some = [subscriber(served, "all.news", f"c{it}", 10) for it in range(3)]
    none = subscriber(served, "all.news", "none", 0)
    producer, sender = publisher(served, "all.news")
    sent = [producer.send(sender, f"message {it}", settled=True) for it in range(10)]
    until(lambda: all(len(it.got["r"]) == 10 for it in some), *some, producer)
    quiet(*some, none, producer)
    for it in some:
        expect(it.bodies(), [f"message {it}" for it in range(10)])
        expect([delivery.settled for delivery, _ in it.got["r"]], [True] * 10)
        expect(len({delivery.tag for delivery, _ in it.got["r"]}), 10)
    expect(none.got["r"], [])
    expect([it.updated for it in sent], [False] * 10)
    close(*some, none, producer)


def unsettled(served):
    """A message that isn't settled is rejected, and nobody gets it."""
    consumer = subscriber(served, "all.unsettled", "c", 10)
    producer, sender = publisher(served, "all.unsettled")
    sent = producer.send(sender, "m")
    until(told(sent), consumer, producer)
    expect((outcome(sent), sent.remote.condition.name), ("rejected", "amqp:not-implemented"))
    quiet(consumer, producer)
    expect(consumer.got["r"], [])
    close(consumer, producer)


def slow_subscriber(served):
    """One that grants little misses what comes beyond it, and holds up nobody; once it grants again, it gets what comes then."""
    slow, quick = subscriber(served, "all.slow", "slow", 3), subscriber(served, "all.slow", "quick", 500)
    producer, sender = publisher(served, "all.slow")
    for it in range(200):
        producer.send(sender, f"{it}", settled=True)
    until(lambda: len(quick.got["r"]) == 200, slow, quick, producer)
    quiet(slow, quick, producer)
    expect(slow.bodies(), ["0", "1", "2"])
    expect(quick.bodies(), [f"{it}" for it in range(200)])
    slow.receiver("all.slow", name="again", credit=1)
    heard(slow)
    producer.send(sender, "late", settled=True)
    until(lambda: slow.got["again"], slow, quick, producer)
    close(slow, quick, producer)


def no_subscriber(served):
    """A producer has credit where nobody subscribes, and its messages are dropped; who subscribes later gets what comes then."""
    producer, sender = publisher(served, "all.alone")
    for it in range(100):
        producer.send(sender, f"{it}", settled=True)
    until(lambda: sender.credit >= 33, producer)
    consumer = subscriber(served, "all.alone", "c", 10)
    producer.send(sender, "late", settled=True)
    until(lambda: consumer.got["r"], consumer, producer)
    expect(consumer.bodies(), ["late"])
    close(consumer, producer)


def durable_subscriber(served):
    """A durable link gets copies like any other; what a durable producer doesn't settle is rejected, and the producer settles it."""
    consumer = subscriber(served, "all.kept", "kept", 10, durable=True)
    producer, sender = publisher(served, "all.kept", container="keeps", durable=True)
    producer.send(sender, "m", settled=True)
    refused = producer.send(sender, "n")
    until(lambda: consumer.got["r"] and refused.updated, consumer, producer)
    expect((outcome(refused), refused.settled), ("rejected", False))
    refused.settle()
    quiet(consumer, producer)
    expect(consumer.bodies(), ["m"])
    close(consumer, producer)


def blocking_subscribers(served):
    """Proton's blocking calls, at most once."""
    one, two = (BlockingConnection(f"amqp://127.0.0.1:{served.port}", timeout=5) for _ in range(2))
    receivers = [one.create_receiver("all.blocking", credit=5), one.create_receiver("all.blocking", credit=5, name="second")]
    # the answer to an attach comes after what came before it was handled, so the grants count
    one.create_receiver("elsewhere", name="after")
    sender = two.create_sender("all.blocking", options=AtMostOnce())
    for it in range(5):
        sender.send(Message(body=it))
    # what is sent settled is written when the connection is waited for
    sender.close()
    for receiver in receivers:
        expect([receiver.receive(timeout=5).body for _ in range(5)], list(range(5)))
    one.close()
    two.close()


ROWS = (
    ("copies for three subscribers", three_subscribers), ("a message that isn't settled, for subscribers", unsettled),
    ("a slow subscriber", slow_subscriber), ("no subscriber", no_subscriber), ("a durable subscriber", durable_subscriber),
    ("blocking subscribers", blocking_subscribers),
)


def copies(rows, served):
    for name, body in ROWS:
        rows.row(name, lambda body=body: body(served))
