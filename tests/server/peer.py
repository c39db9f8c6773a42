"""A client on Qpid Proton's engine, driven step by step: no thread, and nothing is accepted or granted that a check doesn't ask for."""
import select
import time

import proton
from journals import ACCEPTED, RELEASED, modification, rejection
from proton import Connection, Collector, Delivery, Event, Message, Terminus, Transport

STATES = {Delivery.ACCEPTED: ACCEPTED, Delivery.RELEASED: RELEASED}
ACTIVE = proton.Endpoint.REMOTE_ACTIVE
GONE = proton.Endpoint.REMOTE_CLOSED


class Peer:
    """A connection to the program; what came on a receiver is in `got`, by the link's name, as (delivery, bytes)."""

    def __init__(self, served, container, listener=0, max_frame=0, user=None, password=None):
        self.socket = served.connect(port=served.ports[listener])
        self.socket.setblocking(False)
        self.connection, self.transport, self.collector = Connection(), Transport(), Collector()
        self.connection.container = container
        self.got, self.parts, self.aborted, self.lost = {}, {}, 0, False
        # what changes what is written and hears what comes, if anything does (maps.py), and what of that is still to be written
        self.maps, self.unwritten = None, b""
        if user:
            self.connection.user, self.connection.password = user, password
            self.transport.sasl().allowed_mechs("PLAIN")
            self.transport.sasl().allow_insecure_mechs = True
        if max_frame:
            self.transport.max_frame_size = max_frame
        self.connection.collect(self.collector)
        self.transport.bind(self.connection)
        self.connection.open()
        self.first = self.session()

    def session(self, capacity=0):
        session = self.connection.session()
        if capacity:
            session.incoming_capacity = capacity
        session.open()
        return session

    def receiver(self, address, name="r", credit=0, session=None, rcv=None, durable=False):
        link = (session or self.first).receiver(name)
        link.source.address = address
        if durable:
            asks_durable(link.source)
        if rcv is not None:
            link.rcv_settle_mode = rcv
        link.open()
        self.got[name] = []
        if credit:
            link.flow(credit)
        return link

    def sender(self, address, name="s", session=None, mode=None, durable=False):
        link = (session or self.first).sender(name)
        link.target.address = address
        if durable:
            asks_durable(link.target)
        if mode is not None:
            link.snd_settle_mode = mode
        link.open()
        return link

    def send(self, link, body, settled=False, tag=None):
        """Sends a message, of bytes as they are or of a body, and gives its delivery."""
        delivery = link.delivery(tag or link.delivery_tag())
        link.stream(body if isinstance(body, bytes) else Message(body=body).encode())
        link.advance()
        if settled:
            delivery.settle()
        return delivery

    def step(self):
        """Writes what can be written, reads what has come, and takes the events."""
        try:
            self.write()
        except OSError:
            self.lose()
        while not self.lost and (capacity := self.transport.capacity()) > 0:
            try:
                data = self.socket.recv(capacity)
            except BlockingIOError:
                break
            except OSError:
                data = b""
            if not data:
                self.lose()
                break
            if self.maps:
                self.maps.hear(data)
            self.transport.push(data)
        while event := self.collector.peek():
            self.on(event)
            self.collector.pop()
        try:
            self.write()
        except OSError:
            pass

    def on(self, event):
        if event.type is Event.DELIVERY:
            self.take(event.delivery)

    def write(self):
        """Writes what can be written of what the engine has."""
        try:
            while not self.lost and (pending := self.transport.pending()) > 0:
                if not self.maps:
                    self.transport.pop(self.socket.send(self.transport.peek(pending)))
                    continue
                self.unwritten += self.maps.feed(self.transport.peek(pending))
                self.transport.pop(pending)
            while not self.lost and self.unwritten:
                self.unwritten = self.unwritten[self.socket.send(self.unwritten):]
        except BlockingIOError:
            pass

    def write_on(self):
        """The same where the program may be gone: then the next step finds that."""
        try:
            self.write()
        except OSError:
            pass

    def lose(self):
        self.lost = True
        self.transport.close_tail()

    def take(self, delivery):
        """Takes what came of a message, so that its session's window opens again; at its end it is in `got`."""
        link = delivery.link
        if not link.is_receiver or not delivery.readable:
            return
        if delivery.aborted:
            self.aborted += 1
            self.parts.pop(link.name, None)
            delivery.settle()
            return
        self.parts[link.name] = self.parts.get(link.name, b"") + (link.recv(delivery.pending) or b"")
        if not delivery.partial:
            link.advance()
            self.came(link, delivery, self.parts.pop(link.name))

    def came(self, link, delivery, data):
        self.got[link.name].append((delivery, data))

    def bodies(self, name="r"):
        return [body_of(data) for _, data in self.got[name]]

    def decide(self, delivery, state, settle=True):
        delivery.update(state)
        if settle:
            delivery.settle()

    def cut(self):
        """Vanishes without a close."""
        self.lost = True
        self.socket.close()

    def close(self):
        if not self.lost:
            self.connection.close()
            until(lambda: self.connection.state & GONE or self.lost, self)
        self.cut()


def asks_durable(terminus):
    """Asks the router to keep what is unsettled at this terminus (part 3, section 3.5.5)."""
    terminus.durability, terminus.expiry_policy = Terminus.DELIVERIES, Terminus.EXPIRE_NEVER


def tag_of(delivery):
    """A delivery's tag, which Proton gives as a text."""
    return delivery.tag.encode("utf-8", "surrogateescape")


def state_of(delivery):
    """The outcome that the peer told of a delivery, as journals.py has outcomes."""
    state, remote = delivery.remote_state, delivery.remote
    if state == Delivery.REJECTED:
        why = remote.condition
        return rejection(why and why.name, why and why.description, why and why.info)
    if state == Delivery.MODIFIED:
        return modification(remote.failed, remote.undeliverable, remote.annotations)
    return STATES.get(state) or (str(state),)


def body_of(data):
    message = Message()
    message.decode(data)
    return message.body


def until(test, *peers, seconds=10):
    """Drives the peers until the test holds."""
    end = time.monotonic() + seconds
    while True:
        for peer in peers:
            peer.step()
        if test():
            return
        if time.monotonic() > end:
            raise AssertionError(f"it didn't come within {seconds} s")
        select.select([it.socket for it in peers if not it.lost], [], [], 0.01)


def quiet(*peers, seconds=0.3):
    """Drives the peers for this long, for what should not come."""
    end = time.monotonic() + seconds
    while time.monotonic() < end:
        for peer in peers:
            peer.step()
        time.sleep(0.005)


def heard(peer, *peers):
    """All that the peer has sent was handled: what it begins behind that is answered."""
    peer.step()
    session = peer.session()
    until(lambda: session.state & ACTIVE, peer, *peers)
    session.close()
    until(lambda: session.state & GONE, peer, *peers)


def attached(link):
    return lambda: link.state & ACTIVE


def told(delivery):
    """An outcome has come, settled."""
    return lambda: delivery.settled and delivery.remote_state


def outcome(delivery):
    names = {Delivery.ACCEPTED: "accepted", Delivery.REJECTED: "rejected", Delivery.RELEASED: "released", Delivery.MODIFIED: "modified"}
    return names.get(delivery.remote_state, str(delivery.remote_state))


def pair(served, address, credit=10, names=("c", "p"), **more):
    """A consumer that grants this much, and a producer that has it."""
    consumer, producer = Peer(served, names[0], **more), Peer(served, names[1])
    receiver = consumer.receiver(address, credit=credit)
    until(attached(receiver), consumer)
    # the answer to an attach comes after the answers to what came before it: so the grant was handled
    sender = producer.sender(address)
    until(lambda: sender.credit > 0 if credit else sender.state & ACTIVE, consumer, producer)
    return consumer, receiver, producer, sender
