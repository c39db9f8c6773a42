"""Rows of messages with uamqp (Debian's python3-uamqp), whose clients use Azure's C library. They speak only TLS, so a proxy with a
certificate of its own is in front of the program. Wanted answers are those of uamqp's documents.

Its sender counts 10,000 credits as soon as it is attached, and again whenever it has used up what it was granted, whatever the receiver
says; the router detaches such a link with transfer-limit-exceeded (part 2, section 2.6.7). So here the receiver comes first, and
grants more than is sent."""
import os
import socket
import ssl
import subprocess
import tempfile
import threading
import time

from peer import Peer, attached, until
from proton import Delivery, symbol
from served import expect

try:
    import uamqp
    from uamqp import authentication, constants, errors
except ImportError:
    uamqp = None


class Tls:
    """Takes TLS on a port of its own, and passes on what comes to the program."""

    def __init__(self, to):
        self.folder = tempfile.TemporaryDirectory()
        self.certificate, key = f"{self.folder.name}/certificate", f"{self.folder.name}/key"
        subprocess.run(["openssl", "req", "-x509", "-newkey", "rsa:2048", "-nodes", "-keyout", key, "-out", self.certificate, "-days", "2",
                        "-subj", "/CN=localhost", "-addext", "subjectAltName=DNS:localhost"], check=True, capture_output=True)
        self.context = ssl.SSLContext(ssl.PROTOCOL_TLS_SERVER)
        self.context.load_cert_chain(self.certificate, key)
        self.listener = socket.create_server(("127.0.0.1", 0))
        self.port, self.to = self.listener.getsockname()[1], to
        threading.Thread(target=self.accept, daemon=True).start()

    def accept(self):
        while True:
            try:
                s, _ = self.listener.accept()
                s = self.context.wrap_socket(s, server_side=True)
                other = socket.create_connection(("127.0.0.1", self.to))
            except OSError:
                if self.listener.fileno() < 0:
                    return
                continue
            for one, two in ((s, other), (other, s)):
                threading.Thread(target=hand_on, args=(one, two), daemon=True).start()

    def words(self):
        return {"auth": authentication.SASLAnonymous("localhost", port=self.port, verify=self.certificate)}

    def url(self, address):
        return f"amqps://localhost:{self.port}/{address}"

    @staticmethod
    def address(address):
        """What uamqp attaches to: a URL as well, without the port."""
        return f"amqps://localhost/{address}"

    def close(self):
        self.listener.close()
        self.folder.cleanup()


def hand_on(one, two):
    try:
        while data := one.recv(65_536):
            two.sendall(data)
    except OSError:
        pass
    for it in (one, two):
        try:
            it.shutdown(socket.SHUT_RDWR)
        except OSError:
            pass


def no_retries():
    return errors.ErrorPolicy(max_retries=0, on_error=lambda _: errors.ErrorAction(retry=False))


def sent(tls, address, bodies, **more):
    """What uamqp's sender says of each message."""
    client = uamqp.SendClient(tls.url(address), error_policy=no_retries(), **tls.words(), **more)
    try:
        for it in bodies:
            client.queue_message(uamqp.Message(body=it))
        return [it.name for it in client.send_all_messages()]
    finally:
        client.close()


def received(tls, address, count, decide, durable=False, **more):
    """Receives this many messages in a thread of its own, once it is attached; its list fills."""
    came, ready = [], threading.Event()

    def run():
        source = uamqp.address.Source(tls.url(address))
        if durable:
            # unsettled-state (part 3, section 3.5.5)
            source.durable = 2
        client = uamqp.ReceiveClient(source, timeout=10_000, auto_complete=False, **tls.words(), **more)
        try:
            client.open()
            while not client.client_ready():
                time.sleep(0.01)
            client.do_work()
            ready.set()
            for it in client.receive_messages_iter():
                came.append(b"".join(it.get_data()))
                decide(it)
                if len(came) == count:
                    break
        finally:
            client.close()

    thread = threading.Thread(target=run)
    thread.start()
    ready.wait(10)
    return thread, came


def between(tls, address, bodies, decide, **more):
    thread, came = received(tls, address, len(bodies), decide, prefetch=50)
    states = sent(tls, address, bodies, **more)
    thread.join(15)
    expect(came, bodies)
    return states


def accepted(tls):
    expect(between(tls, "u.accepted", [b"%d" % it for it in range(30)], lambda it: it.accept()), ["SendComplete"] * 30)


def rejected(tls):
    expect(between(tls, "u.rejected", [b"m"], lambda it: it.reject(condition="app:bad", description="no")), ["SendFailed"])


def settled(tls):
    mode = constants.SenderSettleMode.Settled
    expect(between(tls, "u.settled", [b"a", b"b"], lambda it: None, send_settle_mode=mode), ["SendComplete"] * 2)


def large(tls):
    expect(between(tls, "u.large", [b"x" * 60_000], lambda it: it.accept()), ["SendComplete"])


def beyond_credit(tls):
    """There is no receiver, so nothing is granted."""
    expect(sent(tls, "u.nobody", [b"m"]), ["SendFailed"])


def to_proton(served, tls):
    consumer = Peer(served, "c")
    until(attached(consumer.receiver(tls.address("u.proton"), credit=5)), consumer)
    states = []
    thread = threading.Thread(target=lambda: states.extend(sent(tls, "u.proton", [b"hello"])))
    thread.start()
    until(lambda: consumer.got["r"], consumer)
    expect([bytes(it) for it in consumer.bodies()], [b"hello"])
    consumer.decide(consumer.got["r"][0][0], Delivery.ACCEPTED)
    until(lambda: states, consumer)
    expect(states, ["SendComplete"])
    consumer.close()


def from_proton(served, tls):
    producer = Peer(served, "p")
    sender = producer.sender(tls.address("u.modified"))
    thread, came = received(tls, "u.modified", 1, lambda it: it.modify(True, True, annotations={symbol("x-why"): "late"}), prefetch=1)
    until(lambda: sender.credit > 0, producer)
    delivery = producer.send(sender, b"\x00\x53\x75\xa0\x02hi")
    until(lambda: delivery.settled, producer)
    thread.join(15)
    expect((came, delivery.remote_state, delivery.remote.failed, delivery.remote.undeliverable), ([b"hi"], Delivery.MODIFIED, True, True))
    producer.close()


def durable(served, tls):
    """A durable link of uamqp's: what comes on it has the number of its row for a tag, and its outcomes are told unsettled."""
    producer = Peer(served, "p")
    sender = producer.sender(tls.address("u.durable"), "d", durable=True)
    until(attached(sender), producer)
    tags = []

    def decide(message):
        tags.append(message.delivery_tag)
        message.accept()

    thread, came = received(tls, "u.durable", 5, decide, durable=True, prefetch=10)
    until(lambda: sender.credit > 0, producer)
    sent = [producer.send(sender, b"\x00\x53\x75\xa0\x02d%d" % it) for it in range(5)]
    until(lambda: all(it.remote_state for it in sent), producer)
    thread.join(15)
    expect((came, [it.remote_state for it in sent], [it.settled for it in sent]), ([b"d%d" % it for it in range(5)], [Delivery.ACCEPTED] * 5, [False] * 5))
    expect([(len(it), it[:1] == b"\0") for it in tags], [(8, True)] * 5)
    for it in sent:
        it.settle()
    producer.close()


def uamqp_messages(rows, served):
    if uamqp is None:
        print("uamqp's rows are left out: it is missing (apt-get install python3-uamqp)", flush=True)
        return
    tls = Tls(served.port)
    try:
        for name, body in (("accepted", accepted), ("rejected", rejected), ("settled", settled), ("60,000 bytes", large),
                           ("beyond its credit", beyond_credit)):
            rows.row(f"uamqp: {name}", lambda body=body: body(tls))
        rows.row("uamqp to Proton", lambda: to_proton(served, tls))
        rows.row("Proton to uamqp, modified", lambda: from_proton(served, tls))
        rows.row("Proton to uamqp, durable", lambda: durable(served, tls))
    finally:
        tls.close()
