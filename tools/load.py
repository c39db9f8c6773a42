"""A load of Qpid Proton's clients, for a profile of the program: pairs of a producer and a consumer, each pair in a process of its own."""
import multiprocessing

from proton import Message, Terminus
from proton.handlers import MessagingHandler
from proton.reactor import AtLeastOnce, AtMostOnce, Container, LinkOption

# settled, durable, bytes, pairs, credit
LOADS = (
    (True, False, 100, 4, 64),
    (False, False, 100, 4, 64),
    (False, False, 100, 4, 1),
    (True, False, 10_000, 2, 64),
    (False, False, 10_000, 2, 64),
    (False, True, 100, 4, 64),
)


class Durable(LinkOption):
    """Asks the router to keep what is unsettled (AMQP 1.0 part 3, section 3.5.5)."""

    def apply(self, link):
        for it in (link.source, link.target):
            it.durability, it.expiry_policy = Terminus.DELIVERIES, Terminus.EXPIRE_NEVER


class Pair(MessagingHandler):
    """A producer that sends as long as it has credit, and a consumer that accepts; for some seconds."""

    def __init__(self, port, name, load, seconds):
        settled, durable, size, _, credit = load
        super().__init__(prefetch=credit)
        self.url, self.name, self.seconds = f"127.0.0.1:{port}", name, seconds
        self.options = [AtMostOnce() if settled else AtLeastOnce(), *([Durable()] if durable else [])]
        self.message = Message(body=b"m" * size, durable=durable)

    def on_start(self, event):
        container = event.container
        to, back = (container.connect(self.url, reconnect=False) for _ in range(2))
        container.create_receiver(back, self.name, options=self.options)
        container.create_sender(to, self.name, options=self.options)
        container.schedule(self.seconds, self)

    def on_sendable(self, event):
        while event.sender.credit:
            event.sender.send(self.message)

    def on_timer_task(self, event):
        event.container.stop()


def run(port, seconds):
    """Puts each load on the program that listens at this port, one behind the other, for some seconds each."""
    for at, load in enumerate(LOADS):
        pairs = [Container(Pair(port, f"load.{at}.{it}", load, seconds)) for it in range(load[3])]
        processes = [multiprocessing.Process(target=it.run) for it in pairs]
        for it in processes:
            it.start()
        for it in processes:
            it.join()
