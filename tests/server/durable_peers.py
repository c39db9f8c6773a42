"""Clients for tests/server/kill: Proton's engine with durable and other links, which send, decide, settle and detach as chance has it, and remember what they said
and what they were answered."""
from functools import partial

from cproton import pn_delivery_clear
from journal_bytes import CONSUMER, PRODUCER
from journals import FAILED, Fault, modification, rejection
from peer import ACTIVE, GONE, STATES, Peer, asks_durable, state_of, tag_of
from proton import Condition, Delivery, Event, Terminus, symbol

# a client's links of each kind, and how many of them wait for an answer at once
KEPT, WAITING = 4, 2
ADDRESSES = 3
# how many turns a link stays, times a number from 0 to 1
LIVES = (10, 100, 300, 1_000)
# messages that a producer's link sends in a turn, and in its life; a link may have 1,024 that are released and not settled
AT_ONCE, MOST_SENT = 6, 400
# what comes from the router; and how many turns without any a client waits before it goes on
NEWS, PATIENCE = (Event.DELIVERY, Event.LINK_FLOW, Event.LINK_REMOTE_OPEN, Event.LINK_REMOTE_CLOSE, Event.LINK_REMOTE_DETACH), 50


class Sent:
    """A message, and what its producer was told of it. `behind`: how much its client had said before it; `row` is set by whoever reads the journal."""

    def __init__(self, link, tag, body, delivery, presettled, behind):
        self.link, self.tag, self.body, self.delivery = link, tag, body, delivery
        self.presettled, self.behind = presettled, behind
        self.told, self.settles, self.row = None, presettled, None


class Taken:
    """A message that came to a consumer, and what that decided: an outcome, or none yet. `row` is the number that its tag is, or None."""

    def __init__(self, link, delivery, body):
        tag = tag_of(delivery)
        self.link, self.delivery, self.body = link, delivery, body
        self.presettled, self.outcome = delivery.settled, None
        self.row = int.from_bytes(tag, "big") if len(tag) == 8 else None
        if self.row is None and (len(tag), tag[:1]) != (9, b"v"):
            raise Fault(f"a message came with the tag {tag.hex()}")


class Link:
    """A link, and what its client asked for and was answered; `number` is its terminus's, set by whoever reads the journal."""

    def __init__(self, client, role, number, address, durable, chance):
        self.client, self.role, self.address, self.durable = client, role, address, durable
        self.name = f"{client.names}.{number}"
        self.key = (role, client.connection.container, self.name)
        self.attached = self.closing = self.closed = self.left = self.gone = False
        # how many turns it has left, and how likely it settles what it is told
        self.turns, self.settles = int(chance.choice(LIVES) * chance.random()), chance.choice((1, 0.9, 0.9, 0.2))
        self.behind, self.ends_behind = client.flushed, None
        self.sent, self.taken, self.number = [], {}, None
        self.link = client.first.sender(self.name) if role == PRODUCER else client.first.receiver(self.name)
        terminus = self.link.target if role == PRODUCER else self.link.source
        terminus.address = address
        if durable:
            asks_durable(terminus)
        self.link.open()

    @property
    def ended(self):
        return self.closing or self.left

    def look(self):
        state = self.link.state
        if state & ACTIVE and not self.attached:
            theirs = self.link.remote_target if self.role == PRODUCER else self.link.remote_source
            if (theirs.address, theirs.durability == Terminus.DELIVERIES) != (self.address, self.durable):
                raise Fault(f"the link {self.key} of {self.address} is answered by {theirs.address}, {theirs.durability}, {self.link.remote_condition}")
            self.attached = True
            self.client.hears(self.behind)
        if state & GONE and not self.gone:
            self.end_came()
            self.closed = self.closing

    def end_came(self):
        """A detach came, which is the answer to the client's own."""
        if not self.ended:
            raise Fault(f"the link {self.key} is told {self.link.remote_condition}")
        self.gone = True
        self.client.hears(self.ends_behind)

    def end(self, closing):
        """Closes the link, or detaches it."""
        self.closing, self.left, self.ends_behind = closing, not closing, self.client.flushed
        if closing:
            self.link.close()
        else:
            self.link.detach()


class Client(Peer):
    """A client. `said` are the settlements and decisions that it has sent, of which the first `flushed` went out before whatever it does next, and the
    first `heard` were read by the router before something that it answered; so were those of `sure`."""

    def __init__(self, served, container, names, chance):
        super().__init__(served, container)
        self.names, self.chance, self.links, self.live, self.by_name = names, chance, [], [], {}
        self.said, self.flushed, self.heard, self.sure, self.waits = [], 0, 0, [], []
        self.vanished, self.idle = False, 0

    def hears(self, behind):
        self.heard = max(self.heard, behind)

    def attach(self, role):
        durable = self.chance.random() < (0.85 if role == PRODUCER else 0.6)
        it = Link(self, role, len(self.links), f"d.{self.chance.randrange(ADDRESSES)}", durable, self.chance)
        self.got[it.name] = []
        self.links.append(it)
        self.live.append(it)
        self.by_name[it.name] = it

    def on(self, event):
        super().on(event)
        if event.type in NEWS:
            self.idle = 0
        if event.type is Event.LINK_REMOTE_DETACH:
            self.by_name[event.link.name].end_came()

    def take(self, delivery):
        if delivery.readable:
            super().take(delivery)
        elif delivery.updated and delivery.link.is_sender:
            self.told(delivery)
        elif delivery.updated:
            self.settled(delivery)
        pn_delivery_clear(delivery._impl)

    def told(self, delivery):
        """An outcome came: once, settled where the link isn't durable, and else not."""
        sent = self.by_name[delivery.link.name].sent[int(tag_of(delivery))]
        if not delivery.remote_state or sent.told or sent.presettled or delivery.settled == sent.link.durable:
            raise Fault(f"{sent.body[:40]} is told {state_of(delivery)}, settled {delivery.settled}, behind {sent.told}")
        sent.told = state_of(delivery)
        self.hears(sent.behind)
        if not sent.link.durable:
            sent.settles = True
            delivery.settle()
        elif self.chance.random() < sent.link.settles:
            self.later(self.settle, sent)

    def later(self, what, about):
        """Does this in the next turn or one after it."""
        self.waits.append((self.chance.choice((0, 0, 1, 30)), partial(what, about)))

    def settle(self, sent):
        if sent.settles or sent.link.ended:
            return
        sent.settles = True
        sent.delivery.settle()
        self.said.append(sent)

    def came(self, link, delivery, data):
        it = self.by_name[link.name]
        taken = Taken(it, delivery, data)
        if it.taken.setdefault(delivery.tag, taken) is not taken:
            raise Fault(f"{data[:40]} came with a tag that came before")
        if taken.presettled:
            delivery.settle()
        elif self.chance.random() < 0.9:
            self.later(self.choose, taken)

    def settled(self, delivery):
        """The router settles what its consumer decided and didn't settle, with what was decided."""
        taken = self.by_name[delivery.link.name].taken[delivery.tag]
        if not delivery.settled or state_of(delivery) != taken.outcome:
            raise Fault(f"{taken.body[:40]} is settled as {state_of(delivery)}, and was decided as {taken.outcome}")
        self.sure.append(taken)
        delivery.settle()

    def choose(self, taken):
        """Decides a delivery, and settles it with that or once the router did; or settles it and says no more."""
        chance, local = self.chance, taken.delivery.local
        if taken.link.ended:
            return
        state = chance.choice((Delivery.ACCEPTED,) * 6 + (Delivery.REJECTED, Delivery.RELEASED, Delivery.MODIFIED, None))
        taken.outcome = STATES.get(state, FAILED)
        if state == Delivery.REJECTED:
            info = {symbol("n"): chance.randrange(1 << 30)}
            local.condition = Condition("app:bad", None, info)
            taken.outcome = rejection("app:bad", None, info)
        elif state == Delivery.MODIFIED:
            local.failed, local.undeliverable, local.annotations = chance.random() < 0.5, chance.random() < 0.5, {symbol("x-n"): chance.randrange(1 << 30)}
            taken.outcome = modification(local.failed, local.undeliverable, local.annotations)
        if state:
            taken.delivery.update(state)
        if not state or chance.random() < 0.7:
            taken.delivery.settle()
        self.said.append(taken)

    def send_some(self, it):
        for _ in range(min(it.link.credit, AT_ONCE, MOST_SENT - len(it.sent))):
            number, size = len(it.sent), self.chance.choice((0, 10, 100, 1_000) * 6 + (30_000,))
            body = f"{it.name} {number} ".encode() + b"." * int(size * self.chance.random())
            delivery = it.link.delivery(str(number))
            it.link.stream(body)
            it.link.advance()
            sent = Sent(it, str(number).encode(), body, delivery, self.chance.random() < 0.05, self.flushed)
            it.sent.append(sent)
            if sent.presettled:
                delivery.settle()
            elif it.durable and self.chance.random() < 0.03:
                self.later(self.settle, sent)

    def vanish(self):
        self.vanished = True
        self.cut()

    def act(self):
        """The next things that the client does, once something came, so that it does no more than the router keeps up with."""
        for it in self.live:
            it.look()
        self.live = [it for it in self.live if not it.gone]
        if self.lost or 0 < self.idle < PATIENCE:
            self.idle += 1
            return
        self.idle = 1
        due, self.waits = [what for turns, what in self.waits if not turns], [(turns - 1, what) for turns, what in self.waits if turns]
        for what in due:
            what()
        for it in self.live:
            if it.attached and not it.ended:
                self.use(it)
        for role in (PRODUCER, CONSUMER):
            mine = [it for it in self.live if it.role == role and not it.ended]
            if len(mine) < KEPT and sum(not it.attached for it in mine) < WAITING:
                self.attach(role)
        self.write_on()
        if not self.lost and not self.transport.pending():
            self.flushed = len(self.said)

    def use(self, it):
        """What a link's client does with it in a turn."""
        it.turns -= 1
        if it.turns < 0:
            it.end(self.chance.random() < 0.85)
        elif it.role == PRODUCER:
            self.send_some(it)
        elif it.link.credit < 20:
            it.link.flow(40)
