"""Rows of tests/server/under_fire: peers that keep to the letter, and do it slowly, in crowds or without end.

Beside each a pair passes messages, one by one: each has to come, be accepted and be told within SLOWEST seconds. What
is said of it (how many messages passed, and how long the slowest took) stands in the row's line, and so does memory."""
import contextlib
import os
import socket
import subprocess
import tempfile
import threading
import time

from frames import FALSE, NULL, TRUE, Frames, begin, consumer, described, detach, disposition, frame, number
from frames import producer, read_transfers, terminus, text, transfer
from maps import spelt
from peer import Delivery, pair, told, until
from proton import Data
from served import CLOSE, GROWTH, HEADER, OPEN, PROGRAM, Served, expect, grown, read_bytes, read_end, settled

# a pair beside a row waits so many seconds at most for a message
SLOWEST = 5
# the limits of docs/serve.md, and of the worked rows
PLACES, CONNECTIONS, DOOR = 256, 64, 10
MOST_LINK, MOST_TERMINI, LARGEST = 64, 1_024, 16_384
SASL = bytes.fromhex("414D515003010000")
PLAIN = bytes.fromhex("0000002002010000005341C01302A305504C41494EA00900616C69636500783A")
LOGGED_IN = SASL + bytes.fromhex("0000002202010000005340C01501E01202A309414E4F4E594D4F555305504C41494E"
                                 "0000001002010000005344C003015000")
USERS = (("alice", "x:"),)
OPENED = HEADER + bytes.fromhex("0000001B02000000005310C00E04A102523140700000400060000E")
FULL = "amqp:resource-limit-exceeded"
# how many attaches a flood has, how many dispositions, and how many links come and go
FLOOD, DISPOSITIONS, LINKS = 500, 500, 8_000
# how many peers write or read one byte a second, but for the one that is answered much
CRAWLERS = 4
# where the journal of a row is
MEMORY = "/dev/shm"


class Beside(threading.Thread):
    """A pair on an address of its own that passes messages, until the end of a `with`."""

    def __init__(self, served):
        super().__init__()
        self.served, self.over, self.fault = served, threading.Event(), None
        self.passed, self.slowest = 0, 0.0

    def run(self):
        try:
            self.pass_messages()
        except Exception as fault:  # told by the row's own thread
            self.fault = fault

    def pass_messages(self):
        consumer_peer, receiver, producer_peer, sender = pair(self.served, "beside", names=("beside c", "beside p"))
        both = consumer_peer, producer_peer
        while not self.over.is_set():
            start = time.monotonic()
            delivery = producer_peer.send(sender, "m")
            until(lambda: consumer_peer.got["r"], *both, seconds=SLOWEST)
            consumer_peer.decide(consumer_peer.got["r"].pop()[0], Delivery.ACCEPTED)
            until(told(delivery), *both, seconds=SLOWEST)
            receiver.flow(1)
            until(lambda: sender.credit > 1, *both, seconds=SLOWEST)
            self.passed += 1
            self.slowest = max(self.slowest, time.monotonic() - start)
            self.over.wait(0.01)
        for it in both:
            it.close()

    def __enter__(self):
        self.start()
        while self.passed < 3 and not self.fault:
            time.sleep(0.01)
        self.slowest = 0.0
        return self

    def __exit__(self, *_):
        self.over.set()
        self.join()
        if self.fault:
            raise self.fault

    def said(self):
        return f"a pair beside it passed {self.passed:,} messages, the slowest in {self.slowest:.1f} s"


class Answers(Frames):
    """The frames that come on a socket, as bytes."""

    def next(self):
        while len(self.data) < 4 or len(self.data) < int.from_bytes(self.data[:4], "big"):
            piece = self.socket.recv(65_536)
            if not piece:
                raise AssertionError("the stream ended")
            self.data += piece
        size = int.from_bytes(self.data[:4], "big")
        found, self.data = self.data[:size], self.data[size:]
        return found

    def until(self, code, count):
        """All frames, up to the one that is this many of this performative."""
        found = []
        while count:
            found.append(self.next())
            count -= found[-1][10] == code
        return found


def of(code, found):
    return [it for it in found if it[10] == code]


def begun(served, window=2_048, timeout=60):
    """A connection with a session, and what comes on it behind the begin."""
    s = served.connect(timeout=timeout)
    s.sendall(HEADER + OPEN + begin(window))
    read_bytes(s, 8)
    answers = Answers(s)
    answers.until(0x11, 1)
    return s, answers


def handled(s, answers, channel):
    """All that was sent is handled: a session that is begun behind it is answered. What came before that is given."""
    s.sendall(frame(described(0x11, NULL, number(0), number(2_048), number(2_048)), channel=channel))
    return answers.until(0x11, 1)


def attach(handle, name, receiver, address, entries=None, durable=True):
    """An attach with a map of these tags, none of which has an outcome."""
    source = terminus(0x28, address, durable) if receiver else described(0x28)
    target = described(0x29) if receiver else terminus(0x29, address, durable)
    fields = [any_text(name), number(handle), TRUE if receiver else FALSE, NULL, NULL, source, target]
    if entries is not None:
        fields.append(spelt([(it, None) for it in entries]))
    return frame(described(0x12, *fields))


def any_text(s):
    """A text that may have more than 255 bytes."""
    return text(s) if len(s) < 256 else b"\xb1" + len(s).to_bytes(4, "big") + s.encode()


def suspend(handle):
    """A detach that doesn't close the link."""
    return frame(described(0x16, number(handle)))


def map_of(answer):
    """The tags of the map in an attach."""
    found = Data()
    found.decode(answer[8:])
    found.rewind()
    found.next()
    return {bytes(it) for it in found.get_object().value[7]}


def ended(served, s):
    """Whether the log says that this connection has ended; its peer's port tells which it is."""
    port = s.getsockname()[1]
    opened = next(it for it in served.said() if " opened from " in it and f":{port} " in it)
    return any(it.startswith(f"{' '.join(opened.split()[:2])} ended") for it in served.said())


# One byte a second.

class Crawlers:
    """Peers that write and read one byte a second, each some of either."""

    def __init__(self, served, stack, count):
        def connected():
            s = stack.enter_context(served.connect(timeout=30))
            s.setsockopt(socket.SOL_SOCKET, socket.SO_RCVBUF, 4_096)
            return s

        self.stream, self.logins, self.answer = HEADER + OPEN + CLOSE, SASL + PLAIN + HEADER + OPEN, OPENED + CLOSE
        self.writers, self.callers = [connected() for _ in range(count)], [connected() for _ in range(count)]
        self.readers, self.greedy = {connected(): b"" for _ in range(count)}, [connected()]
        for s in self.readers:
            s.sendall(self.stream)
        for s in self.greedy:
            s.sendall(HEADER + OPEN + begin())
        # much is answered to each of these, more than the system keeps: a link with a long name comes and goes
        self.much = (attach(0, "n" * 1_000, True, "a" * 250, durable=False) + detach(0)) * 12_000
        self.sent, self.gone, self.start = dict.fromkeys(self.greedy, 0), {}, time.monotonic()
        for s in (*self.writers, *self.callers, *self.readers, *self.greedy):
            s.setblocking(False)

    def second(self, number_of_it):
        """What one second brings."""
        for s in self.writers:
            if number_of_it < len(self.stream):
                s.send(self.stream[number_of_it:number_of_it + 1])
        for s in self.callers:
            with contextlib.suppress(OSError):
                s.send(self.logins[number_of_it:number_of_it + 1])
            if s not in self.gone and over(s):
                self.gone[s] = self.since()
        for s in self.readers:
            with contextlib.suppress(BlockingIOError):
                self.readers[s] += s.recv(1)
        for s in self.greedy:
            with contextlib.suppress(OSError):
                s.recv(1)
            with contextlib.suppress(OSError):
                self.sent[s] += s.send(self.much[self.sent[s]:])
        time.sleep(max(0.0, number_of_it + 1 - self.since()))

    def since(self):
        return time.monotonic() - self.start


def crawl(served):
    """Peers that write a connection by one byte a second, or a login; that read their answers so; and one that is
    answered much and reads it so."""
    before, count = settled(served), CRAWLERS
    with Beside(served) as beside, contextlib.ExitStack() as stack:
        it = Crawlers(served, stack, count)
        for second in range(len(it.answer) + 2):
            it.second(second)
        expect(list(it.readers.values()), [it.answer] * count)
        for s in it.writers:
            s.settimeout(10)
            expect(read_end(s), it.answer)
        expect(len(it.gone), count)
        ended_at_door(served, count)
        first, last = min(it.gone.values()), max(it.gone.values())
        if first < DOOR - 1 or last > DOOR + SLOWEST:
            raise AssertionError(f"slow logins ended after {first:.0f} to {last:.0f} s")
        for second in range(len(it.answer) + 2, 180):
            if all(ended(served, s) for s in it.greedy):
                break
            it.second(second)
        if not all(ended(served, s) for s in it.greedy):
            raise AssertionError(f"still there after {it.since():.0f} s, having sent {list(it.sent.values())} bytes")
        took = it.since()
    # thousands of frames wait for the one that is answered much
    return (f"logins ended after {first:.0f} to {last:.0f} s, and who is answered much within {took:.0f} s; "
            f"{beside.said()}; " + grown(before, settled(served), 4 * GROWTH))


def over(s):
    """Whether the stream has ended; what came before is dropped."""
    try:
        while s.recv(4_096):
            pass
        return True
    except BlockingIOError:
        return False
    except OSError:
        return True


# Crowds.

def logins(served):
    """300 connections that log in and say nothing more, and then 300 that log in, open and say nothing more. All of it
    twice, since the first time fills what the program keeps."""
    with Beside(served) as beside:
        crowd(served, 1)
        before = settled(served)
        said = crowd(served, 2)
    return f"{said}; {beside.said()}; " + grown(before, settled(served))


def crowd(served, time_of_it):
    """What becomes of them, beside a pair."""
    count, room = 300, PLACES - 2
    some = [log_in(served, SASL + PLAIN) for _ in range(count)]
    came, start = [come(it, len(LOGGED_IN)) for it in some], time.monotonic()
    expect((came.count(LOGGED_IN), came.count(b"")), (room, count - room))
    rest = [read_end(it) for it, before in zip(some, came) if before]
    expect((rest, time.monotonic() - start < DOOR + SLOWEST), ([b""] * room, True))
    for it in some:
        it.close()
    ended_at_door(served, room * time_of_it)
    stay, turned_away = [], 0
    for _ in range(count):
        s = log_in(served, SASL + PLAIN + HEADER + OPEN)
        data = come(s, len(LOGGED_IN + OPENED))
        if data == LOGGED_IN + OPENED:
            stay.append(s)
            continue
        expect(data, LOGGED_IN)
        turned_away += 1
        s.close()
    expect((len(stay), turned_away), (CONNECTIONS - 2, count - CONNECTIONS + 2))
    for it in stay:
        it.close()
    return (f"{room} logged in and were ended after {DOOR} s, {count - room} found no place; then {len(stay)} opened, "
            f"{turned_away} were turned away")


def ended_at_door(served, count):
    """The log says of so many connections that they ended at the door, and why; its lines may come late."""
    end = time.monotonic() + SLOWEST
    while True:
        said = [it.split(" ", 1)[1] for it in served.said() if "at the door" in it]
        if len(said) >= count or time.monotonic() > end:
            break
        time.sleep(0.1)
    expect((len(said), set(said)), (count, {f"ended at the door: it hadn't come up after {DOOR} seconds"}))


def come(s, count):
    """So many bytes, or fewer where the stream ends, or is cut."""
    try:
        return read_bytes(s, count)
    except ConnectionResetError:
        return b""


def log_in(served, data):
    s = served.connect(timeout=30)
    with contextlib.suppress(OSError):
        s.sendall(data)
    return s


# Attaches.

def attaches(served):
    """Durable links that come back with maps of 64 rows, and links whose attach is the largest frame."""
    count, at_once = FLOOD, 20
    with Beside(served) as beside:
        takes, to = begun(served)
        gives, fro = begun(served)
        takes.sendall(attach(0, "r", True, "rows") + grant(0, MOST_LINK))
        to.until(0x12, 1)
        gives.sendall(attach(0, "s", False, "rows"))
        fro.until(0x13, 1)
        gives.sendall(b"".join(transfer(0, it, b"\xa1\x01m") for it in range(MOST_LINK)))
        to.until(0x14, MOST_LINK)
        takes.sendall(suspend(0))
        gives.sendall(suspend(0))
        to.until(0x16, 1)
        fro.until(0x16, 1)
        theirs = [it.to_bytes(4, "big") for it in range(MOST_LINK)]
        rows = [it.to_bytes(8, "big") for it in range(1, MOST_LINK + 1)]
        tags = [it.to_bytes(32, "big") for it in range((LARGEST - 200) // 35)]
        floods = ((gives, fro, attach(0, "s", False, "rows", theirs), set(theirs)),
                  (takes, to, attach(0, "r", True, "rows", rows), set(rows)),
                  (gives, fro, largest(False, tags), set()), (takes, to, largest(True, tags), set()))
        before, took = None, []
        for s, answers, one, wanted in floods * 2:
            # the first round fills what the program keeps
            if len(took) == len(floods):
                before, took = served.memory(), []
            took.append(flood(s, answers, one, wanted, count, at_once))
        after = served.memory()
        for s in (takes, gives):
            s.sendall(CLOSE)
            read_end(s)
            s.close()
    return (f"{count} of a producer with 64 rows took {took[0]:.1f} s, of a consumer {took[1]:.1f} s; {count} of "
            f"{LARGEST:,} bytes took {took[2]:.1f} and {took[3]:.1f} s; {beside.said()}; "
            + grown(before, max(after, settled(served))))


def grant(handle, credit):
    session = number(0), number(2_048), number(0), number(2_048)
    return frame(described(0x13, *session, number(handle), number(0), number(credit)))


def largest(receiver, tags):
    """An attach of the largest frame, whose map has these tags and one that is as long as it may be beside them."""
    short = attach(0, "l", receiver, "big", tags)
    made = attach(0, "l" * (1 + LARGEST - len(short)), receiver, "big", tags)
    expect(len(made), LARGEST)
    return made


def flood(s, answers, one, wanted, count, at_once):
    """Attaches a link so many times, each time suspended again; each answer has the map that is wanted. The seconds."""
    start, first = time.monotonic(), None
    for _ in range(count // at_once):
        s.sendall((one + suspend(0)) * at_once)
        found = answers.until(0x16, at_once)
        came = of(0x12, found)
        first = first or came[0]
        expect((len(came), set(came) == {first}), (at_once, True))
        expect([it for it in of(0x16, found) if it != suspend(0)], [])
    expect(map_of(first), wanted)
    return time.monotonic() - start


# Ranges of ids.

def ranges(served, links):
    """Dispositions over 2^31 - 1 ids, of both sides, that name nothing, and then one that names all."""
    count, times = MOST_LINK * links, DISPOSITIONS
    last = 2**30 + 2**31 - 2
    takes, to = begun(served, 100_000)
    gives, fro = begun(served)
    with Beside(served) as beside:
        takes.sendall(b"".join(consumer(it, f"a{it}", MOST_LINK, 100_000) for it in range(links)))
        to.until(0x12, links)
        gives.sendall(b"".join(producer(it, f"a{it}") for it in range(links)))
        fro.until(0x13, links)
        gives.sendall(b"".join(transfer(it // MOST_LINK, it, b"\xa1\x01m") for it in range(count)))
        to.until(0x14, count)
        took = []
        for s, answers, receiver, state in ((gives, fro, False, None), (takes, to, True, 0x24)):
            start = time.monotonic()
            s.sendall(b"".join(disposition(receiver, 2**30, state, last) for _ in range(times)))
            expect([it for it in handled(s, answers, 1) if it[10] == 0x15], [])
            took.append(time.monotonic() - start)
        start = time.monotonic()
        takes.sendall(disposition(True, 0, 0x24, 2**31 - 2))
        expect(len(of(0x15, fro.until(0x15, count))), count)
        took.append(time.monotonic() - start)
        for s in (takes, gives):
            s.sendall(CLOSE)
            read_end(s)
            s.close()
    said = (f"{times} of the producer took {took[0]:.2f} s, {times} of the consumer {took[1]:.2f} s, one that names "
            f"all {took[2]:.2f} s")
    return took, f"{count:,} unsettled: {said}; {beside.said()}; "


def all_ranges():
    """Ranges that name nothing cost as much with 4,032 unsettled deliveries as with 64, or nearly."""
    said, first = "", None
    for links in (1, 63):
        with Served(words=("--quiet",)) as served:
            # the first time fills what the program keeps
            ranges(served, links)
            before = settled(served)
            took, more = ranges(served, links)
            said += ("" if first is None else "; ") + more + grown(before, settled(served))
            first = first or took
    if max(took[0] - first[0], took[1] - first[1]) > 2:
        raise AssertionError(said)
    return said


# Links without end.

def links_without_end():
    """A peer whose durable links come and go while the book has all termini that it may have, over files whose
    checkpoints come meanwhile."""
    rounds, at_once = LINKS, 50
    with tempfile.TemporaryDirectory(dir=MEMORY if os.path.isdir(MEMORY) else None) as folder:
        journal = f"{folder}/journal"
        subprocess.run([PROGRAM, "format", journal], check=True, capture_output=True, timeout=60)
        with Served(words=("--quiet", "--journal", journal)) as served, Beside(served) as beside:
            s, answers = begun(served)
            for it in range(MOST_TERMINI):
                s.sendall(attach(0, name_of(it), True, "x" * 200) + suspend(0))
            expect(len(of(0x12, answers.until(0x16, MOST_TERMINI))), MOST_TERMINI)
            # one more is refused: an attach without a source, and a detach that says why
            s.sendall(attach(0, name_of(MOST_TERMINI), True, "x" * 200) + detach(0))
            refusal = answers.until(0x16, 1)
            expect(([it[10] for it in refusal], FULL.encode() in refusal[-1]), ([0x12, 0x16], True))
            before, largest_file = None, 0
            for at in range(0, rounds, at_once):
                if at == rounds // 4:
                    before = served.memory()
                s.sendall(b"".join(come_and_go(at + it) for it in range(at_once)))
                found = answers.until(0x16, 2 * at_once)
                expect((len(of(0x12, found)), any(FULL.encode() in it for it in found)), (2 * at_once, False))
                largest_file = max(largest_file, *(os.path.getsize(f"{journal}.{it}") for it in "01"))
            after = served.memory()
            s.sendall(CLOSE)
            read_end(s)
            s.close()
        words = [PROGRAM, "journal", journal]
        listed = subprocess.run(words, check=True, capture_output=True, text=True, timeout=60).stdout.splitlines()
        epoch, last = int(listed[0].split()[1]), listed[-1].split()
        expect(last[2:], ["rows", "0", "termini", f"{MOST_TERMINI}"])
        if epoch < 2:
            raise AssertionError(f"no checkpoint came meanwhile: {listed[0]}")
        return (f"{rounds:,} links came and as many went, at {MOST_TERMINI:,} termini; {epoch - 1} checkpoints, "
                f"at most {largest_file:,} bytes in a file; {beside.said()}; " + grown(before, after))


def name_of(number_of_it):
    return f"{number_of_it:08}" + "y" * 192


def come_and_go(it):
    """The oldest link comes back and ends for good; a new one takes its place, and is suspended."""
    old, new = attach(0, name_of(it), True, "x" * 200), attach(0, name_of(it + MOST_TERMINI), True, "x" * 200)
    return old + detach(0) + new + suspend(0)
