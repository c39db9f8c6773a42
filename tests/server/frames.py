"""Frames of AMQP 1.0 as bytes (part 2, section 2.3), by an encoder of a few lines that shares nothing with the program's."""
NULL, TRUE, FALSE = b"\x40", b"\x41", b"\x42"


def number(n):
    return b"\x43" if n == 0 else b"\x52" + bytes([n]) if n < 256 else b"\x70" + n.to_bytes(4, "big")


def text(s, code=0xA1):
    data = s.encode()
    return bytes([code, len(data)]) + data


def described(code, *fields):
    body = b"".join(fields)
    if len(body) < 255:
        return b"\x00\x53" + bytes([code]) + b"\xc0" + bytes([len(body) + 1, len(fields)]) + body
    return b"\x00\x53" + bytes([code]) + b"\xd0" + (len(body) + 4).to_bytes(4, "big") + len(fields).to_bytes(4, "big") + body


def frame(performative, payload=b"", channel=0):
    body = performative + payload
    return (len(body) + 8).to_bytes(4, "big") + b"\x02\x00" + channel.to_bytes(2, "big") + body


def begin(window=2_048):
    return frame(described(0x11, NULL, number(0), number(window), number(2_048)))


def terminus(code, address, durable):
    """A source or a target; `durable` asks for one that keeps its unsettled deliveries."""
    return described(code, text(address), *([number(2)] if durable else []))


def consumer(handle, address, credit, window=2_048, durable=False):
    """An attach, and a flow that grants this much."""
    attach = described(0x12, text(f"r{handle}"), number(handle), TRUE, NULL, NULL, terminus(0x28, address, durable), described(0x29))
    return frame(attach) + frame(described(0x13, number(0), number(window), number(0), number(2_048), number(handle), number(0), number(credit)))


def producer(handle, address, durable=False):
    return frame(described(0x12, text(f"s{handle}"), number(handle), FALSE, NULL, NULL, described(0x28), terminus(0x29, address, durable)))


def detach(handle):
    return frame(described(0x16, number(handle), TRUE))


def transfer(handle, delivery, payload, settled=False):
    tag = b"\xa0\x04" + delivery.to_bytes(4, "big")
    return frame(described(0x14, number(handle), number(delivery), tag, number(0), TRUE if settled else FALSE), b"\x00\x53\x77" + payload)


def disposition(receiver, first, state=None, last=None):
    """A disposition about one delivery, or several, settled."""
    fields = [TRUE if receiver else FALSE, number(first), NULL if last is None else number(last), TRUE] + ([described(state)] if state else [])
    return frame(described(0x15, *fields))


class Frames:
    """The frames that come on a socket, of which the header was read."""

    def __init__(self, s):
        self.socket, self.data = s, b""

    def read(self, code, count):
        """Reads until this many frames of this performative have come, whatever else does."""
        while count:
            while len(self.data) < 4 or len(self.data) < int.from_bytes(self.data[:4], "big"):
                piece = self.socket.recv(65_536)
                if not piece:
                    raise AssertionError(f"the stream ended with {count} frames to come")
                self.data += piece
            size = int.from_bytes(self.data[:4], "big")
            count -= self.data[8:11] == bytes([0, 0x53, code])
            self.data = self.data[size:]


def read_transfers(s, count):
    """Reads from a socket, the header included, until this many transfers have come."""
    data, at = b"", 8
    while count > 0:
        while len(data) < at + 4 or len(data) < at + int.from_bytes(data[at:at + 4], "big"):
            piece = s.recv(65_536)
            if not piece:
                raise AssertionError(f"the stream ended with {count} transfers to come")
            data += piece
        count -= data[at + 8:at + 11] == b"\x00\x53\x14"
        at += int.from_bytes(data[at:at + 4], "big")
