"""Maps of unsettled deliveries in attaches, and transfers that resume a delivery (part 2, sections 2.6.13, 2.7.3 and 2.7.5), which Qpid Proton's engine
neither writes nor shows: they are put into the bytes that it has written, and read off those that have come."""
from frames import NULL, TRUE, described
from proton import Data

STATES = {"accepted": 0x24, "rejected": 0x25, "released": 0x26, "modified": 0x27}
NAMES = {code: name for name, code in STATES.items()}
ATTACH, TRANSFER = bytes([0, 0x53, 0x12]), bytes([0, 0x53, 0x14])
# fields of an attach, and of a transfer
UNSETTLED, INCOMPLETE = 7, 8
TAG, RESUME = 2, 8


class Frames:
    """The whole frames of a stream that comes in pieces, behind its header."""

    def __init__(self):
        self.data, self.header = b"", 8

    def feed(self, data):
        """Those that these bytes complete; the header is the first."""
        self.data += data
        frames = []
        if self.header and len(self.data) >= self.header:
            frames.append(self.data[:8])
            self.data, self.header = self.data[8:], 0
        while not self.header and len(self.data) >= 4 and len(self.data) >= (size := int.from_bytes(self.data[:4], "big")):
            frames.append(self.data[:size])
            self.data = self.data[size:]
        return frames


class Maps:
    """What a client writes, with the map of each link in its attach; `of` gives that of a link by its name, as pairs of a tag and an outcome's name or None.
    The map of a link whose name is in `incomplete` says that it isn't complete. A transfer that begins a delivery whose tag is in `resumed` says that it resumes it."""

    def __init__(self, of, incomplete=()):
        self.of, self.incomplete, self.resumed = of, incomplete, set()
        self.out, self.come, self.told = Frames(), Frames(), {}

    def feed(self, data):
        """These bytes after those before: the whole frames, with maps."""
        return b"".join(self.with_map(it) for it in self.out.feed(data))

    def hear(self, data):
        """Bytes that come: `told` has the peer's map of each link whose attach is among them, by its name: the outcome's name of each tag, or None."""
        for frame in self.come.feed(data):
            if frame[8:11] == ATTACH:
                found = Data()
                found.decode(frame[8:])
                found.rewind()
                found.next()
                fields = list(found.get_object().value) + [None] * UNSETTLED
                self.told[fields[0]] = {bytes(tag): state and NAMES[int(state.descriptor)] for tag, state in (fields[UNSETTLED] or {}).items()}

    def with_map(self, frame):
        if frame[8:11] == ATTACH:
            return self.with_entries(frame)
        if frame[8:11] == TRANSFER and self.resumed:
            return self.with_resume(frame)
        return frame

    def with_entries(self, frame):
        fields, _ = fields_of(frame)
        name = fields[0][2:].decode()
        entries = self.of(name)
        if entries is None:
            return frame
        fields += [NULL] * (INCOMPLETE + 1 - len(fields))
        fields[UNSETTLED] = spelt(entries)
        if name in self.incomplete:
            fields[INCOMPLETE] = TRUE
        return framed(frame, described(0x12, *fields))

    def with_resume(self, frame):
        fields, payload = fields_of(frame)
        if len(fields) <= TAG or fields[TAG][2:] not in self.resumed:
            return frame
        fields += [NULL] * (RESUME + 1 - len(fields))
        fields[RESUME] = TRUE
        return framed(frame, described(0x14, *fields) + payload)


def fields_of(frame):
    """The fields of a frame's performative, as bytes, and what follows it."""
    end, at = after(frame, 8), 20 if frame[11] == 0xD0 else 14
    fields = []
    while at < end:
        to = after(frame, at)
        fields.append(frame[at:to])
        at = to
    return fields, frame[end:]


def framed(frame, body):
    return (len(body) + 8).to_bytes(4, "big") + frame[4:8] + body


def spelt(entries):
    """A map of these entries."""
    body = b"".join(b"\xa0" + bytes([len(tag)]) + tag + (described(STATES[outcome]) if outcome else NULL) for tag, outcome in entries)
    return b"\xd1" + (len(body) + 4).to_bytes(4, "big") + (2 * len(entries)).to_bytes(4, "big") + body


def after(data, at):
    """Where the value that begins at a place ends (part 1, section 1.2)."""
    code = data[at]
    if code == 0:
        return after(data, after(data, at + 1))
    width = {0x4: 0, 0x5: 1, 0x6: 2, 0x7: 4, 0x8: 8, 0x9: 16}.get(code >> 4)
    if width is not None:
        return at + 1 + width
    size = 1 if code >> 4 in (0xA, 0xC, 0xE) else 4
    return at + 1 + size + int.from_bytes(data[at + 1:at + 1 + size], "big")
