"""A log as the crate sqlite_wal writes it, from the description in its README: what is written, synced and cut, call by call;
and what a stop leaves of such calls."""
import struct

from logs import COUNT_PAGE, FRAME_HEAD, HEAD, Log, checksum

SIZE = 64
FRAME = FRAME_HEAD + SIZE
WINDOW = 16 * SIZE
MOST_PAGES = 40
# How many bytes a log has whose header is followed by the next gate.
EMPTY = 41


def apply(text, call):
    """Does a call to the bytes of a file: a write of bytes at a place, or a cut to a length."""
    what, at, written = call
    if what == "c":
        text[at:] = b""
    text.extend(bytes(max(0, at - len(text))))
    if what == "w":
        text[at : at + len(written)] = written


class Disk:
    """The bytes of a file that are synced, and the calls since."""

    def __init__(self, text):
        self.synced, self.pending = bytearray(text), []

    def call(self, call):
        if call[0] != "s":
            self.pending.append(call)
            return
        for earlier in self.pending:
            apply(self.synced, earlier)
        self.pending = []

    def killed(self, chance):
        """What a kill leaves: all calls, and a first part of the last."""
        text = bytearray(self.synced)
        for what, at, written in self.pending[:-1]:
            apply(text, (what, at, written))
        for what, at, written in self.pending[-1:]:
            part = chance.choice((0, len(written) // 2, chance.randrange(len(written) + 1), len(written)))
            if what == "c" or part:
                apply(text, (what, at, written[:part]))
        return bytes(text)

    def cut_off(self, chance):
        """What a power cut leaves: of each call each byte old or new, and past the old end anything."""
        text, end = bytearray(self.synced), len(self.synced)
        for what, at, written in self.pending:
            if what == "c":
                low, high = sorted((at, len(text)))
                apply(text, ("c", chance.choice((low, high, chance.randrange(low, high + 1))), b""))
            else:
                apply(text, ("c", max(len(text), at + len(written)), b""))
                apply(text, ("w", at, mixed(chance, text[at : at + len(written)], written)))
        past = chance.randrange(6)
        if len(text) > end and past < 3:
            kept = chance.randrange(len(text) - end + 1)
            text[end:] = (text[end : end + kept], bytes(len(text) - end), chance.randbytes(len(text) - end))[past]
        return bytes(text)


def mixed(chance, old, new):
    """Bytes each of which is old or new."""
    how, place = chance.randrange(7), chance.randrange(len(new) + 1)
    if how < 4:
        return bytes((old, new, new[:place] + old[place:], old[:place] + new[place:])[how])
    size = (1, 512, 4096)[how - 4] if len(new) < 8192 or how > 4 else 512
    share, text = chance.random(), bytearray(new)
    for at in range(0, len(new), size):
        if chance.random() < share:
            text[at : at + size] = old[at : at + size]
    return bytes(text)


class Writer:
    """One who writes a log with pages of 64 bytes, in every way that the crate does."""

    def __init__(self, chance):
        self.chance, self.calls, self.text = chance, [], bytearray()
        self.salt, self.round = (0x1000000, chance.getrandbits(32)), 0
        self.begin()

    def call(self, what, at=0, written=b""):
        if what == "w" and not written:
            return
        self.calls.append((what, at, bytes(written)))
        if what != "s":
            apply(self.text, self.calls[-1])

    def begin(self):
        """Empties the log: the first byte of its magic number is the gate."""
        head = struct.pack(">IIIIII", 0x377F0682, 3007000, SIZE, self.round, *self.salt)
        self.sum = self.durable_sum = checksum(False, (0, 0), head)
        head += struct.pack(">II", *self.sum)
        for at, written in ((0, b"\0"), (1, head[1:] + bytes(9)), (0, head[:1])):
            self.call("w", at, written)
            self.call("s")
        self.durable = self.frames = self.blank_to = 0

    def place(self, frame):
        return HEAD + frame * FRAME

    def pages(self, count):
        content = (self.chance.randbytes(SIZE), bytes(SIZE), bytes(SIZE // 2) + self.chance.randbytes(SIZE // 2))
        return [(self.chance.randrange(1, MOST_PAGES), self.chance.choice(content)) for _ in range(count)]

    def append(self, pages, fails=False):
        """Writes frames behind the shut gate, and shuts the next; a write that fails does a part of it."""
        text, last = b"", self.sum
        for place, (number, content) in enumerate(pages):
            head = struct.pack(">II", number, MOST_PAGES if place == len(pages) - 1 else 0)
            last = checksum(False, checksum(False, last, head), content)
            text += head + struct.pack(">IIII", *self.salt, *last) + content
        text, at, self.blank_to = text + bytes(9), self.place(self.frames), 0
        if fails:
            text = text[: self.chance.randrange(len(text))]
        if self.frames > self.durable:
            self.call("w", at, text)
        else:
            self.call("w", at, text[:8])
            self.call("w", at + 9, text[9:])
        if not fails:
            self.sum, self.frames = last, self.frames + len(pages)

    def reveal(self, blank_to):
        self.call("w", self.place(self.durable) + 8, struct.pack(">I", self.salt[0])[:1])
        self.call("s")
        self.durable, self.durable_sum, self.blank_to = self.frames, self.sum, blank_to

    def sync_twice(self):
        blank_to = 0
        if (self.frames - self.durable) * FRAME <= WINDOW // 2:
            blank_to = self.place(self.frames) + WINDOW
            self.call("w", self.place(self.frames), bytes(WINDOW))
        self.call("s")
        self.reveal(blank_to)

    def commit(self, count):
        pages, end = self.pages(count), self.place(self.frames + count + 1)
        if end + 8 >= self.blank_to:
            self.append(pages)
            self.sync_twice()
            return
        blank_to = self.blank_to
        if blank_to - end < WINDOW // 2:
            self.call("w", blank_to, bytes(WINDOW // 2))
            blank_to += WINDOW // 2
        lack = SIZE - 8 + sum(content.count(0) + COUNT_PAGE - number for number, content in pages)
        said = struct.pack(">Q", lack + COUNT_PAGE - MOST_PAGES)
        self.append([(COUNT_PAGE, said + bytes(SIZE - 8)), *pages])
        self.reveal(blank_to)

    def spill(self, batches, fails, commits):
        """A transaction in several batches, of which the last may fail; it is committed or given up."""
        for count in batches:
            self.append(self.pages(count))
        if fails:
            self.append(self.pages(self.chance.randrange(1, 9)), True)
        if commits and fails:
            self.call("w", self.place(self.frames) + 8, b"\0")
        if commits:
            self.sync_twice()
        else:
            self.frames, self.sum = self.durable, self.durable_sum

    def step(self):
        chance, what = self.chance, self.chance.random()
        if what < 0.74:
            self.commit(chance.randrange(1, 4) if what < 0.62 else chance.randrange(4, 16))
        elif what < 0.86:
            batches = [chance.randrange(1, 20) for _ in range(chance.randrange(1, 4))]
            self.spill(batches, chance.random() < 0.4, chance.random() < 0.4)
        elif what < 0.9:
            self.spill([], True, False)
        elif what < 0.93:
            self.salt, self.round = (self.salt[0] + 1, chance.getrandbits(32)), self.round + 1
            self.begin()

    def reopen(self, text):
        """Goes on with what a stop has left, as a recovery does."""
        self.text, self.calls = bytearray(text), []
        log = Log(text)
        if len(text) < HEAD + FRAME_HEAD or not log.is_signed:
            self.salt = self.salt[0] + 1, self.chance.getrandbits(32)
            self.begin()
            self.call("c", EMPTY)
            self.call("s")
            return
        self.salt, self.round = struct.unpack_from(">II", text, 16), struct.unpack_from(">I", text, 12)[0]
        ends = log.ends()
        self.durable = self.frames = ends[-1] + 1 if ends else 0
        self.sum = self.durable_sum = log.sum_before(self.durable)
        self.blank_to, gate = 0, self.place(self.durable) + 8
        if gate >= len(text) or text[gate] == text[16]:
            self.call("w", gate, b"\0")
            self.call("s")
