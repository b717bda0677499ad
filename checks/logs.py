"""Logs of SQLite as bytes, and when one is damaged: the rule of mx_log, read from SQLite's file format and not from the code."""
import functools
import struct

HEAD, FRAME_HEAD, COUNT_PAGE = 32, 24, 0xFF000000
PAGE_SIZES = [512 << power for power in range(8)]
MASK = 0xFFFFFFFF


@functools.lru_cache(maxsize=20000)
def checksum(big, start, text):
    """The checksum of these bytes, going on from another."""
    first, second = start
    words = struct.unpack(f"{'>' if big else '<'}{len(text) // 8 * 2}I", text[: len(text) // 8 * 8])
    for place in range(0, len(words), 2):
        first = (first + words[place] + second) & MASK
        second = (second + words[place + 1] + first) & MASK
    return first, second


def stored(text, at):
    return struct.unpack_from(">II", text, at)


class Log:
    """The bytes of a log, as frames of one size."""

    def __init__(self, text, size=None, big=None):
        self.text, text = text, text + bytes(max(0, HEAD - len(text)))
        self.is_signed = (
            text[:3] == b"\x37\x7f\x06"
            and text[3] in (0x82, 0x83)
            and checksum(text[3] == 0x83, (0, 0), text[:24]) == stored(text, 24)
        )
        self.size = struct.unpack_from(">I", text, 8)[0] if size is None else size
        self.big = text[3] == 0x83 if big is None else big
        self.salt = text[16:24]
        self.length = FRAME_HEAD + self.size
        self.count = max(0, len(text) - HEAD) // self.length

    def frame(self, place):
        at = HEAD + place * self.length
        return self.text[at : at + self.length]

    def page(self, place):
        return struct.unpack_from(">I", self.frame(place), 0)[0]

    def commits(self, place):
        return self.frame(place)[4:8] != b"\0\0\0\0"

    def is_open(self, place):
        return self.frame(place)[8] == self.text[16]

    def sum_before(self, place):
        return stored(self.text, 24) if place == 0 else stored(self.frame(place - 1), 16)

    def sum_of(self, before, place):
        frame = self.frame(place)
        return checksum(self.big, checksum(self.big, before, frame[:8]), frame[FRAME_HEAD:])

    def due_before(self, place):
        return stored(self.text, 24) if place == 0 else self.sum_of(self.sum_before(place - 1), place - 1)

    def goes_on(self, before, place):
        return self.page(place) != 0 and self.sum_of(before, place) == stored(self.frame(place), 16)

    def adds_up(self, before, place):
        return self.frame(place)[8:16] == self.salt and self.goes_on(before, place)

    def stands(self, place):
        return self.adds_up(self.sum_before(place), place) or self.adds_up(self.due_before(place), place)

    def broken(self):
        """The first frame that doesn't add up, or the number of frames."""
        return next((place for place in range(self.count) if not self.adds_up(self.sum_before(place), place)), self.count)

    def is_whole(self, place):
        """Whether the frames from this place on stand, up to one that commits."""
        while place < self.count and self.stands(place):
            if self.commits(place):
                return True
            place += 1
        return False

    def has_later_commit(self):
        broken, all_open = self.broken(), True
        for behind in range(broken, self.count - 1):
            all_open = all_open and self.is_open(behind)
            begins = self.page(behind + 1) == COUNT_PAGE or (all_open and self.commits(behind))
            if begins and self.is_whole(behind + 1):
                return True
        return False

    def ends(self):
        """The frames that commit, before the first that doesn't add up."""
        return [place for place in range(self.broken()) if self.commits(place)]


def has_frame(text):
    for size in PAGE_SIZES:
        for big in (False, True):
            log = Log(text, size, big)
            if any(log.goes_on(log.sum_before(place), place) for place in range(log.count)):
                return True
    return False


def is_damaged(text):
    """Whether a log is damaged where no stop leaves it so."""
    if len(text) < HEAD + FRAME_HEAD:
        return False
    log = Log(text)
    if log.is_signed:
        return log.has_later_commit()
    is_emptied = text[:3] == b"\0\x7f\x06" and text[3] in (0x82, 0x83)
    return not is_emptied and has_frame(text)
