"""A model of document 02's wish 10, a header that arrives part by part, over the model of the whole-slice reader (reader.py); and of its two functions in C, which keep a feeder as twenty numbers.
Written from the sentences of document 02, which are quoted.
"""
import reader
import writer

MORE, BUFFER, NO_FEEDER, NUMBERS = 255, 36, 27, 20
REFUSALS = (*range(1, 33), BUFFER)


def outcome(taken, buffer, rooms):
    """What has come by the last of these bytes: a record or a refusal's number, or None for "need more". "The outcome comes [..] at byte 8 for 1 and 2, at the end of the length field for 4 and 36, and at the
    header's last byte for all else"."""
    if len(taken) < 8:
        return None
    try:
        _, start, end = reader.preamble(taken)
    except reader.Refused as refusal:
        return refusal.args[0] if refusal.args[0] != 3 else None
    # "36, lent buffer shorter than the named text, after 4 and before any text byte is taken"
    if buffer < end - start:
        return BUFFER
    return reader.read(taken, *rooms) if len(taken) >= end else None


class Feeder:
    """Keeps every byte that it took, and what it says: None, a record or a number. `rooms` are entries, name bytes and dimensions."""

    def __init__(self, buffer=131_072, rooms=(512, 65_536, 32)):
        self.buffer, self.rooms, self.taken, self.says = buffer, rooms, b'', None

    def feed(self, part):
        """What it says after this part, and the number of bytes used of it. "After an outcome, further feeding returns that outcome and uses no bytes"."""
        if self.says is not None:
            return self.says, 0
        used = 0
        self.says = outcome(self.taken, self.buffer, self.rooms)
        while self.says is None and used < len(part):
            # no outcome comes between byte 8, the end of the length field and the header's last byte
            step = max(1, min(len(part) - used, self.next() - len(self.taken)))
            self.taken += part[used:used + step]
            used += step
            self.says = outcome(self.taken, self.buffer, self.rooms)
        return self.says, used

    def next(self):
        """How many bytes are taken at the next of the places where an outcome can come; byte by byte where that is not known yet."""
        try:
            return reader.preamble(self.taken)[2]
        except reader.Refused:
            return 0

    def end(self):
        """"Ending the input early gives 3, or 1 below 8 bytes.\""""
        if self.says is None:
            self.says = 1 if len(self.taken) < 8 else 3
        return self.says

    def text(self):
        """"The text buffer [..] holds the text bytes taken so far"."""
        return self.taken[text_start(self.taken):]


def text_start(front):
    return 10 if tuple(front[6:8]) == (1, 0) else 12


class InC:
    """The C view: a feeder's twenty numbers, which may be any; the text buffer, and the three rooms. Each member of a room is 5 at first. A call is lent the first bytes of the text buffer."""

    def __init__(self, numbers, text, table, names, shape):
        self.numbers, self.text, self.table, self.names, self.shape = list(numbers), [5] * text, [5] * table, [5] * names, [5] * shape

    def are_feeders(self):
        said, version, order = self.numbers[13:16]
        return said == 0 or said in REFUSALS or said == MORE and version in (1, 2, 3) and order in (0, 1)

    def again(self):
        """An outcome that was said, and for a header its six values."""
        said = self.numbers[13]
        return (0, self.numbers[14:]) if said == MORE else (said, None)

    def feed(self, part, buffer):
        """What is returned, what is written to `said` and to `used`; None where nothing is written."""
        if not self.are_feeders():
            return NO_FEEDER, None, None
        if self.numbers[13] != 0:
            return *self.again(), 0
        feeder, head = Feeder(buffer, (len(self.table) // writer.WIDTH, len(self.names), len(self.shape))), bytes(n % 256 for n in self.numbers[:12])
        feeder.taken = (head[:text_start(head)] + bytes(self.text[:buffer]))[:self.numbers[12]]
        says, used = feeder.feed(part)
        text, front = feeder.text(), feeder.taken[:text_start(feeder.taken)]
        self.text[:len(text)] = text
        returned, said = (MORE, None) if says is None else (says, None) if isinstance(says, int) else (0, self.hold(says))
        self.numbers = [*front, *head[len(front):], len(feeder.taken), 0 if says is None else returned or MORE, *(said or [0] * 6)]
        return returned, said, used

    def hold(self, record):
        """Puts an accepted record into the rooms, and gives its six values."""
        for room, members in ((self.table, writer.numbers_of(record.dtype)), (self.names, record.names), (self.shape, record.shape)):
            room[:len(members)] = members
        return [record.version[0], int(record.fortran), len(record.shape), len(record.table), len(record.names), record.data]

    def end(self):
        """What is returned, and what is written to `said`."""
        if not self.are_feeders():
            return NO_FEEDER, None
        if self.numbers[13] != 0:
            return self.again()
        self.numbers[13:] = [1 if self.numbers[12] < 8 else 3] + [0] * 6
        return self.numbers[13], None
