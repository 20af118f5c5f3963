"""A trace in the binary form of blktrace, for blkparse to print: what a kernel would have written of a few requests."""

import struct

MAGIC = 0x65617407
SYNC_BITS = {"R": 1, "W": 2, "flush": 4, "sync": 8, "notify": 1 << 10, "ahead": 1 << 11, "meta": 1 << 12, "discard": 1 << 13, "fua": 1 << 15}
# the action's number, and the bit of its category
ACTIONS = {"Q": (1, 1 << 4), "D": (7, 1 << 6), "C": (8, 1 << 7)}
DEVICE = 8 << 20


class Writer:
    def __init__(self):
        self.bytes, self.sequence, self.time = b"", 0, 0

    def record(self, action, process, sector=0, length=0, more=b""):
        self.sequence += 1
        self.time += 1500
        fields = (MAGIC, self.sequence, self.time, sector, length, action, process, DEVICE, 0, 0, len(more))
        self.bytes += struct.pack("<IIQQIIIIIHH", *fields) + more

    def process(self, number, name):
        self.record(SYNC_BITS["notify"] << 16, number, more=name.encode().ljust(16, b"\0"))

    def request(self, process, kinds, sector, sectors):
        """A request that is queued, issued and completed."""
        for number, category in ACTIONS.values():
            bits = category | sum(SYNC_BITS[it] for it in kinds)
            self.record(number | bits << 16, process, sector, sectors * 512)


def sample():
    """Requests of two processes, of each kind that blkparse prints in a way of its own."""
    writer = Writer()
    writer.process(100, "mysqld")
    writer.process(200, "kworker/0:1H")
    for process, kinds, sector, sectors in (
        (100, ("W",), 2048, 8),
        (100, ("W", "sync"), 2056, 16),
        (200, ("R",), 4096, 64),
        (200, ("R", "ahead"), 4160, 128),
        (100, ("W", "discard", "sync"), 8192, 1024),
        (200, ("W", "flush", "sync"), 0, 0),
        (200, ("flush",), 0, 0),
        (200, ("W", "fua", "meta"), 512, 8),
        (100, ("W",), 7, 3),
    ):
        writer.request(process, kinds, sector, sectors)
    return writer.bytes
