"""What the history of a drive says of its pages: which units have them, by which handles, and which are live."""

import collections

from common import Refused


class Write:
    """A write that is going: its handle, its first block, and its pages by their index."""

    def __init__(self, handle, namespace, address):
        self.handle, self.namespace, self.address = handle, namespace, address
        self.pages = {}


class Replay:
    """Follows the printed histories of the runs on an image, from its first run on. A page is (unit, number)."""

    def __init__(self):
        self.handles = {}  # page that was programmed -> its handle
        self.pages = collections.defaultdict(collections.Counter)  # unit -> its programmed pages by handle
        self.places = {}  # (namespace, address) -> live page
        self.owners = {}  # live page of a block -> (namespace, address)
        self.going = {}  # queue -> Write
        self.tickets = {}  # ticket -> Write
        self.writes = {}  # live page of a going write -> (Write, index)
        self.live = collections.Counter()  # unit -> live pages
        self.copies = []  # (page, its copy), not yet moved
        self.copied = collections.Counter()  # unit -> pages copied from it since its last erase
        self.victims = []  # pages copied from each victim that was erased in this run
        self.position = 0

    def run(self, lines):
        """Follows the history of a run."""
        self.victims = []
        for at, line in enumerate(lines):
            if not line.startswith(" "):
                self.entry(line, at == 0)

    def entry(self, line, is_first):
        words = line.split()
        try:
            position = int(words[0])
            # (a run goes on behind the last entry that the image has: what only read is not kept)
            if position != self.position + 1 and not (is_first and words[1] == "reopened" and position <= self.position):
                raise ValueError(position)
            self.position = position
            ENTRIES[words[1]](self, position, words[2:])
        except (IndexError, KeyError, ValueError):
            raise Refused(f"this entry does not go on with the history: {line.strip()[:200]}") from None

    def program(self, page, handle):
        self.handles[page] = handle
        self.pages[page[0]][handle] += 1

    def lose(self, page):
        """The page is not live any more."""
        self.live[page[0]] -= 1
        if page in self.owners:
            del self.places[self.owners.pop(page)]
        else:
            write, index = self.writes.pop(page)
            del write.pages[index]

    def forget(self, block):
        if block in self.places:
            self.lose(self.places[block])

    def end_write(self, queue):
        """A going write of the queue ends; the pages that it still has are not live."""
        write = self.going.pop(queue, None)
        for page in list(write.pages.values()) if write else ():
            self.lose(page)

    def started(self, position, words):
        self.end_write(words[0])
        write = Write(int(words[3]), int(words[6]), int(words[7]))
        self.going[words[0]] = self.tickets[position] = write

    def placed(self, _position, words):
        ticket, index, unit, number = map(int, words)
        write, page = self.tickets[ticket], (unit, number)
        self.program(page, write.handle)
        write.pages[index] = page
        self.writes[page] = write, index
        self.live[unit] += 1

    def copied_page(self, _position, words):
        unit, number, to_unit, to_number = map(int, words)
        self.program((to_unit, to_number), self.handles[unit, number])
        self.copies.append(((unit, number), (to_unit, to_number)))
        self.copied[unit] += 1

    def moved(self, _position, _words):
        """What still stands at a page that was copied stands at its copy."""
        for page, copy in self.copies:
            if page in self.owners:
                block = self.owners.pop(page)
                self.places[block], self.owners[copy] = copy, block
            elif page in self.writes:
                write, index = self.writes[copy] = self.writes.pop(page)
                write.pages[index] = copy
            else:
                continue
            self.live[page[0]] -= 1
            self.live[copy[0]] += 1
        self.copies = []

    def erased(self, _position, words):
        unit = int(words[0])
        if self.live[unit]:
            raise ValueError(unit)
        for number in range(sum(self.pages[unit].values())):
            self.handles.pop((unit, number), None)
        del self.pages[unit]
        self.victims.append(self.copied.pop(unit, 0))

    def reopened(self, _position, _words):
        for queue in list(self.going):
            self.end_write(queue)
        self.copies = []

    def host(self, _position, words):
        """A command was completed, and its change made where the third word says so."""
        queue, applied, line = words[0], words[2] == "1", words[6:]
        if applied:
            CHANGES.get(line[0], Replay.nothing)(self, words, [int(it) for it in line[1:] if it.isdigit()])
        if line[0] == "write":
            self.end_write(queue)

    def write(self, words, _numbers):
        write = self.going[words[0]]
        for index, page in list(write.pages.items()):
            block = write.namespace, write.address + index
            self.forget(block)
            del self.writes[page], write.pages[index]
            self.places[block], self.owners[page] = page, block

    def take_away(self, _words, numbers):
        for first, count in zip(numbers[1::2], numbers[2::2]):
            for address in range(first, first + count) if count <= len(self.places) else self.between(numbers[0], first, count):
                self.forget((numbers[0], address))

    def between(self, namespace, first, count):
        return [address for it, address in self.places if it == namespace and first <= address < first + count]

    def delete(self, _words, numbers):
        for block in [it for it in self.places if it[0] == numbers[0]]:
            self.forget(block)

    def nothing(self, _words, _numbers=None):
        """An entry after which each page is what it was."""

    def kinds(self, unit):
        """The handles whose pages the unit has."""
        return [it for it, count in self.pages[unit].items() if count] if unit in self.pages else []


ENTRIES = {
    "started": Replay.started,
    "placed": Replay.placed,
    "copied": Replay.copied_page,
    "moved": Replay.moved,
    "erased": Replay.erased,
    "reopened": Replay.reopened,
    "host": Replay.host,
    "retired": Replay.nothing,
    "aside": Replay.nothing,
    "shut": Replay.nothing,
    "worn": Replay.nothing,
}

CHANGES = {"write": Replay.write, "zero": Replay.take_away, "dealloc": Replay.take_away, "delete": Replay.delete}
