"""A model of the sharing kit in plain Python: reads a script from standard input, writes its listing.

    python3 tools/model.py < examples/worked.script

It was written from the rules alone and shares nothing with the Rattle code, so that the two can be compared. While it plays
it asserts what every session promises: one memory, hops, no message refused by its receiver, and the bounds on messages that
wait and on deliveries.
"""

import re
import sys
from dataclasses import dataclass, field, replace

PAGE_WORDS, LINK_LIMIT, MOST_HOPS = 16, 288, 14
NONE, READ, WRITE = "none", "read", "write"  # a board's access to a page
LOAD, STORE = "load", "store"  # the kinds of an access
ASKED, CLEARING = "asked", "clearing"  # the stages of an open access
READ_REQUEST, WRITE_REQUEST, COPY, GRANT, INVALIDATE, ACKNOWLEDGEMENT = range(1, 7)
REQUESTS = (READ_REQUEST, WRITE_REQUEST)


class Refused(Exception):
    """A question was answered no: its number."""


def ask(number, yes):
    if not yes:
        raise Refused(number)


@dataclass(frozen=True)
class Message:
    kind: int
    page: int
    sender: int
    to: int
    asker: int
    hops: int = 0
    copy_set: frozenset = frozenset()
    words: tuple = ()


@dataclass
class Access:
    """A load or a store that is open."""

    kind: str
    address: int
    word: int
    stage: str = ASKED
    awaited: set = field(default_factory=set)
    hops: int = 0  # as the copy or the grant brought them
    passed_on: int = 0  # as counted from outside


@dataclass
class Entry:
    """What a board keeps of one page."""

    access: str
    hint: int = 0
    copy_set: set = field(default_factory=set)
    words: list = field(default_factory=lambda: [0] * PAGE_WORDS)


class Board:
    """The rules of one board. Load, store and arrive answer None, or the access that is done and its word."""

    def __init__(self, number, pages, post):
        self.number, self.post = number, post
        self.pages = [Entry(NONE if number else WRITE) for _ in range(pages)]
        self.open = None
        self.waiting = []
        self.deferred = None  # who sent the invalidate that is put off: on the page of the open load

    def owns(self, page):
        return self.pages[page].hint == self.number

    def open_on(self, page):
        return self.open is not None and self.open.address // PAGE_WORDS == page

    def load(self, address):
        page, place = divmod(address, PAGE_WORDS)
        if self.pages[page].access != NONE:
            return Access(LOAD, address, 0), self.pages[page].words[place]
        self.open = Access(LOAD, address, 0)
        self.post(Message(READ_REQUEST, page, self.number, self.pages[page].hint, self.number))

    def store(self, address, word):
        page = address // PAGE_WORDS
        self.open = Access(STORE, address, word)
        if self.pages[page].access == WRITE or self.owns(page) and not self.pages[page].copy_set:
            return self.finish_store()
        if self.owns(page):
            self.clear(page)
        else:
            self.post(Message(WRITE_REQUEST, page, self.number, self.pages[page].hint, self.number))

    def clear(self, page):
        """The open store waits until each holder of a copy has acknowledged."""
        self.open.stage = CLEARING
        self.open.awaited = set(self.pages[page].copy_set)
        for member in sorted(self.open.awaited):
            self.post(Message(INVALIDATE, page, self.number, member, self.number))

    def expects(self, m):
        """What a board asks of a message that arrives: it would be refused 16."""
        open_here = self.open if self.open_on(m.page) else Access("", 0, 0)
        new_asker = m.asker not in [self.number] + [w.asker for w in self.waiting]
        return {
            READ_REQUEST: new_asker,
            WRITE_REQUEST: new_asker,
            COPY: (open_here.kind, open_here.stage) == (LOAD, ASKED),
            GRANT: (open_here.kind, open_here.stage) == (STORE, ASKED),
            INVALIDATE: not self.owns(m.page) and not (open_here.kind == LOAD and self.deferred is not None),
            ACKNOWLEDGEMENT: m.sender in open_here.awaited,
        }[m.kind]

    def arrive(self, m):
        if m.kind in REQUESTS and self.open_on(m.page):
            self.waiting.append(m)
        elif m.kind in REQUESTS:
            self.serve(m)
        elif m.kind == COPY:
            return self.finish_load(m)
        elif m.kind == GRANT:
            return self.take_ownership(m)
        elif m.kind == INVALIDATE and self.open_on(m.page) and self.open.kind == LOAD:
            self.deferred = m.sender
        elif m.kind == INVALIDATE:
            self.invalidate(m.page, m.sender)
        else:
            self.open.awaited.remove(m.sender)
            if not self.open.awaited:
                return self.finish_store()

    def serve(self, m):
        entry = self.pages[m.page]
        if not self.owns(m.page):
            self.post(replace(m, sender=self.number, to=entry.hint, hops=m.hops + 1))
            entry.hint = m.asker
        elif m.kind == READ_REQUEST:
            entry.copy_set.add(m.asker)
            entry.access = READ
            self.post(Message(COPY, m.page, self.number, m.asker, m.asker, m.hops, words=tuple(entry.words)))
        else:
            others = frozenset(entry.copy_set - {m.asker})
            self.post(Message(GRANT, m.page, self.number, m.asker, m.asker, m.hops, others, tuple(entry.words)))
            entry.access, entry.copy_set, entry.hint = NONE, set(), m.asker

    def serve_waiting(self):
        waiting, self.waiting = self.waiting, []
        for m in waiting:
            self.serve(m)

    def finish_load(self, m):
        entry = self.pages[m.page]
        entry.words, entry.access, entry.hint = list(m.words), READ, m.sender
        done, self.open = replace(self.open, hops=m.hops), None
        word = entry.words[done.address % PAGE_WORDS]
        if self.deferred is not None:
            self.invalidate(m.page, self.deferred)
            self.deferred = None
        self.serve_waiting()
        return done, word

    def take_ownership(self, m):
        entry = self.pages[m.page]
        entry.words, entry.copy_set, entry.hint, entry.access = list(m.words), set(m.copy_set), self.number, READ
        self.open.hops = m.hops
        if not entry.copy_set:
            return self.finish_store()
        self.clear(m.page)

    def invalidate(self, page, sender):
        self.pages[page].access = NONE
        self.post(Message(ACKNOWLEDGEMENT, page, self.number, sender, sender))

    def finish_store(self):
        done, self.open = self.open, None
        page, place = divmod(done.address, PAGE_WORDS)
        entry = self.pages[page]
        entry.access, entry.copy_set, entry.words[place] = WRITE, set(), done.word
        self.serve_waiting()
        return done, done.word


class Kit:
    """Boards and their link. A call gives its answer as a letter and four numbers."""

    def __init__(self, boards, pages, pool):
        ask(4, 1 <= boards <= 16)
        ask(5, 1 <= pages <= 16)  # 6 and 7 cannot come: the link's limit is 288, which is at least N * N + 16, and it is new
        self.boards = [Board(b, pages, self.post) for b in range(boards)]
        self.pool, self.messages = pool, []  # the link: its messages in order of posting
        self.array = [0] * (PAGE_WORDS * pages)  # the one memory that the kit is to look like
        self.running = False
        self.deliveries_left = 0  # after so many nothing is open

    def place(self, address, word):
        ask(2, address < len(self.array))
        self.boards[0].pages[address // PAGE_WORDS].words[address % PAGE_WORDS] = word
        self.array[address] = word
        return "A", 0, address, word, 0

    def access(self, kind, board, address, word):
        ask(1, board < len(self.boards))
        ask(2, address < len(self.array))
        ask(3, self.boards[board].open is None)
        self.running = True
        done = self.boards[board].load(address) if kind == LOAD else self.boards[board].store(address, word)
        if done is None:
            self.deliveries_left = self.open_count() * (3 * len(self.boards) - 4)
            return "O", board, address, word, 0
        self.answered(*done)
        return "A", board, address, done[1], 0

    def deliver(self, pick):
        self.running = True
        self.deliveries_left -= 1
        if not self.messages:
            assert not self.open_count()
            return "Q", 0, 0, 0, 0
        m = self.messages.pop(pick % len(self.messages) if self.pool else 0)
        receiver = self.boards[m.to]
        assert receiver.expects(m), (m, receiver.open)
        done = receiver.arrive(m)
        assert self.deliveries_left > 0 or not self.open_count()
        if done is None:
            return "M", m.to, m.kind, 0, m.hops
        self.answered(*done)
        return "F", m.to, done[0].address, done[1], done[0].hops

    def post(self, m):
        boards = len(self.boards)
        assert m.sender != m.to and m.to not in m.copy_set and m.hops <= MOST_HOPS
        assert {m.to, m.asker, *m.copy_set} <= set(range(boards))
        if m.kind in REQUESTS and m.sender != m.asker:
            self.boards[m.asker].open.passed_on += 1
        self.messages.append(m)
        assert len(self.messages) <= boards * (boards - 1) <= LINK_LIMIT

    def open_count(self):
        return sum(board.open is not None for board in self.boards)

    def answered(self, access, word):
        """One memory: a store writes the array when it is answered, a load brings what the array has then."""
        assert access.hops == access.passed_on <= max(len(self.boards) - 2, 0)
        if access.kind == STORE:
            self.array[access.address] = word
        assert self.array[access.address] == word, (access, word)


class Player:
    """Plays records of sixteen bytes, one after the other."""

    FORM = re.compile(rb"([KPLSD])([0-9]{2})([0-9]{3})([0-9a-f]{8}) \n")

    def __init__(self):
        self.kit, self.ended = None, False

    def play(self, record):
        try:
            letter, board, place, word, hops = self.call(*self.read(record))
        except Refused as refusal:
            self.ended = len(record) < 16 or record[:1] == b"K"
            letter, board, place, word, hops = "X", 0, refusal.args[0], 0, 0
        return b"%c%02d%03d%08x%x\n" % (ord(letter), board, place, word, hops)

    def read(self, record):
        match = self.FORM.fullmatch(record)
        ask(17, match)
        letter, two, three, eight = match[1].decode(), int(match[2]), int(match[3]), int(match[4], 16)
        ask(17, not (letter == "K" and eight > 1 or letter in "PD" and two or letter in "LD" and eight))
        return letter, two, three, eight

    def call(self, letter, two, three, eight):
        ask(18, (letter == "K") == (self.kit is None))
        ask(18, not (letter == "P" and self.kit.running))
        if letter == "K":
            self.kit = Kit(two, three, eight == 1)
            return "A", two, three, eight, 0
        if letter == "P":
            return self.kit.place(three, eight)
        if letter == "D":
            return self.kit.deliver(three)
        return self.kit.access(LOAD if letter == "L" else STORE, two, three, eight)


def listing(script):
    player, answers = Player(), []
    for start in range(0, len(script), 16):
        if not player.ended:
            answers.append(player.play(script[start:start + 16]))
    return b"".join(answers)


if __name__ == "__main__":
    sys.stdout.buffer.write(listing(sys.stdin.buffer.read()))
