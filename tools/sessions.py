"""Makes the sessions that the gate plays, byte for byte the same each time: run at the top, python3 tools/sessions.py

For each number of boards and each link it makes a script, plays it on the model and stores both in
crates/sessions/data. It copies the sessions of examples/ there too, and writes what the program `sessions` is given,
what it must print and the status that it must end with. One session is stored with a listing that is wrong on purpose:
the program must tell it, and fail. With --check it writes nothing, and fails if a file is not what it would write.
"""

import pathlib
import sys

import model

TOP = pathlib.Path(__file__).resolve().parent.parent
EXAMPLES = TOP / "examples"
CRATE = TOP / "crates" / "sessions"
LINKS = ("queue", "pool")
SHORTEST = 330  # records of a session for a number of boards and a link

WAYS = ("at the bench", "over two caps")  # how the program plays each session

# longer than what the bench reads at once: boards, link, records, and the bytes behind them. The first has more than
# 64 KiB, the second ends at a refused K with records and a cut record behind it, the third at a last record cut short
LONG = (
    ("long", 9, 1, 4200, b""),
    ("long-ended", 16, 0, 1500, b"K0200100000000 \nD0000000000000 \nP0000000000001 \nL000000"),
    ("long-cut", 5, 1, 1100, b"S0000300000"),
)

# how often a load, a store and a delivery come, and on how many pages and places of each
PHASES = (
    ("filling", 3, 3, 8, 2, 2),
    ("reading", 9, 1, 9, 1, 2),
    ("crowding", 3, 3, 1, 1, 1),
    ("writing", 1, 7, 8, 1, 2),
    ("spread", 3, 2, 6, 4, 3),
    ("reading", 8, 1, 4, 2, 1),
    ("mixed", 4, 4, 9, 1, 1),
)
PHASE_RECORDS = 30

# sixteen bytes that have not the form of a record; none begins with K, which would end the session
MALFORMED = (
    b"k0200100000000 \n",
    b"l0000000000000 \n",
    b"X0000000000000 \n",
    b" 0000000000000 \n",
    b"D0000000000000  ",
    b"D0000000000000\n\n",
    b"D0000000000000 \r",
    b"D0100000000000 \n",
    b"D0000000000001 \n",
    b"D00 0000000000 \n",
    b"L0000000000001 \n",
    b"L000000000000g \n",
    b"L0x00000000000 \n",
    b"S000000000000A \n",
    b"S00-0100000001 \n",
    b"S0000\xb200000001 \n",
    b"P010000000002a \n",
    b"P0000000000 2a \n",
    b"\x00" * 16,
    b"\xcb0200100000000 \n",
)


class Dice:
    """Numbers that look like chance and are always the same."""

    def __init__(self, seed):
        self.state = seed

    def below(self, count):
        self.state = (self.state * 6364136223846793005 + 1442695040888963407) % 2 ** 64
        return (self.state >> 33) % count

    def of(self, items):
        return items[self.below(len(items))]

    def word(self):
        return self.below(2 ** 16) * 2 ** 16 + self.below(2 ** 16)


class Session:
    """A script in the making, played on the model as it grows."""

    def __init__(self, boards, pool):
        self.boards, self.pool = boards, pool
        self.pages = 1 + (5 * boards + 8 * pool) % 16
        self.dice = Dice(1000 * boards + pool)
        self.player = model.Player()
        self.records = []
        self.answers = []

    def record(self, record):
        self.records.append(record)
        self.answers.append(self.player.play(record))
        return self.answers[-1]

    def call(self, letter, two=0, three=0, eight=0):
        return self.record(b"%c%02d%03d%08x \n" % (ord(letter), two, three, eight))

    def deliver(self):
        return self.call("D", 0, self.dice.below(1000))

    def malformed(self):
        self.record(self.dice.of(MALFORMED))

    def beyond(self):
        """An address that is not in the kit."""
        words = 16 * self.pages
        return words + self.dice.of((0, 1, self.dice.below(1000 - words)))

    def outsider(self):
        """A number that is no board's."""
        return self.boards + self.dice.of((0, 1, self.dice.below(100 - self.boards)))

    def idle(self):
        return [b.number for b in self.player.kit.boards if b.open is None]

    def busy(self):
        return [b.number for b in self.player.kit.boards if b.open is not None]

    def make(self, shortest):
        self.call("D")
        self.malformed()
        self.call("K", self.boards, self.pages, self.pool)
        self.place()
        phase = 0
        while len(self.records) < shortest:
            self.play_phase(*PHASES[phase % len(PHASES)][1:])
            phase += 1
        self.drain()
        self.look_back()
        self.drain()
        self.deliver()

    def place(self):
        """Words are placed, and a load and a store that are refused do not end that."""
        for _ in range(6):
            self.call("P", 0, self.dice.below(16 * self.pages), self.dice.word())
        self.call("P", 0, self.beyond(), self.dice.word())
        self.malformed()
        self.call("L", self.outsider(), 0)
        self.call("P", 0, 16 * self.pages - 1, self.dice.word())
        self.call("S", self.dice.below(self.boards), self.beyond(), self.dice.word())
        self.call("P", 0, 0, self.dice.word())

    def play_phase(self, loads, stores, deliveries, pages, places):
        hot_pages = [self.dice.below(self.pages) for _ in range(pages)]
        hot = [16 * page + self.dice.below(16) for page in hot_pages for _ in range(places)]
        for _ in range(PHASE_RECORDS):
            chance = self.dice.below(loads + stores + deliveries)
            if self.dice.below(20) == 0:
                self.refused(hot)
            elif chance >= loads + stores or not self.idle():
                self.deliver()
            elif chance < loads:
                self.call("L", self.dice.of(self.idle()), self.dice.of(hot))
            else:
                self.call("S", self.dice.of(self.idle()), self.dice.of(hot), self.dice.word())

    def refused(self, hot):
        which = self.dice.below(5)
        if which == 0:
            self.call(self.dice.of("LS"), self.outsider(), self.dice.of(hot))
        elif which == 1:
            self.call(self.dice.of("LS"), self.dice.below(self.boards), self.beyond())
        elif which == 2 and self.busy():
            self.call(self.dice.of("LS"), self.dice.of(self.busy()), self.dice.of(hot))
        elif which == 3:
            self.call("P", 0, self.dice.of(hot), self.dice.word())
        else:
            self.malformed()

    def drain(self):
        while self.deliver()[:1] != b"Q":
            pass

    def look_back(self):
        """Each board reads words of a page or two when all is quiet."""
        for board in range(self.boards):
            self.call("L", board, (16 * board + self.dice.below(16)) % (16 * self.pages))
            self.deliver()


def sessions():
    """Each name with its script and its listing: those of examples/, then those that are made."""
    for script in sorted(EXAMPLES.glob("*.script")):
        yield script.stem, script.read_bytes(), script.with_suffix(".listing").read_bytes()
    for boards in range(1, 17):
        for pool, link in enumerate(LINKS):
            session = Session(boards, pool)
            session.make(SHORTEST)
            yield f"n{boards:02d}-{link}", b"".join(session.records), b"".join(session.answers)
    for name, boards, pool, shortest, behind in LONG:
        session = Session(boards, pool)
        session.make(shortest)
        script = b"".join(session.records) + behind
        yield name, script, model.listing(script)


def stored():
    """Each session with its listing, and the one that is stored: the same but for one, which is wrong on purpose."""
    for name, script, listing in sessions():
        assert listing == model.listing(script), name
        yield name, script, listing, listing
        if name == "worked":
            yield "worked-wrong", script, listing, listing.replace(b"F010030000002a0", b"F010030000002b0")


def told(name, played, expected):
    """What the program prints of a session."""
    says = f"{len(played) // 16} records, the listing agrees\n"
    if played != expected:
        line = next(place for place in range(len(played)) if played[place] != expected[place]) // 16
        lines = [listing.decode().splitlines()[line] for listing in (expected, played)]
        says = f"the listing differs at line {line + 1}\n  expected {lines[0]}\n  found    {lines[1]}\n"
    return "".join(f"{name} {way}: {says}" for way in WAYS)


def files():
    """What is written, by path."""
    names, printed, status = "", "", 0
    for name, script, played, expected in stored():
        yield CRATE / "data" / f"{name}.script", script
        yield CRATE / "data" / f"{name}.listing", expected
        names += f"{name}\n"
        printed += told(name, played, expected)
        status = 1 if played != expected else status
    yield CRATE / "stdin", names.encode()
    yield CRATE / "stdout", printed.encode()
    yield CRATE / "status", f"{status}\n".encode()


def main():
    made = dict(files())
    there = set((CRATE / "data").glob("*"))
    wrong = [path for path in there if path not in made]
    for path, content in made.items():
        if "--check" not in sys.argv:
            path.write_bytes(content)
        elif not path.exists() or path.read_bytes() != content:
            wrong.append(path)
    for path in sorted(wrong):
        print(f"{path.relative_to(TOP)} is not what tools/sessions.py makes")
    sys.exit(1 if wrong else 0)


if __name__ == "__main__":
    main()
