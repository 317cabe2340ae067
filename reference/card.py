"""Reference model of the store card: arrays, link table, card, book and job.

Written for reading, not for speed: every rule stands once, in the order and the
words of the rules.  "Declined" here is what docs/refusals.md calls refused.
"""
from dataclasses import dataclass

PAGE = 2112                                   # bytes in each page
DONE, WORN, ABSENT = "done", "worn", "absent"
LOW, HIGH = 0, 1                              # levels of the /WP pin
FF_PAGE = b"\xff" * PAGE
LINK_ENTRIES = 20


# --------------------------------------------------------------------- arrays

def power_of_two_up_to(value, most):
    return 1 <= value <= most and value & (value - 1) == 0


class MemoryArray:
    """Stands on writable bytes: N lives of four bytes each, high byte first, then the
    pages by block and page.  Empty (N and P 0) if N, P or the length does not fit."""

    def __init__(self, n, p, data):
        fits = (power_of_two_up_to(n, 1024) and power_of_two_up_to(p, 64)
                and len(data) == 4 * n + PAGE * n * p)
        self.n, self.p = (n, p) if fits else (0, 0)
        self.data = data

    def life(self, block):
        return int.from_bytes(self.data[4 * block:4 * block + 4], "big")

    def _part(self, block, page, pages=1):
        """The page's (or several pages') part of the array's bytes."""
        at = 4 * self.n + PAGE * (block * self.p + page)
        return slice(at, at + PAGE * pages)

    def _exists(self, block, page=0):
        return 0 <= block < self.n and 0 <= page < self.p

    def read(self, block, page, area):
        if not self._exists(block, page) or len(area) != PAGE:
            return ABSENT
        area[:] = self.data[self._part(block, page)]
        return DONE

    def program(self, block, page, new):
        if not self._exists(block, page) or len(new) != PAGE:
            return ABSENT
        if self.life(block) == 0:
            return WORN
        part = self._part(block, page)
        old = int.from_bytes(self.data[part], "big")
        self.data[part] = (old & int.from_bytes(new, "big")).to_bytes(PAGE, "big")
        return DONE

    def erase(self, block):
        if not self._exists(block):
            return ABSENT
        life = self.life(block)
        if life == 0:
            return WORN
        self.data[self._part(block, 0, self.p)] = FF_PAGE * self.p
        self.data[4 * block:4 * block + 4] = (life - 1).to_bytes(4, "big")
        return DONE


class DumpArray(MemoryArray):
    """The same layout held for reading; each life counts as 0."""

    def life(self, block):
        return 0


class LinkTable:
    """Entries of two 16-bit words: (0, 0) unused, (8000h + A, B) live, (C000h + A, B) retired."""

    def __init__(self, entries=LINK_ENTRIES):
        self.words = [(0, 0)] * entries

    def used(self):
        return sum(entry != (0, 0) for entry in self.words)

    def full(self):
        return self.used() == len(self.words)

    def live(self):
        return [(first & 0x3FFF, second) for first, second in self.words if first >> 14 == 0b10]

    def partner(self, address, n):
        """The other address of the live link, wholly below N, that holds the address; or None."""
        for a, b in self.live():
            if a < n and b < n and address in (a, b):
                return b if address == a else a
        return None

    def reach(self, address, n):
        partner = self.partner(address, n)
        return address if partner is None else partner

    def swap(self, a, b):
        """A finished swap: retire the live link whose first address is A, then write A, B."""
        self.words = [(0xC000 + a, second) if first == 0x8000 + a else (first, second)
                      for first, second in self.words]
        self.words[self.words.index((0, 0))] = (0x8000 + a, b)

    def to_bytes(self):
        return b"".join(word.to_bytes(2, "big") for entry in self.words for word in entry)


class LinkedArray:
    """At address b it shows the pages and the life of the block that b reaches."""

    def __init__(self, array, table):
        self.array, self.table = array, table

    n = property(lambda self: self.array.n)
    p = property(lambda self: self.array.p)

    def reach(self, address):
        return self.table.reach(address, self.n)

    def life(self, address):
        return self.array.life(self.reach(address))

    def read(self, address, page, area):
        return self.array.read(self.reach(address), page, area)

    def program(self, address, page, new):
        return self.array.program(self.reach(address), page, new)

    def erase(self, address):
        return self.array.erase(self.reach(address))


# ------------------------------------------------------------- codes and rules

RESET, WREN, WRDI, JEDEC, TABLE = 0xFF, 0x06, 0x04, 0x9F, 0xA5
SWAP, PROGRAM, ERASE, LOAD = 0xA1, 0x10, 0xD8, 0x13
READ_REGISTER, WRITE_REGISTER = {0x05, 0x0F}, {0x01, 0x1F}
DATA_RESET, DATA_KEEP = {0x02, 0x32}, {0x84, 0x34}       # load codes: others to FFh / kept
DATA_LOAD = DATA_RESET | DATA_KEEP
READ_BUFFER = {0x03, 0x0B, 0x3B, 0x6B, 0xBB, 0xEB, 0x0C, 0x3C, 0x6C, 0xBC}
QUAD = {0x32, 0x34, 0x6B, 0x6C, 0xEB}                    # shut by WP-E 1
PIN_SHUT = WRITE_REGISTER | {0x02, 0x84, PROGRAM, ERASE, SWAP}   # shut by WP-E 1 and /WP low
WHILE_BUSY = READ_REGISTER | {JEDEC}

# code -> parts after the code; the count of sent bytes follows from the widths
WIDTH = {"dummy": 1, "register": 1, "value": 1, "a": 2, "b": 2, "row": 2, "column": 2}
FRAMES = {}
for codes, parts in (
        ((RESET, WREN, WRDI), ()),
        ((JEDEC, TABLE), ("dummy",)),
        (READ_REGISTER, ("register",)),
        (WRITE_REGISTER, ("register", "value")),
        ((SWAP,), ("a", "b")),
        ((PROGRAM, ERASE, LOAD), ("dummy", "row")),
        (DATA_LOAD, ("column", "data")),                 # data: one byte or more
        ((0x03, 0x0B, 0x3B, 0x6B, 0xBB), ("column", "dummy")),
        ((0xEB,), ("column", "dummy", "dummy")),
        ((0x0C, 0x3C, 0x6C, 0xBC), ("column", "dummy", "dummy", "dummy"))):
    FRAMES.update(dict.fromkeys(codes, parts))


IDENTITY = b"\xef\xba\x21"
STEPS = {"load": 1, "swap": 2, "program": 4, "erase": 16, "lock": 4}
LATCH_CODES = DATA_LOAD | {PROGRAM, ERASE}
CLEARS_WEL = {"load", "program", "erase"}


class Frame:
    """A transaction's sent bytes taken apart, with the /WP level."""

    def __init__(self, sent, wp, frames):
        self.sent, self.wp = bytes(sent), wp
        self.code = self.sent[0] if self.sent and self.sent[0] in frames else None
        self.part = {}
        if self.code is None:
            self.count_fits = False
            return
        at = 1
        for part in frames[self.code]:
            if part == "data":
                self.part["data"] = self.sent[at:]
                self.count_fits = len(self.sent) > at
                return
            self.part[part] = int.from_bytes(self.sent[at:at + WIDTH[part]], "big")
            at += WIDTH[part]
        self.count_fits = len(self.sent) == at

    def __getattr__(self, name):              # frame.row, frame.column, frame.a ...
        try:
            return self.__dict__["part"][name]
        except KeyError:
            raise AttributeError(name) from None

    def reads_register(self):
        return self.code in READ_REGISTER

    def writes(self, digit):
        """A register write whose address has this high digit."""
        return self.code in WRITE_REGISTER and self.register >> 4 == digit


# SR-1, from S7 down: SRP0, BP3, BP2, BP1, BP0, TB, WP-E, SRP1
def srp0(sr1): return sr1 >> 7 & 1
def block_protect(sr1): return sr1 >> 3 & 15
def tb(sr1): return sr1 >> 2 & 1
def wp_e(sr1): return sr1 >> 1 & 1
def srp1(sr1): return sr1 & 1
def power_lock(sr1): return srp1(sr1) == 1 and srp0(sr1) == 0


# lock bits of SR-2
OTP_L, SR1_L = 0x80, 0x20
LOCKS = OTP_L | SR1_L


def seal_covers(sr1, n, address):
    k = block_protect(sr1)
    if k == 0:
        return False
    if 2 ** k >= n:
        return True
    return address < 2 ** k if tb(sr1) else address >= n - 2 ** k


# ------------------------------------------------- who declines, top to bottom

def unfit(card, f):
    return not card.fit()


def nothing_sent_or_not_listed(card, f):
    return f.code is None


def wrong_count(card, f):
    return not f.count_fits


def busy(card, f):
    return card.left > 0 and f.code not in WHILE_BUSY


def pin_shut(card, f):
    return wp_e(card.sr1) and (f.code in QUAD or f.wp == LOW and f.code in PIN_SHUT)


def no_such_register(card, f):
    return f.code in READ_REGISTER | WRITE_REGISTER and f.register >> 4 not in (0xA, 0xB, 0xC)


def sr1_shut(card, f):
    return f.writes(0xA) and (
        card.locks & SR1_L or power_lock(card.sr1)
        or (srp1(card.sr1) == 0 and srp0(card.sr1) == 1 and wp_e(card.sr1) == 0 and f.wp == LOW))


def new_lock_shut(card, f):
    new = f.value & LOCKS & ~card.locks if f.writes(0xB) else 0
    return new and not card.otp_e or new & SR1_L and not (srp1(card.sr1) and srp0(card.sr1))


def latch_open(card, f):
    return f.code in LATCH_CODES and not card.wel


def no_such_otp_row(card, f):
    return card.otp_e and f.code in (PROGRAM, LOAD) and f.row > 11


def sealed_place(card, f):
    if f.code not in (PROGRAM, ERASE):
        return False
    if card.otp_e:
        return f.code == ERASE or f.row in (0, 1) or card.locks & OTP_L
    return card.sealed(card.place(f.row)[0])


def link_out_of_range(card, f):
    return f.code == SWAP and (f.a >= card.main.n or f.b >= card.main.n or f.a == f.b)


def link_taken(card, f):
    return f.code == SWAP and any(f.b in link or f.a == link[1] for link in card.table.live())


def no_unused_entry(card, f):
    return f.code == SWAP and card.table.full()


def link_sealed(card, f):
    if f.code != SWAP:
        return False
    partner = card.table.partner(f.a, card.main.n)
    return (card.sealed(f.a) or card.sealed(f.b)
            or partner is not None and card.sealed(partner))


DECLINES = (
    (1, "card", unfit),
    (2, "frame", nothing_sent_or_not_listed),
    (3, "frame", wrong_count),
    (4, "counter", busy),
    (5, "pin", pin_shut),
    (6, "register", no_such_register),
    (7, "register", sr1_shut),
    (8, "register", new_lock_shut),
    (9, "latch", latch_open),
    (10, "address", no_such_otp_row),
    (11, "address", sealed_place),
    (12, "links", link_out_of_range),
    (13, "links", link_taken),
    (14, "links", no_unused_entry),
    (15, "links", link_sealed),
)
PLACE = {number: place for number, place, _ in DECLINES}


# ----------------------------------------------------------------------- card

class Card:
    """A main array under its links, and an OTP array."""

    declines = DECLINES

    def __init__(self, main, otp):
        self.table = LinkTable()
        self.main, self.otp = LinkedArray(main, self.table), otp
        self.locks = 0                        # OTP-L and SR1-L at their places in SR-2
        self.power_cycle()

    # -- state as read

    def fit(self):
        return self.main.n > 0 and (self.otp.n, self.otp.p) == (1, 16)

    def registers(self):
        sr2 = self.locks | self.otp_e << 6 | self.ecc_e << 4 | 1 << 3
        sr3 = (self.table.full() << 6 | self.p_fail << 3 | self.e_fail << 2
               | self.wel << 1 | (self.left > 0))
        return {0xA: self.sr1, 0xB: sr2, 0xC: sr3}

    def sealed(self, address):
        return seal_covers(self.sr1, self.main.n, address)

    def place(self, row):
        """(block address, page) of a row with OTP-E 0."""
        return divmod(row % (self.main.n * self.main.p), self.main.p)

    # -- the three calls

    def power_cycle(self):
        self.pending, self.left = None, 0
        if not self.locks & SR1_L:
            self.sr1 = 0x7C
        self.otp_e, self.ecc_e = 0, 1
        self.wel = self.p_fail = self.e_fail = 0
        self.buffer = bytearray(FF_PAGE)
        if self.fit():
            self.load_buffer(0)
        return 0

    def step(self):
        if self.left == 0:
            return 0
        self.left -= 1
        if self.left == 0:
            (operation, *arguments), self.pending = self.pending, None
            self.act(operation, *arguments)
        return self.left

    def transaction(self, sent, wp, area_length):
        """-> (outcome, driven, area)."""
        frame = Frame(sent, wp, FRAMES)
        for number, _, condition in self.declines:
            if condition(self, frame):
                if number == 11:
                    self.fail(frame.code)
                    self.wel = 0
                return number, 0, b"\xff" * area_length
        given = self.take(frame, area_length)[:area_length]
        return 0, len(given), given + b"\xff" * (area_length - len(given))

    # -- effects

    def fail(self, code):
        if code == PROGRAM:
            self.p_fail = 1
        else:
            self.e_fail = 1

    def start(self, operation, *arguments):
        self.pending, self.left = (operation, *arguments), STEPS[operation]

    def take(self, f, area_length):
        """The effect of a taken transaction; answers what it would drive."""
        code = f.code
        if code == RESET:
            self.wel = self.p_fail = self.e_fail = self.otp_e = 0
        elif code in (WREN, WRDI):
            self.wel = int(code == WREN)
        elif code == JEDEC:
            return IDENTITY
        elif code == TABLE:
            return self.table.to_bytes()
        elif f.reads_register():
            return bytes([self.registers()[f.register >> 4]]) * area_length
        elif f.writes(0xA):
            self.sr1 = f.value
        elif f.writes(0xB):
            self.otp_e, self.ecc_e = f.value >> 6 & 1, f.value >> 4 & 1
            new = f.value & LOCKS & ~self.locks
            if new:
                self.start("lock", new)
        elif code in READ_BUFFER:
            return bytes(self.buffer[f.column & 0xFFF:])
        elif code in DATA_LOAD:
            if code in DATA_RESET:
                self.buffer[:] = FF_PAGE
            column = f.column & 0xFFF
            data = f.data[:max(0, PAGE - column)]
            if data:
                self.buffer[column:column + len(data)] = data
        elif code == LOAD:
            self.start("load", f.row)
        elif code == SWAP:
            self.start("swap", f.a, f.b)
        elif code in (PROGRAM, ERASE):
            self.p_fail = self.e_fail = 0
            self.start("program" if code == PROGRAM else "erase", f.row)
        return b""                            # a write of SR-3 has no effect

    def act(self, operation, *arguments):
        """What the last step of an operation does."""
        if operation == "load":
            self.load_buffer(*arguments)
        elif operation == "swap":
            self.table.swap(*arguments)
        elif operation == "program":
            if self.program_buffer(*arguments) == WORN:
                self.fail(PROGRAM)
        elif operation == "erase":
            if self.main.erase(self.place(*arguments)[0]) == WORN:
                self.fail(ERASE)
        elif operation == "lock":
            self.locks |= arguments[0]
        if operation in CLEARS_WEL:
            self.wel = 0

    def array_place(self, row):
        """(array, block or address, page) of a row."""
        return (self.otp, 0, row) if self.otp_e else (self.main, *self.place(row))

    def load_buffer(self, row):
        array, block, page = self.array_place(row)
        return array.read(block, page, self.buffer)

    def program_buffer(self, row):
        array, block, page = self.array_place(row)
        return array.program(block, page, self.buffer)


# ----------------------------------------------------------------------- book

class Book:
    """Gets the calls, each transaction with its outcome, and nothing else."""

    def __init__(self, n, p, lives):
        self.n, self.p, self.lives = n, p, tuple(lives)
        self.sr1, self.locks = 0x7C, 0
        self.swaps = []                       # finished swaps, in order
        self.erases = [0] * n                 # finished erases of each block
        self.waiting, self.left = None, 0

    def transaction(self, sent, outcome):
        if outcome != 0:
            return
        f = Frame(sent, None, FRAMES)
        if f.writes(0xA):
            self.sr1 = f.value
        elif f.writes(0xB) and f.value & LOCKS & ~self.locks:
            self.wait("lock", f.value & LOCKS & ~self.locks)
        elif f.code == SWAP:
            self.wait("swap", (f.a, f.b))
        elif f.code == ERASE:
            self.wait("erase", self.block_of(f.row % (self.n * self.p) // self.p))

    def wait(self, kind, what):
        self.waiting, self.left = (kind, what), STEPS[kind]

    def step(self):
        if self.left == 0:
            return
        self.left -= 1
        if self.left == 0:
            (kind, what), self.waiting = self.waiting, None
            if kind == "lock":
                self.locks |= what
            elif kind == "swap":
                self.swaps.append(what)
            elif self.erases[what] < self.lives[what]:
                self.erases[what] += 1

    def power_cycle(self):
        self.waiting, self.left = None, 0
        if not self.locks & SR1_L:
            self.sr1 = 0x7C

    def block_of(self, address):
        """The block named for an address: a later swap drops an earlier one with the
        same A, and each that remains exchanges its two addresses."""
        for a, b in dict(self.swaps).items():
            if address in (a, b):
                return b if address == a else a
        return address

    def sealed(self, address):
        return seal_covers(self.sr1, self.n, address)

    def power_lock(self):
        return power_lock(self.sr1)


# ------------------------------------------------------------------------ job

@dataclass(frozen=True)
class Fault:
    place: str                                # from the decline table, or "job"
    code: int                                 # sent last; 0 under 16
    number: int
    row: int = 0                              # given to write or check, else 0
    column: int = 0                           # first that differs under 18, else 0


class Misuse(Exception):
    """A use that is to be turned away before anything runs."""


class Declined(Exception):
    pass


class Sender:
    """Sends a job's transactions and stops at the first declined one."""

    def __init__(self, card, wp, row=0):
        self.card, self.wp, self.row, self.code = card, wp, row, 0

    def send(self, sent, area_length=0):
        self.code = sent[0]
        outcome, _, area = self.card.transaction(bytes(sent), self.wp, area_length)
        if outcome != 0:
            raise Declined(Fault(PLACE[outcome], self.code, outcome, self.row))
        return area

    def read_register(self, address):
        return self.send([0x05, address], 1)[0]

    def write_register(self, address, value):
        self.send([0x01, address, value])

    def until_idle(self):
        while self.card.step() != 0:
            pass

    def fault(self, number, column=0):
        return Fault("job", self.code, number, self.row, column)


class Job:
    """Opened, checked, then spent.  Calls answer a Fault, or None when all went well."""

    def __init__(self, kept):
        self.kept, self.state = kept, "opened"

    @staticmethod
    def open(card, wp):
        """A Job, or the Fault of a declined open."""
        s = Sender(card, wp)
        try:
            s.send([RESET])
            kept = s.read_register(0xA0)
            s.write_register(0xA0, 0x00)
        except Declined as stop:
            return stop.args[0]
        return Job(kept)

    def _only(self, *states):
        if self.state not in states:
            raise Misuse(f"job is {self.state}")

    def write(self, card, wp, row, data):
        self._only("opened")
        s = Sender(card, wp, row)
        if len(data) != PAGE:
            return s.fault(16)
        try:
            s.send([WREN])
            s.send(b"\x02\x00\x00" + bytes(data))
            s.send(bytes([PROGRAM, 0]) + row.to_bytes(2, "big"))
            s.until_idle()
            if s.read_register(0xC0) & 0x08:
                return s.fault(17)
        except Declined as stop:
            return stop.args[0]

    def check(self, card, wp, row, data, area):
        self._only("opened")
        s = Sender(card, wp, row)
        if len(data) != PAGE or len(area) != PAGE:
            return s.fault(16)
        area[:] = FF_PAGE
        try:
            s.send(bytes([LOAD, 0]) + row.to_bytes(2, "big"))
            s.until_idle()
            area[:] = s.send(b"\x03\x00\x00\x00", PAGE)
        except Declined as stop:
            return stop.args[0]
        for column in range(PAGE):
            if area[column] != data[column]:
                return s.fault(18, column)
        self.state = "checked"

    def seal(self, card, wp, value):
        self._only("checked")
        try:
            Sender(card, wp).write_register(0xA0, value & 0x7F | 0x01)
        except Declined as stop:
            return stop.args[0]
        self.state = "spent"

    def give_up(self, card, wp):
        """Always ends the job; answers the outcome."""
        self._only("opened", "checked")
        self.state = "spent"
        return card.transaction(bytes([0x01, 0xA0, self.kept]), wp, 0)[0]

    def drop(self):
        """Letting go of a job is a misuse unless seal or give up has spent it."""
        self._only("spent")
