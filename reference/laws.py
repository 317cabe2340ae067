"""Property fuzzer: random runs on random small cards, checked after each call.

    python3 reference/laws.py [--runs 1000] [--calls 300] [--seed 0]

The laws, with the seal, power lock, locks, finished swaps and erases from the book:
 a1  an address sealed before each call of a stretch shows the same bytes throughout
 a2  from power lock on SR-1 stays until a power cycle     a3  under SR1-L it stays for good
 b1  no bit of a block rises but by a finished erase of it b2  no OTP bit rises
 b3  no lock bit falls   b4  no used entry becomes unused  b5  life at start = life + erases
 c1  no two addresses reach one block                      c2  each reaches the block named
 c3  SR-1 and both locks are the book's                    c4  used entries = finished swaps <= 20
Beside them, not part of the laws but cheap to watch:
 d1  a declined call alters nothing but the area; 11 only its FAIL bit and WEL
 d2  the area holds the driven bytes, then FFh; a declined call drives none
 d3  answers of the step call, the power cycle, and of the registers
"""
import argparse
import random
from collections import Counter
from dataclasses import dataclass

from card import (FRAMES, HIGH, LOCKS, LOW, OTP_L, PAGE, SR1_L, Book, Card, DumpArray,
                  LinkedArray, LinkTable, MemoryArray)


# -------------------------------------------------------------- cards and calls

@dataclass(frozen=True)
class Setup:
    """What a run starts from; equal setups give equal cards."""
    n: int
    p: int
    kind: str                    # memory, dump or linked (over memory)
    otp: tuple                   # (N, P, kind)
    lives: tuple
    seed: int                    # of the first contents

    def build(self, make=Card):
        """-> (card, main array, OTP array, the bytes below both)"""
        r = random.Random(self.seed)

        def laid(n, p, kind, lives):
            count = PAGE * n * p
            pages = r.choice((b"\xff" * count, r.randbytes(count), bytes(count)))
            data = bytearray(b"".join(life.to_bytes(4, "big") for life in lives) + pages)
            return (DumpArray if kind == "dump" else MemoryArray)(n, p, data), data

        main, main_data = laid(self.n, self.p, self.kind, self.lives)
        if self.kind == "linked":
            table = LinkTable()
            if self.n >= 4:
                table.words[:2] = [(0xC000, 2), (0x8000, self.n - 1)]
            main = LinkedArray(main, table)
        n, p, kind = self.otp
        otp, otp_data = laid(n, p, kind, (r.choice((0, 1, 3)),) * n)
        return make(main, otp), main, otp, (main_data, otp_data)


def random_setup(r):
    unfit = r.random() < 0.04
    n, p = r.choice((1, 2, 4, 4, 8, 16)), r.choice((1, 2, 4))
    otp = (1, 16, r.choice(("memory",) * 5 + ("dump",)))
    if unfit:
        if r.random() < 0.5:
            n = r.choice((0, 3, 5))
        else:
            otp = r.choice(((1, 8, "memory"), (2, 16, "memory"), (0, 0, "memory"), (3, 16, "dump")))
    lives = tuple(r.choice((0, 1, 2, 3, 3)) for _ in range(n))
    return Setup(n, p, r.choice(("memory",) * 7 + ("linked", "dump")), otp, lives,
                 r.randrange(1 << 30))


class Chooser:
    """Picks deeds of a few calls by the state of the card."""

    def __init__(self, r, card):
        self.r, self.card = r, card
        self.lock_rate = r.choice((0.0, 0.0, 0.02, 0.2))
        self.unseal_rate = r.choice((0.1, 0.5, 0.9))       # chance of opening a sealed card first
        self.new_link = r.choice((0.02, 0.3))              # else a live link's A is swapped again
        self.low_pin = r.choice((0.05, 0.5))
        self.unrest = r.choice((0.02, 0.15, 0.4))          # chance of a call while BUSY
        self.weights = [weight * r.choice((0.4, 1, 1, 2.5)) for _, weight in self.DEEDS]

    def tx(self, *sent, area=None):
        r = self.r
        area = r.choice((0, 1, 4, 90)) if area is None else area
        return ("TX", bytes(sent), LOW if r.random() < self.low_pin else HIGH, area)

    def row(self):
        r, rows = self.r, max(1, self.card.main.n * self.card.main.p)
        if self.card.otp_e and r.random() < 0.8:
            return r.randrange(14)
        return r.choice((r.randrange(rows), r.randrange(rows), r.randrange(0x10000)))

    def rowed(self, code):
        row = self.row()
        return self.tx(code, self.r.randrange(256), row >> 8, row & 0xFF)

    def address(self):
        return self.r.randrange(self.card.main.n + (self.r.random() < 0.05) or 1)

    def write_sr1(self):
        r = self.r
        value = r.choice((0, 0, 0, 8, 0x0C, 0x10, 0x14, 0x18, 0x1C, 0x81, 0x89, 0x8D, 0x80, 0x02,
                          r.randrange(256), r.randrange(256) & 0x7E))
        if value & 0x81 == 1 and r.random() < 0.6:
            value &= 0xFE                                  # power lock not too often
        return [self.tx(r.choice((0x01, 0x1F)), 0xA0 + r.randrange(16), value)]

    def write_sr2(self):
        value = self.r.randrange(256) & ~LOCKS
        calls = []
        if self.r.random() < self.lock_rate:
            bits = self.r.choice((OTP_L, SR1_L, LOCKS))
            if bits & SR1_L and self.r.random() < 0.8:
                calls.append(self.tx(0x01, 0xA0, 0x81 | self.r.choice((0, 8, 0x0C, 0x10, 2))))
            if self.r.random() < 0.8:
                calls.append(self.tx(0x01, 0xB0, 0x50))
            value |= bits
        return calls + [self.tx(self.r.choice((0x01, 0x1F)), 0xB0 + self.r.randrange(16), value)]

    def load(self):
        r = self.r
        column = r.choice((0, 1, 2110, 2111, 2112, r.randrange(0x10000)))
        count = r.choice((1, 4, 40, PAGE))
        data = r.choice((r.randbytes(count), bytes(count)))
        return [self.tx(0x06), self.tx(r.choice((0x02, 0x84, 0x32, 0x34)), column >> 8, column & 0xFF, *data)]

    def program(self):
        return (self.load() if self.r.random() < 0.7 else [self.tx(0x06)]) + [self.rowed(0x10)]

    def erase(self):
        return [self.tx(0x06), self.rowed(0xD8)]

    def swap(self):
        a, b = self.address(), self.address()
        live = self.card.table.live()
        if live and self.r.random() >= self.new_link:
            a = self.r.choice(live)[0]
            held = {address for link in live for address in link}
            b = self.r.choice([x for x in range(self.card.main.n) if x not in held] or [b])
        return [self.tx(0x06)] * (self.r.random() < 0.5) + [self.tx(0xA1, a >> 8, a & 255, b >> 8, b & 255)]

    def load_page(self):
        return [self.rowed(0x13)]

    def read(self):
        r = self.r
        return [r.choice((self.tx(0x03, r.randrange(9), r.randrange(256), 0), self.tx(0xA5, 0),
                          self.tx(0x9F, 0), self.tx(0x05, r.choice((0xA0, 0xB0, 0xC0, 0xD0)))))]

    def small(self):
        return [self.tx(self.r.choice((0x06, 0x04, 0xFF)))]

    def junk(self):
        r = self.r
        sent = bytes([r.choice(list(FRAMES))]) + r.randbytes(r.randrange(6))
        if r.random() < 0.2:
            sent = r.randbytes(r.randrange(7))
        # lock bits only at their own rate
        if len(sent) == 3 and sent[0] in (0x01, 0x1F):
            sent = sent[:2] + bytes([sent[2] & ~LOCKS & 0xFE])
        return [self.tx(*sent)]

    def power(self):
        return [("PW",)]

    def idle_step(self):
        return [("ST",)]

    DEEDS = ((write_sr1, 5), (write_sr2, 1.5), (load, 1), (program, 5), (erase, 3), (swap, 4),
             (load_page, 2), (read, 2), (small, 1), (junk, 2), (power, 0.5), (idle_step, 0.3))

    def next(self):
        r, left = self.r, self.card.left
        if left:
            if r.random() < self.unrest:
                return r.choice(([("PW",)], self.junk(), self.write_sr1(), self.small(), self.small(),
                                 self.write_sr2(), self.swap(), self.load()[1:], self.read()))
            return [("ST",)] * r.choice((1, left, left))
        if self.card.sr1 and not self.card.locks & SR1_L and r.random() < self.unseal_rate:
            opened = [("TX", bytes([0x01, 0xA0, r.choice((0, 0, 0, 0x80, 8, 0x0C))]), HIGH, 0)]
            return [("PW",)] * (self.card.sr1 & 0x81 == 1) + opened
        deed = r.choices(self.DEEDS, self.weights)[0][0]
        return deed(self)


# ------------------------------------------------------------------------- laws

class Broken(Exception):
    pass


def covered_addresses(sr1, n):
    """The seal, said in another way than in the card."""
    k = sr1 >> 3 & 0b1111
    addresses = list(range(n))
    count = min(n, 1 << k) if k else 0
    return set(addresses[:count] if sr1 & 0b100 else addresses[n - count:])


def reached_block(words, n, address):
    """The links, said in another way than in the card."""
    block = {b: b for b in range(n)}
    for first, second in words:
        if first & 0xC000 == 0x8000 and (first & 0x3FFF) < n and second < n:
            block[first & 0x3FFF], block[second] = second, first & 0x3FFF
    return block[address]


def number(data):
    return int.from_bytes(data, "big")


class Watch:
    """Drives a card and its book call by call and checks the laws after each."""

    def __init__(self, setup, make=Card, beside=True):
        self.setup, self.beside = setup, beside            # beside: watch d1 to d3 too
        self.card, self.main, self.otp, self.raw = setup.build(make)
        n = self.n = self.main.n
        self.lives = [self.main.life(b) for b in range(n)]
        self.book = Book(n, self.main.p, self.lives)
        self.copies = [bytes(data) for data in self.raw]
        self.blocks = [self.block(b) for b in range(n)]    # as they now stand
        self.words = list(self.card.table.words)
        self.reach = list(range(n))
        self.shown = list(self.blocks)                     # per address, since its sealed stretch began
        self.after_erase = list(self.blocks)               # per block, since its last finished erase
        self.otp_start = [self.otp_page(p) for p in range(self.otp.p)]
        self.power_locked = self.sr1_locked = None         # SR-1 when that began
        self.locks = 0
        self.need(set(self.words) == {(0, 0)}, "c4", "used entries on a new card")
        self.check_registers()

    def block(self, b):
        area, pages = bytearray(PAGE), []
        for page in range(self.main.p):
            self.main.read(b, page, area)
            pages.append(bytes(area))
        return b"".join(pages)

    def otp_page(self, page):
        area = bytearray(PAGE)
        self.otp.read(0, page, area)
        return bytes(area)

    def need(self, holds, law, what):
        if not holds and (self.beside or law[0] != "d"):
            raise Broken(f"{law}: {what}")

    def call(self, call):
        card, book = self.card, self.book
        covered = covered_addresses(book.sr1, self.n)
        self.note_sr1_locks()
        erases, swaps, state = list(book.erases), len(book.swaps), self.state()
        outcome = None
        if call[0] == "TX":
            _, sent, wp, length = call
            outcome, driven, area = card.transaction(sent, wp, length)
            book.transaction(sent, outcome)
            self.check_answer(outcome, driven, area, length, sent, state)
        elif call[0] == "ST":
            left = card.left
            answer = card.step()
            book.step()
            self.need(answer == max(0, left - 1) == card.left, "d3", f"step answers {answer}")
        else:
            self.need(card.power_cycle() == 0, "d3", "power cycle answer")
            book.power_cycle()
            self.power_locked = None
        stored = [data != copy for data, copy in zip(self.raw, self.copies)]
        links = card.table.words != self.words
        if links or len(book.swaps) != swaps:
            self.check_links()
        if stored[0] or erases != book.erases:
            self.check_blocks([new - old for old, new in zip(erases, book.erases)])
        if stored[0] or links:
            self.check_sealed(covered)
        if stored[1]:
            self.check_otp()
        self.copies = [bytes(data) if changed else copy
                       for data, copy, changed in zip(self.raw, self.copies, stored)]
        self.need(not (outcome and any(stored)), "d1", "a declined call alters stored bytes")
        self.check_registers()
        return outcome

    # -- the single laws

    def note_sr1_locks(self):
        """Where a stretch under power lock or SR1-L could start: now."""
        if self.power_locked is None and self.book.sr1 & 0x81 == 0x01:
            self.power_locked = self.card.sr1
        if self.sr1_locked is None and self.book.locks & SR1_L:
            self.sr1_locked = self.card.sr1

    def check_registers(self):
        card, book = self.card, self.book
        self.need(self.power_locked in (None, card.sr1), "a2", "SR-1 altered under power lock")
        self.need(self.sr1_locked in (None, card.sr1), "a3", "SR-1 altered under SR1-L")
        self.need(self.locks & ~card.locks == 0, "b3", "a lock bit fell")
        self.locks = card.locks
        self.need((card.sr1, card.locks) == (book.sr1, book.locks), "c3",
                  f"card {card.sr1:02X} {card.locks:02X}, book {book.sr1:02X} {book.locks:02X}")

    def check_links(self):
        words = list(self.card.table.words)
        used = [entry != (0, 0) for entry in words]
        self.need(all(now or entry == (0, 0) for now, entry in zip(used, self.words)), "b4",
                  "a used entry became unused")
        self.words = words
        self.reach = [reached_block(words, self.n, b) for b in range(self.n)]
        self.need(sorted(self.reach) == list(range(self.n)), "c1", f"reach {self.reach}")
        named = [self.book.block_of(b) for b in range(self.n)]
        self.need(self.reach == named, "c2", f"reach {self.reach}, named {named}")
        self.need(sum(used) == len(self.book.swaps) <= 20, "c4",
                  f"{sum(used)} used entries, {len(self.book.swaps)} finished swaps")

    def check_blocks(self, erased):
        for b in range(self.n):
            now = self.block(b)
            if erased[b]:
                self.after_erase[b] = now
            else:
                for old in (self.blocks[b], self.after_erase[b]):
                    self.need(number(now) & ~number(old) == 0, "b1", f"a bit of block {b} rose")
            self.blocks[b] = now
            self.need(self.lives[b] == self.main.life(b) + self.book.erases[b], "b5",
                      f"block {b}: {self.lives[b]} at start, {self.main.life(b)} left, "
                      f"{self.book.erases[b]} finished erases")

    def check_sealed(self, covered):
        for address, block in enumerate(self.reach):
            if address in covered:
                self.need(self.blocks[block] == self.shown[address], "a1",
                          f"bytes at sealed address {address} altered")
            self.shown[address] = self.blocks[block]

    def check_otp(self):
        for page, old in enumerate(self.otp_start):
            now = self.otp_page(page)
            self.need(number(now) & ~number(old) == 0, "b2", f"a bit of OTP page {page} rose")
            self.otp_start[page] = now

    # -- watched beside the laws

    def state(self):
        c = self.card
        return (c.sr1, c.locks, c.otp_e, c.ecc_e, c.wel, c.p_fail, c.e_fail, bytes(c.buffer),
                c.pending, c.left, tuple(c.table.words))

    def check_answer(self, outcome, driven, area, length, sent, state):
        self.need(len(area) == length and driven <= length and area[driven:] == b"\xff" * (length - driven),
                  "d2", "area")
        if outcome:
            self.need(driven == 0, "d2", "a declined call drives")
            if outcome == 11:
                fails = (1, state[6]) if sent[0] == 0x10 else (state[5], 1)
                state = state[:4] + (0,) + fails + state[7:]
            self.need(self.state() == state, "d1", f"decline {outcome} alters the card")
        elif sent[0] in (0x05, 0x0F):
            self.need(driven == length and set(area) <= {self.card.registers()[sent[1] >> 4]}, "d3", "register")


# ------------------------------------------------------------------------- runs

def replay(setup, calls, make=Card):
    """The law broken by a run, or None."""
    try:
        watch = Watch(setup, make)
        for call in calls:
            watch.call(call)
    except Broken as law:
        return str(law)


def shortened(setup, calls, make=Card):
    """The run with every call left out that the breach of the same law does not need."""
    law = replay(setup, calls, make)[:2]
    size = len(calls)
    while size:
        at = 0
        while at < len(calls):
            fewer = calls[:at] + calls[at + size:]
            if (replay(setup, fewer, make) or "").startswith(law):
                calls = fewer
            else:
                at += size
        size //= 2
    return calls


def random_run(seed, count, make=Card, seen=None, beside=True):
    """-> (setup, calls, broken law or None)"""
    r = random.Random(seed)
    setup, calls = random_setup(r), []
    try:
        watch = Watch(setup, make, beside)
        chooser = Chooser(r, watch.card)
        while len(calls) < count:
            for call in chooser.next():
                calls.append(call)
                outcome = watch.call(call)
                if seen is not None:
                    seen[call[0], outcome] += 1
    except Broken as law:
        return setup, calls, str(law)
    if seen is not None:
        seen["full tables"] += watch.card.table.full()
        seen["finished swaps"] += len(watch.book.swaps)
        seen["finished erases"] += sum(watch.book.erases)
        seen["lock bits"] += watch.book.locks.bit_count()
    return setup, calls, None


def show(setup, calls):
    print(setup)
    for call in calls:
        print("  ", call[0], *([call[2], f"{call[3]:02d}", call[1][:64].hex().upper()] if len(call) > 1 else []))


def main():
    options = argparse.ArgumentParser(description="check the laws on random runs")
    options.add_argument("--runs", type=int, default=1000)
    options.add_argument("--calls", type=int, default=300)
    options.add_argument("--seed", type=int, default=0)
    o = options.parse_args()
    seen, broken = Counter(), 0
    for seed in range(o.seed, o.seed + o.runs):
        setup, calls, law = random_run(seed, o.calls, seen=seen)
        if law:
            broken += 1
            print(f"seed {seed}: {law}")
            show(setup, shortened(setup, calls))
            if broken == 3:
                break
    total = sum(count for key, count in seen.items() if isinstance(key, tuple))
    print(f"{seed - o.seed + 1} runs, {total} calls, {broken} runs broken")
    print(", ".join(f"{' '.join(map(str, key)) if isinstance(key, tuple) else key}: {count}"
                    for key, count in sorted(seen.items(), key=str)))
    raise SystemExit(broken > 0)


if __name__ == "__main__":
    main()
