"""Seeded generator of deep random tapes for cardtape.

    python3 reference/gen.py SEED LINES [--coverage] > tape

It runs the reference card beside the tape, so that each next call is chosen from the
state reached: sealed or not, write enabled or not, worn, linked, in OTP mode, BUSY.
`--coverage` counts on standard error each pair of code and outcome.
"""
import argparse
import random
import sys
from collections import Counter

from card import (DATA_LOAD, FRAMES, HIGH, LOCKS, LOW, OTP_L, PAGE, SR1_L, WIDTH,
                  power_lock, srp0, srp1, wp_e)
from cardtape import answer, tape_card

ROWS = 8                                       # N x P of the tape's card
COLUMNS = (0, 1, 2, 63, 2047, 2048, 2100, 2109, 2110, 2111, 2112, 2113, 4094, 4095,
           0x1000, 0x183E, 0xF83F, 0xF840, 0xFFFF)
SR1_VALUES = (0x00, 0x04, 0x08, 0x0C, 0x10, 0x14, 0x18, 0x7C, 0x78, 0x40, 0x44,
              0x01, 0x09, 0x7D, 0x03, 0x02, 0x0A, 0x0E, 0x80, 0x88, 0x8C, 0x82, 0x8A,
              0x81, 0x83, 0x89, 0x8D, 0xFD, 0xFF, 0xFE, 0x7F)
MALFORMED = (b"", b" ", b"XX", b"ST ", b" ST", b"st", b"STX", b"S", b"PW ", b"pw", b"PW0", b"PWST",
             b"TX", b"TX ", b"TX 1", b"TX 1 ", b"TX 1 00", b"TX 1 0 06", b"TX 1 000 06",
             b"TX 1 65 06", b"TX 1 99 06", b"TX 2 01 06", b"TX  1 01 06", b"TX 1  01 06",
             b"TX 1 01  06", b"TX 1 01 06 ", b"TX 1 01 6", b"TX 1 01 060", b"TX 1 01 0 6",
             b"TX 1 01 ff", b"TX 1 01 fF", b"TX 1 01 0G", b"TX 1 0x 06", b"TX 1 +1 06",
             b"TX 1 -1 06", b"TX 1 1_ 06", b"TX\t1 01 06", b"tx 1 01 06", b"TX 1 01 06\r", b"ST\r",
             b"PW\r", b"\r", b"ST\0", b"TX 1 01 06\0", b"\xff\xfe", b"TX 1 01 \xc3\xa9", b"TX 1,01,06",
             b"TX 1 01 0x06", b"TX 01 01 06", b"TX 1 01 06 00", b"TX0 01 06", b"TX 1 AA 06",
             b"TX 1 00 " + b"FF" * 65, b"TX 1 64 " + b"02" * 64 + b"0")


class Tape:
    def __init__(self, seed):
        self.r = random.Random(seed)
        self.card = tape_card()
        self.lines, self.seen = [], Counter()
        r = self.r
        self.low_pin = r.choice((0.05, 0.2, 0.5))           # how often /WP is low
        self.locks_from = r.choice((0.0, 0.5, 0.8, 2.0))    # part of the tape before SR1-L
        self.second_link = r.choice((0, 0, 0.03, 0.3))      # two live links leave no further swap
        self.style = {move: r.choice((0.3, 1, 1, 3)) for move in self.MOVES}

    # -- lines

    def line(self, text):
        self.lines.append(text)
        return answer(self.card, text)

    def tx(self, sent, wp=None, area=None):
        sent = bytes(sent)[:64]
        if wp is None:
            wp = LOW if self.r.random() < self.low_pin else HIGH
        if area is None:
            area = self.r.choice((0, 0, 1, 2, 3, 4, 5, 16, 63, 64))
        text = self.line(b"TX %d %02d %s" % (wp, area, sent.hex().upper().encode()))
        outcome = int(text.split()[0])
        self.seen[f"{sent[0]:02X}" if sent and sent[0] in FRAMES else "--", outcome] += 1
        return outcome

    def steps(self, most=99):
        while self.card.left and most:
            self.line(b"ST")
            most -= 1

    def chance(self, p):
        return self.r.random() < p

    # -- parts of calls

    def row(self):
        r = self.r
        if self.card.otp_e and self.chance(0.9):
            return r.choice((0, 1, 2, 2, 3, 3, 4, 10, 11, 11, 12, 13, 15, 16, 256, 258))
        return r.choice((r.randrange(ROWS), r.randrange(ROWS), r.randrange(16),
                         r.randrange(0x10000), 0xFFFF - r.randrange(8), 0x100))

    def column(self):
        return self.r.choice(COLUMNS) if self.chance(0.9) else self.r.randrange(0x10000)

    def data(self):
        r = self.r
        count = r.choice((1, 1, 2, 3, 4, 8, 61))
        return r.choice((r.randbytes(count), bytes([r.choice((0x0F, 0xF0, 0, 0xFF, 0x55))]) * count))

    def rowed(self, code, row):
        return bytes([code, self.r.choice((0, 0, 1, 0xFF)), row >> 8, row & 0xFF])

    def random_frame(self, code):
        """A frame of the right count with random parts."""
        sent = bytes([code])
        for part in FRAMES[code]:
            if part == "row":
                sent += self.row().to_bytes(2, "big")
            elif part == "column":
                sent += self.column().to_bytes(2, "big")
            elif part in "ab":
                sent += self.r.choice((0, 1, 2, 3, 3, 4, 5, 0x100, 0x8000, 0xFFFF)).to_bytes(2, "big")
            elif part == "register":
                sent += bytes([self.r.choice((0xA0, 0xB0, 0xC0, 0xAF, 0xB5, 0xC9, 0x00, 0x90, 0xD0))])
            elif part == "value":
                value = self.r.randrange(256)
                sent += bytes([value & ~LOCKS if sent[1] >> 4 == 0xB else value & 0x7E])
            elif part == "data":
                sent += self.data()
            else:
                sent += self.r.randbytes(WIDTH[part])
        return sent

    def miscounted(self, code):
        """A frame mostly of a wrong count."""
        sent = self.random_frame(code)
        cut = self.r.choice((1, len(sent) - 1, len(sent) + 1, len(sent) + 2, 3, 64))
        if code in DATA_LOAD:
            cut = min(cut, 3)
        return (sent + bytes(64))[:max(1, cut)]

    # -- moves; each is a small deed with slips

    def read_registers(self):
        for digit in self.r.sample((0xA0, 0xB0, 0xC0, 0xC0), 2):
            self.tx([self.r.choice((0x05, 0x0F)), digit + self.r.randrange(16)], area=1)
        if self.chance(0.3):
            self.tx([0x9F, self.r.randrange(256)], area=self.r.randrange(6))

    def read_table(self):
        self.tx([0xA5, self.r.randrange(256)], area=self.r.choice((0, 1, 4, 8, 63, 64)))

    def write_enable(self):
        if self.chance(0.92):
            self.tx([0x06], area=0)

    def write_sr1(self, value, wp=None):
        self.tx([self.r.choice((0x01, 0x1F)), 0xA0 + self.r.randrange(16), value], wp, 0)

    def write_sr2(self, value, wp=None):
        self.tx([self.r.choice((0x01, 0x1F)), 0xB0 + self.r.randrange(16), value], wp, 0)

    def unseal(self):
        if power_lock(self.card.sr1) and not self.card.locks & SR1_L and self.chance(0.7):
            self.tx([0x01, 0xA0, 0x00], area=0)
            self.line(b"PW")
        if self.card.sr1 and not self.card.locks & SR1_L:
            self.write_sr1(self.r.choice((0x00, 0x00, 0x00, 0x80, 0x04)),
                           HIGH if self.chance(0.8) else None)

    def change_sr1(self):
        value = self.r.choice(SR1_VALUES) if self.chance(0.85) else self.r.randrange(256)
        self.write_sr1(value)
        if self.chance(0.5):                   # try each pin level on what now holds
            for wp in self.r.sample((LOW, HIGH), 2):
                code = self.r.choice((0x01, 0x1F, 0x02, 0x84, 0x32, 0x6B, 0xEB, 0x10, 0xD8, 0xA1, 0x6C))
                if code in (0x01, 0x1F) and self.chance(0.3):
                    self.tx([code, self.r.choice((0x00, 0x9F, 0xD0, 0xF5, 0xC0, 0xB0)), 0x10], wp)
                elif code in (0x01, 0x1F):
                    self.write_sr1(self.r.choice((value, value, 0x00, 0x7C, value ^ 0x80)), wp)
                else:
                    self.tx(self.random_frame(code), wp)
                    self.steps()
        self.read_registers()

    def load_data(self):
        self.write_enable()
        for _ in range(self.r.choice((1, 1, 2, 3))):
            code = self.r.choice((0x02, 0x84, 0x32, 0x34))
            column = self.column()
            self.tx(bytes([code, column >> 8, column & 0xFF]) + self.data())
            if self.chance(0.4):
                self.read_buffer(column)

    def read_buffer(self, near=None):
        code = self.r.choice((0x03, 0x03, 0x0B, 0x3B, 0x6B, 0xBB, 0xEB, 0x0C, 0x3C, 0x6C, 0xBC))
        column = self.column() if near is None else max(0, (near & 0xFFF) - self.r.randrange(3))
        dummies = len(FRAMES[code]) - 1
        self.tx(bytes([code, column >> 8 & 0xFF, column & 0xFF]) + self.r.randbytes(dummies),
                area=self.r.choice((0, 1, 2, 3, 4, 8, 64)))

    def free_rows(self):
        return [row for row in range(ROWS) if not self.card.sealed(row // 2)]

    def fresh_row(self):
        """Mostly a row where the call can go through."""
        free = self.free_rows()
        if self.card.otp_e or not free or self.chance(0.2):
            return self.row()
        return self.r.choice(free) + ROWS * self.r.choice((0, 0, 0, 1, 2, 0x1000, 0x1FFF))

    def finish(self):
        """Steps to the end, or a part of them and then calls while BUSY or a power cycle."""
        if not self.card.left:
            if self.chance(0.1):
                self.line(b"ST")
            return
        if self.chance(0.25):
            self.steps(self.r.randrange(self.card.left + 1))
            for _ in range(self.r.randrange(4)):
                code = self.r.choice(list(FRAMES) + [0x05, 0x0F, 0x9F] * 4)
                if code in (0x05, 0x0F) and self.chance(0.7):
                    self.tx([code, self.r.choice((0xA0, 0xB0, 0xC0, 0xC0))], area=1)
                elif self.chance(0.15):
                    self.tx(self.miscounted(code))
                else:
                    self.tx(self.random_frame(code))
            if self.chance(0.3):
                self.line(b"PW")
        self.steps()
        if self.chance(0.2):
            self.line(b"ST")

    def program(self):
        row, column = self.fresh_row(), self.column()
        self.write_enable()
        if self.chance(0.85):
            code = self.r.choice((0x02, 0x02, 0x84, 0x32, 0x34))
            self.tx(bytes([code, column >> 8, column & 0xFF]) + self.data())
        self.tx(self.rowed(0x10, row))
        self.finish()
        if self.chance(0.5):
            self.tx([0x05, 0xC0], area=1)
        self.look(row, column)

    def look(self, row, column=None):
        """Load a row and read around a column."""
        self.tx(self.rowed(0x13, row))
        if self.chance(0.15):
            self.tx([0x05, 0xC0], area=1)
        self.steps()
        self.read_buffer(column)

    def look_around(self):
        for _ in range(self.r.randrange(1, 4)):
            self.look(self.row() if self.chance(0.5) else self.r.randrange(ROWS), self.column())

    def erase(self, row=None):
        row = self.fresh_row() if row is None else row
        self.write_enable()
        self.tx(self.rowed(0xD8, row))
        self.finish()
        if self.chance(0.6):
            self.tx([0x0F, 0xC0], area=2)
        if self.chance(0.6):
            self.look(row)

    def wear(self):
        """Erase one block until it is worn, then program and erase it once more."""
        if self.card.otp_e:
            self.tx([0xFF], area=0)
        row = self.fresh_row()
        for _ in range(self.r.randrange(1, 5)):
            self.erase(row)
        self.write_enable()
        self.tx(self.rowed(0x10, row))
        self.steps()
        self.tx([0x05, 0xC0], area=1)

    def swap(self):
        table, n = self.card.table, 4
        a, b = self.r.randrange(n), self.r.randrange(n)
        if self.chance(0.75):
            live = table.live()
            held = {address for link in live for address in link}
            seconds = {link[1] for link in live}
            pairs = [(x, y) for x in range(n) for y in range(n)
                     if x != y and y not in held and x not in seconds]
            again = [pair for pair in pairs if not live or pair[0] == live[0][0]]
            if pairs:
                a, b = self.r.choice(pairs if self.chance(self.second_link) or not again else again)
        elif len(table.live()) == 1 and not self.chance(self.second_link):
            a = table.live()[0][self.r.randrange(2)]       # declined, or a swap of the same A again
        elif self.chance(0.3):
            a, b = self.r.choice(((a, a), (a, 4), (4, b), (0x8000 + a, b), (a, 0xFFFF), (0x100, b)))
        self.tx([0xA1, a >> 8, a & 0xFF, b >> 8, b & 0xFF])
        self.finish()
        if self.chance(0.6):
            self.read_table()
        if self.chance(0.4):
            self.look(2 * self.r.randrange(n) + self.r.randrange(2), 0)

    def swap_often(self):
        for _ in range(self.r.randrange(3, 12)):
            self.swap()
        self.tx([0x05, 0xC0], area=1)

    def mark_blocks(self):
        """Give each free block bytes of its own, so that a wrong reach shows."""
        if self.card.otp_e:
            self.tx([0xFF], area=0)
        for row in self.free_rows()[::self.r.choice((1, 2))]:
            self.tx([0x06], area=0)
            self.tx([0x02, 0, 0, self.r.randrange(256), row], HIGH)
            self.tx(self.rowed(0x10, row), HIGH)
            self.steps()

    def enter_otp(self):
        self.write_sr2(0x40 | self.r.choice((0x10, 0x00, 0x18, 0x0F)))
        for _ in range(self.r.randrange(1, 5)):
            self.r.choice((self.program, self.program, self.erase, self.look_around, self.swap))()
        if self.chance(0.6):
            self.leave_otp()

    def leave_otp(self):
        if self.chance(0.5):
            self.tx([0xFF], area=0)
        else:
            self.write_sr2(self.r.choice((0x10, 0x18, 0x00)))
        self.read_registers()

    def lock(self):
        """Writes of the lock bits: too early, wanting SRP bits, dropped, finished."""
        late = len(self.lines) >= self.locks_from * self.goal
        bits = self.r.choice((OTP_L, SR1_L, LOCKS) if late else (SR1_L, OTP_L))
        if bits & SR1_L and self.chance(0.6):
            self.write_sr1(self.r.choice((0x81, 0x83, 0x89, 0x8D, 0xFD, 0x8F, 0x01, 0x80)))
        if self.chance(0.8):
            self.write_sr2(0x40 | self.r.choice((0x10, 0x00)))
        self.write_sr2(bits | self.r.choice((0x40, 0x50, 0x00, 0x10, 0x1F)))
        if self.card.left:
            drop = not late or self.chance(0.3)
            self.steps(self.r.randrange(4) if drop else 99)
            self.read_registers()
            if drop:
                self.line(b"PW")
        self.read_registers()
        if self.chance(0.5):
            self.write_sr2(self.r.choice((0x00, 0x10, 0x18, 0x90, 0x30)))
            self.steps(0 if not late else 99)
            if self.card.left:
                self.line(b"PW")

    def slips(self):
        """Frames that fail: unlisted codes, wrong counts, nothing sent, lines that are no record."""
        for _ in range(self.r.randrange(1, 4)):
            kind = self.r.randrange(4)
            if kind == 0:
                self.tx(self.r.choice((b"", b"\xa9", b"\xa9\x00", b"\xec" + bytes(6),
                                       self.r.randbytes(self.r.randrange(8)))))
            elif kind == 1:
                self.tx(self.miscounted(self.r.choice(list(FRAMES))))
            else:
                self.bad_line()

    def bad_line(self):
        """A line that is no record: a known one, or a sound one with one byte turned."""
        if self.chance(0.5):
            return self.line(self.r.choice(MALFORMED))
        sent = self.random_frame(self.r.choice((0x05, 0x9F, 0x03, 0x06, 0xA5, 0x13)))
        sound = self.r.choice((b"ST", b"PW", b"TX 1 04 " + sent.hex().upper().encode()))
        at, byte = self.r.randrange(len(sound) + 1), bytes([self.r.choice(b" 019AFafgTX\t\r\0\xa0+-_.")])
        self.line(self.r.choice((sound[:at] + byte + sound[at:], sound[:at] + sound[at + 1:],
                                 sound[:at] + byte + sound[at + 1:])))

    def any_frame(self):
        self.tx(self.random_frame(self.r.choice(list(FRAMES))))
        if self.chance(0.8):
            self.finish()

    def latch(self):
        for _ in range(self.r.randrange(1, 4)):
            self.tx([self.r.choice((0x06, 0x06, 0x04, 0xFF))], area=0)
        self.tx([0x05, 0xC0], area=1)

    def power(self):
        self.line(b"PW")
        self.read_registers()
        self.read_buffer(0)
        if self.chance(0.8):
            self.unseal()

    MOVES = {"read_registers": 2, "read_table": 1, "unseal": 3, "change_sr1": 3, "load_data": 3,
             "program": 6, "look_around": 2, "erase": 3, "wear": 0.5, "swap": 4, "swap_often": 0.5,
             "mark_blocks": 0.7, "enter_otp": 1.5, "leave_otp": 0.7, "lock": 0.6, "slips": 1.5,
             "any_frame": 2, "latch": 0.7, "power": 1, "read_buffer": 1}

    def make(self, count):
        """A tape of this many lines; seldom without the last 0Ah."""
        self.goal = count
        names = list(self.MOVES)
        weights = [self.MOVES[name] * self.style[name] for name in names]
        while len(self.lines) < count:
            sr1, locked = self.card.sr1, self.card.locks & SR1_L
            if self.chance(0.06):
                self.bad_line()
            sealed = len(self.free_rows()) < ROWS or srp1(sr1) or srp0(sr1) or wp_e(sr1)
            if sealed and not locked and self.chance(0.35):
                self.unseal()
            elif self.card.otp_e and self.chance(0.15):
                self.leave_otp()
            else:
                getattr(self, self.r.choices(names, weights)[0])()
        tape = b"\n".join(self.lines[:count])
        return tape if self.lines[count - 1:count] != [b""] and self.chance(0.1) else tape + b"\n"


def main():
    options = argparse.ArgumentParser(description="make a random tape for cardtape")
    options.add_argument("seed", type=int)
    options.add_argument("lines", type=int)
    options.add_argument("--coverage", action="store_true")
    chosen = options.parse_args()
    tape = Tape(chosen.seed)
    sys.stdout.buffer.write(tape.make(chosen.lines) if chosen.lines > 0 else b"")
    if chosen.coverage:
        for (code, outcome), count in sorted(tape.seen.items()):
            print(code, outcome, count, file=sys.stderr)


if __name__ == "__main__":
    main()
