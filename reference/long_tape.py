"""The long tape of the gate: every code, every refusal of a card that fits, and every way a line can fail.

    python3 reference/long_tape.py           writes crates/cardtape/stdin and crates/cardtape/stdout

The tape is the same at each run.  What it must hold is asserted at the end.
"""
import pathlib

from card import FRAMES, HIGH, LOCKS, LOW, OTP_L, SR1_L, WIDTH
from cardtape import run
from gen import MALFORMED, ROWS, Tape

CRATE = pathlib.Path(__file__).resolve().parent.parent / "crates/cardtape"
RANDOM_LINES = 1500


def rowed(code, row):
    return bytes([code, 0, row >> 8, row & 0xFF])


def swapped(a, b):
    return bytes([0xA1, a >> 8, a & 0xFF, b >> 8, b & 0xFF])


class LongTape(Tape):
    def __init__(self):
        super().__init__(2112)
        self.locks_from = 2.0                 # the random part finishes no lock
        self.taken = set()

    def send(self, *sent, wp=HIGH, area=0):
        sent = bytes(sent)
        outcome = self.tx(sent, wp, area)
        if outcome == 0:
            self.taken.add(sent[0])
        return outcome

    def power_cycle(self):
        self.line(b"PW")

    def finish_all(self):
        while self.card.left:
            self.line(b"ST")

    def registers(self):
        for digit in (0xA0, 0xB0, 0xC0):
            self.send(0x05, digit, area=1)

    def show(self, row):
        """Fetch a row and read its first and last bytes."""
        self.send(*rowed(0x13, row))
        self.finish_all()
        self.send(0x03, 0, 0, 0, area=8)
        self.send(0x0B, 0x08, 0x3C, 0, area=5)

    def write(self, row, *data):
        self.send(0x06)
        self.send(0x02, 0, 0, *data)
        self.send(*rowed(0x10, row))
        self.finish_all()

    def frame(self, code):
        """A frame of the right count, with zeros but for a register's address."""
        sent = bytes([code])
        for part in FRAMES[code]:
            sent += b"\xa0" if part == "register" else bytes(1 if part == "data" else WIDTH[part])
        return sent

    # -- parts of the tape

    def new_card(self):
        self.registers()
        for area in (0, 1, 2, 3, 4, 63, 64):
            self.send(0x9F, 0, area=area)
            self.send(0xA5, 0, area=area)
        self.send(area=0)
        self.send(area=2)

    def codes(self):
        for code in range(256):
            if code not in FRAMES:
                self.send(code)
        for code in FRAMES:
            sent = self.frame(code)
            longer = () if "data" in FRAMES[code] else (sent + b"\0", sent + bytes(9))
            for wrong in (sent[:-1], sent[:1], *longer):
                if len(wrong) != len(sent):
                    self.send(*wrong, area=2)
            self.send(0x01, 0xA0, 0x00)
            self.send(0x06)
            self.send(*sent, area=4)
            self.power_cycle()

    def while_busy(self):
        for value, wp in ((0x00, HIGH), (0x02, LOW)):
            self.send(0x01, 0xA0, value)
            self.send(*rowed(0x13, 0))
            for code in FRAMES:
                self.send(*self.frame(code), wp=wp, area=3)
            self.send(0x05, 0xD0)
            self.finish_all()
            self.power_cycle()

    def pin(self):
        self.send(0x01, 0xA0, 0x02)
        for wp in (LOW, HIGH):
            for code in FRAMES:
                if code not in (0x01, 0x1F) or wp == LOW:
                    self.send(*self.frame(code), wp=wp, area=2)
                    self.power_cycle()
                    self.send(0x01, 0xA0, 0x02)
        self.power_cycle()

    def register_addresses(self):
        for digit in range(16):
            for code in (0x05, 0x0F):
                self.send(code, digit << 4 | 5, area=2)
            for code in (0x01, 0x1F):
                self.send(code, digit << 4 | 9, 0x10)
        self.power_cycle()
        self.registers()

    def sr1(self):
        for value in (0x80, 0x81, 0x82, 0x83, 0x00, 0x01, 0x03):
            self.send(0x01, 0xA0, value)
            for wp in (LOW, HIGH, LOW):
                self.send(0x1F, 0xAF, value, wp=wp)
                self.send(0x05, 0xA0, area=1)
            self.power_cycle()

    def flags(self):
        self.send(0x01, 0xA0, 0x00)
        self.send(0x06)
        for code in (0x02, 0x84, 0x32, 0x34):  # /WP low matters only with WP-E
            self.send(*self.frame(code), wp=LOW)
        self.send(0x01, 0xB0, 0x00)            # ECC-E is kept over a reset
        self.send(0xFF)
        self.registers()
        self.power_cycle()

    def latch(self):
        for code in (0x02, 0x84, 0x32, 0x34, 0x10, 0xD8):
            self.send(0x04)
            self.send(*self.frame(code))
            self.send(0x06)
            self.send(0xFF)
            self.send(0x05, 0xC0, area=1)

    def seals(self):
        for value in range(0, 0x80, 4):
            for address in range(4):
                self.send(0x01, 0xA0, value)
                self.send(0x06)
                if self.send(*rowed(0x10 if address % 2 else 0xD8, 2 * address)) == 0:
                    self.power_cycle()
                else:
                    self.send(0x05, 0xC0, area=1)
        self.power_cycle()

    def cut_short(self):
        """A power cycle before each step of each operation."""
        def lock(bits):
            return ((0x01, 0xA0, 0x81), (0x01, 0xB0, 0x50), (0x01, 0xB0, 0x50 | bits))

        for steps, begin in ((1, (rowed(0x13, 3),)), (2, (swapped(0, 1),)),
                             (4, ((0x06,), (0x02, 0, 0, 0x5A), rowed(0x10, 3))), (16, ((0x06,), rowed(0xD8, 3))),
                             (4, lock(OTP_L)), (4, lock(SR1_L)), (4, lock(LOCKS))):
            for done in range(steps):
                self.send(0x01, 0xA0, 0x00)
                for sent in begin:
                    self.send(*sent)
                assert self.card.left == steps
                for _ in range(done):
                    self.line(b"ST")
                self.send(0x05, 0xC0, area=1)
                self.power_cycle()
                self.line(b"ST")
                self.registers()
                self.send(0xA5, 0, area=4)
                self.send(0x01, 0xA0, 0x00)
                self.show(3)
                self.power_cycle()

    def columns(self):
        self.send(0x01, 0xA0, 0x00)
        self.send(0x06)
        for code in (0x02, 0x84, 0x32, 0x34):
            for column in (0, 1, 2048, 2110, 2111, 2112, 4095, 0xF83E):
                self.send(code, column >> 8, column & 0xFF, code, 0x11, 0x22, 0x33)
                for reading in (0x03, 0x0C):
                    self.send(reading, 0x08, 0x3C, *bytes(len(FRAMES[reading]) - 1), area=6)
        self.send(0x02, 0, 0, *range(61))
        self.send(0x03, 0, 0, 0, area=64)
        self.power_cycle()

    def marked_blocks(self):
        self.send(0x01, 0xA0, 0x00)
        for row in range(ROWS):
            self.write(row + ROWS * (row % 3), 0xF0 | row, row)
        self.write(5, 0x0F, 0xFF)              # each byte becomes itself AND the new one
        for row in range(ROWS):
            self.show(row)

    def swaps(self):
        for a, b in ((4, 0), (0, 4), (0x8000, 1), (1, 0xFFFF), (2, 2), (0x100, 1)):
            self.send(*swapped(a, b))
        for value in (0x08, 0x0C, 0x10, 0x7C):
            self.send(0x01, 0xA0, value)
            for a, b in ((3, 1), (1, 3), (0, 1), (1, 0)):
                if self.send(*swapped(a, b)) == 0:
                    self.power_cycle()
                    self.send(0x01, 0xA0, value)
        self.send(0x01, 0xA0, 0x00)
        while not self.card.table.full():
            number = self.card.table.used()
            self.send(0x04 if number % 3 else 0x06)    # a swap neither needs nor clears the latch
            self.send(*swapped(0, 1 + number % 2))
            self.finish_all()
            self.send(0xA5, 0, area=64)
            self.send(0x05, 0xC0, area=1)
            self.show(2 * (number % 4))
            for a, b in ((0, 1), (1, 0), (3, 0), (2, 3), (0, 2)):
                if self.card.table.used() < 20 and (a, b) not in ((0, 1), (0, 2), (2, 3)):
                    self.send(*swapped(a, b))
            if number == 3:                    # the partner of A is sealed, A and B are not
                self.send(0x01, 0xA0, 0x08)
                assert self.send(*swapped(0, 1)) == 15
                self.send(0x01, 0xA0, 0x00)
        for a, b in ((0, 1), (3, 0), (0, 0), (0, 3)):
            self.send(*swapped(a, b))
        for row in range(ROWS):
            self.show(row)

    def worn_blocks(self):
        for address in (0, 3):
            for _ in range(4):
                self.send(0x06)
                self.send(*rowed(0xD8, 2 * address))
                self.finish_all()
                self.send(0x05, 0xC0, area=1)
                self.show(2 * address + 1)
                self.write(2 * address, 0x33)
                self.send(0x0F, 0xC0, area=1)
            self.send(0xFF)

    def otp(self):
        self.send(0x01, 0xA0, 0x00)
        self.send(0x01, 0xB0, 0xC0)            # OTP-E counts as it is, not as written
        self.send(0x01, 0xB0, 0x58)
        self.registers()
        self.send(*rowed(0x10, 12))            # the latch comes before the row
        self.send(0x01, 0xB0, 0x80)
        self.send(0x05, 0xC0, area=1)
        self.power_cycle()
        self.send(0x01, 0xB0, 0x58)            # the seal does not cover OTP rows
        self.write(4, 0x77)
        self.show(4)
        self.send(0x01, 0xA0, 0x00)
        for row in (0, 1, 2, 3, 11, 12, 13, 15, 16, 256, 258):
            self.write(row, 0xC0 | row & 15, row & 0xFF)
            self.send(0x05, 0xC0, area=1)
            self.show(row)
        self.write(2, 0x0F)
        self.show(2)
        for row in (0, 2, 300):
            self.send(0x06)
            self.send(*rowed(0xD8, row))
            self.send(0x05, 0xC0, area=1)
        self.send(0xFF)
        self.show(2)

    def locks(self):
        for bits in (OTP_L, SR1_L, LOCKS):
            self.send(0x01, 0xB0, bits)
        for value in (0x01, 0x80):
            self.send(0x01, 0xA0, value)
            self.send(0x01, 0xB0, 0x40)
            self.send(0x01, 0xB0, 0x60)
            self.power_cycle()
        self.send(0x01, 0xB0, 0x50)
        self.send(0x06)                        # the latch outlasts a lock
        self.send(0x01, 0xB0, 0xD0)
        self.finish_all()
        self.registers()
        self.write(3, 0x00)                    # OTP-L: refused
        self.show(3)
        self.send(0x06)
        self.send(*rowed(0x10, 12))            # a row outside comes before a protected one
        self.send(0x01, 0xB0, 0x50)            # a lock bit does not fall
        self.registers()
        self.send(0x01, 0xA0, 0x8D)            # seals addresses 0 and 1
        self.send(0x01, 0xB0, 0xF0)
        self.finish_all()
        self.registers()
        for value in (0x00, 0x8D):
            self.send(0x01, 0xA0, value)
        self.send(0xFF)
        self.power_cycle()
        self.registers()
        for row in range(ROWS):
            self.write(row, 0x00)
            self.send(0x05, 0xC0, area=1)
            self.show(row)

    def lines_that_fail(self):
        for text in MALFORMED:
            self.line(text)
        for byte in range(256):
            if byte != 0x0A:
                for text in (b"ST" + bytes([byte]), b"TX 1 01 05A" + bytes([byte]), b"TX 1 0" + bytes([byte]) + b" 05A0"):
                    self.line(text)
        for at in range(9):
            sound = b"TX 1 01 05A0"
            self.line(sound[:at] + sound[at + 1:])
            self.line(sound[:at] + b" " + sound[at:])
        for length in (0, 9, 10, 63, 64, 65, 66, 70, 99):
            self.line(b"TX 1 %02d 05A0" % length)
        for count in (0, 1, 63, 64, 65, 66, 5000):
            self.line(b"TX 1 04 " + b"FF" * count)
            self.line(b"TX 1 04 " + b"FF" * count + b"F")


def make():
    t = LongTape()
    for part in (t.new_card, t.codes, t.while_busy, t.pin, t.register_addresses, t.sr1, t.flags, t.latch, t.seals,
                 t.cut_short, t.columns, t.marked_blocks, t.swaps, t.worn_blocks, t.otp):
        part()
    t.make(len(t.lines) + RANDOM_LINES)
    t.power_cycle()
    t.locks()
    t.lines_that_fail()
    t.line(b"ST")
    outcomes = {outcome for _, outcome in t.seen}
    assert t.taken == set(FRAMES), "a code is never taken"
    assert outcomes == {0, *range(2, 16)}, outcomes
    assert t.card.table.full() and t.card.locks == LOCKS
    assert 0 in [t.card.main.array.life(block) for block in range(4)]
    assert len(t.lines) < 10_000
    return b"\n".join(t.lines)                # no 0Ah after the last line


if __name__ == "__main__":
    tape = make()
    (CRATE / "stdin").write_bytes(tape)
    (CRATE / "stdout").write_bytes(run(tape))
    print(f"{tape.count(10) + 1} lines")
