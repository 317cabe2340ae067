"""Tests of the reference model: the measured points, the tape sample, every decline
number, the job's faults, the arrays' six lines.

    python3 reference/test_reference.py
"""
from card import (ABSENT, DONE, HIGH, LOW, PAGE, WORN, Book, Card, DumpArray, Fault, Job,
                  LinkedArray, LinkTable, MemoryArray, Misuse, seal_covers)
from cardtape import memory, run

TESTS = []
HEX = bytes.fromhex


def test(function):
    TESTS.append(function)
    return function


def card(n=4, p=2, life=3, sr1=None):
    made = Card(memory(n, p, life), memory(1, 16))
    if sr1 is not None:
        taken(made, f"01A0{sr1:02X}")
    return made


def big(**more):
    return card(1024, 64, **more)


def tx(c, text, wp=HIGH, area=0):
    return c.transaction(HEX(text), wp, area)


def outcome(c, text, wp=HIGH):
    return tx(c, text, wp)[0]


def taken(c, *texts, wp=HIGH):
    for text in texts:
        assert outcome(c, text, wp) == 0, (text, outcome(c, text, wp))


def finish(c):
    while c.step():
        pass


def done(c, *texts):
    for text in texts:
        taken(c, text)
        finish(c)


def register(c, digit):
    return tx(c, f"05{digit}0", area=1)[2][0]


def equal(got, wanted):
    assert got == wanted, f"got {got!r}, wanted {wanted!r}"


# ------------------------------------------------------------- measured points

@test
def new_registers():
    c = big()
    equal((register(c, "A"), register(c, "B"), register(c, "C")), (0x7C, 0x18, 0x00))


@test
def sealed_program_fails():
    c = big()
    taken(c, "06")
    equal(outcome(c, "10000000"), 11)
    equal(register(c, "C"), 0x08)


@test
def seal_of_two_highest():
    for sr1, covered, free in ((0x08, 1022, 1021), (0x4C, 511, 512)):
        equal((seal_covers(sr1, 1024, covered), seal_covers(sr1, 1024, free)), (True, False))
        c = big(sr1=sr1)
        taken(c, "06")
        equal(outcome(c, f"D800{covered * 64:04X}"), 11)
        taken(c, "06", f"D800{free * 64:04X}")


@test
def columns_at_the_end():
    c = big()
    equal(tx(c, "03083E00", area=4)[:2], (0, 2))          # column 2,110
    equal(tx(c, "03084000", area=4), (0, 0, HEX("FFFFFFFF")))


@test
def row_nine_of_eight():
    c = card(4, 2)
    equal(c.place(9), (0, 1))
    done(c, "01A000", "06", "02000055", "10000009")
    equal(c.main.array.data[16 + PAGE], 0x55)


@test
def swaps():
    c = big(sr1=0)
    done(c, "A100050007")
    equal(tx(c, "A500", area=4)[2], HEX("80050007"))
    for text, number in (("A100070008", 13), ("A100050007", 13), ("A100050005", 12)):
        equal(outcome(c, text), number)
    done(c, "A100050009")
    equal(tx(c, "A500", area=8)[2], HEX("C005000780050009"))
    equal([c.main.reach(b) for b in (5, 7, 9)], [9, 7, 5])


@test
def program_is_and():
    c = big(sr1=0)
    for byte in ("0F", "F0"):
        done(c, "06", "020000" + byte, "10000000")
    done(c, "13000000")
    equal(tx(c, "03000000", area=2)[2], HEX("00FF"))


@test
def last_life():
    c = big(life=1, sr1=0)
    done(c, "06", "D8000000")
    equal(register(c, "C"), 0)
    done(c, "06", "10000000")
    equal(register(c, "C"), 0x08)


@test
def power_cycle_before_last_erase_step():
    c = big(life=1, sr1=0)
    done(c, "06", "02000055", "10000000")
    before = c.main.array.data[4096:4096 + 64 * PAGE], c.main.array.data[:4]
    taken(c, "06", "D8000000")
    equal([c.step() for _ in range(15)], list(range(15, 0, -1)))
    equal(c.power_cycle(), 0)
    equal(c.step(), 0)
    equal((c.main.array.data[4096:4096 + 64 * PAGE], c.main.array.data[:4]), before)


@test
def new_lock_without_otp_mode():
    equal(outcome(big(), "01B020"), 8)


@test
def hurried_hand():
    c = card(4, 1, sr1=0)
    done(c, "A100000003", "01A00C")                        # seal 0 and 1; 0 reaches block 3
    taken(c, "06")
    equal(outcome(c, "10000000"), 11)                      # sealed by address 0
    taken(c, "06", "10000003")                             # 3 is free though it reaches block 0
    equal(register(c, "C"), 0x03)                          # WEL shows while BUSY
    finish(c)
    equal(register(c, "C"), 0x00)


# ---------------------------------------------------------------------- tapes

@test
def tape_sample():
    equal(run(b"TX 1 04 9F00\nTX 1 01 05C0\nXX\nTX 1 00 A9\nPW\n"),
          b"0 3 EFBA21FF\n0 1 00\n??\n2 0\n0\n")


@test
def tape_lines():
    for tape, answers in (
            (b"", b""), (b"\n", b"??\n"), (b"ST", b"0\n"), (b"ST\n\nPW", b"0\n??\n0\n"),
            (b"TX 1 00 ", b"2 0\n"), (b"TX 0 02 ", b"2 0 FFFF\n"), (b"TX 1 00", b"??\n"),
            (b"TX 1 64 9F00", b"0 3 EFBA21" + b"FF" * 61 + b"\n"), (b"TX 1 65 9F00", b"??\n"),
            (b"TX 1 4 9F00", b"??\n"), (b"TX 1 004 9F00", b"??\n"), (b"TX 2 04 9F00", b"??\n"),
            (b"TX 1 04 9f00", b"??\n"), (b"TX 1 04 9F0", b"??\n"), (b"TX 1 04  9F00", b"??\n"),
            (b"TX 1 04 9F00 ", b"??\n"), (b"TX 1 04 9F00\r\n", b"??\n"), (b" ST", b"??\n"),
            (b"ST ", b"??\n"), (b"PW\0", b"??\n"), (b"tx 1 00 06", b"??\n"),
            (b"TX 1 00 " + b"02" * 64, b"9 0\n"), (b"TX 1 00 " + b"02" * 65, b"??\n")):
        equal(run(tape), answers)


# ------------------------------------------------------------ declines 1 to 15

def declines(number, texts, c, wp=HIGH):
    """Each text is declined with the number, drives nothing and, but for 11, alters nothing."""
    for text in texts:
        state = snapshot(c)
        equal(tx(c, text, wp, 3), (number, 0, b"\xff" * 3))
        if number != 11:
            equal(snapshot(c), state)


def snapshot(c):
    data = [bytes(a.data) for a in (c.main.array, c.otp)]
    return (data, list(c.table.words), c.locks, c.sr1, c.otp_e, c.ecc_e, c.wel, c.p_fail,
            c.e_fail, bytes(c.buffer), c.pending, c.left)


@test
def decline_1_unfit():
    for main, otp in ((memory(0, 0), memory(1, 16)), (memory(4, 2), memory(1, 8)),
                      (memory(4, 2), memory(2, 16)), (memory(3, 2), memory(1, 16))):
        c = Card(main, otp)
        declines(1, ("", "EC", "06", "0600", "9F00", "05A0"), c)
        equal((c.power_cycle(), c.step(), bytes(c.buffer), c.sr1), (0, 0, b"\xff" * PAGE, 0x7C))


@test
def decline_2_not_listed():
    c = card()
    taken(c, "13000000")                                   # BUSY comes later
    listed = "FF06049FA5050F011FA110D81302843234030B3B6BBBEB0C3C6CBC"
    unlisted = set(range(256)) - set(HEX(listed))
    declines(2, [""] + [f"{code:02X}" for code in unlisted] + ["A900", "EC0000000000"], c)


@test
def decline_3_wrong_count():
    counts = {1: "FF 06 04", 2: "9F A5 05 0F", 3: "01 1F", 5: "A1 EB", 6: "0C 3C 6C BC",
              4: "10 D8 13 03 0B 3B 6B BB"}
    c = card(sr1=0x02)
    taken(c, "13000000")
    for count, codes in counts.items():
        for code in codes.split():
            declines(3, [code + "00" * more for more in range(9) if more + 1 != count], c)
            number = outcome(c, code + "00" * (count - 1), LOW)
            assert number in (4, 6) or code == "9F" and number == 0
    for code in "02 84 32 34".split():
        declines(3, [code + "00" * more for more in range(3)], c)
        equal([outcome(c, code + "00" * more) for more in (3, 4, 70)], [4, 4, 4])


@test
def decline_4_busy():
    c = card(sr1=0x02)                                     # 5 comes later
    taken(c, "13000000")
    declines(4, ("FF", "06", "04", "A500", "01A000", "01D000", "A100000000", "10000000",
                 "D8000000", "13000000", "02000000", "6B000000", "03000000"), c, LOW)
    declines(6, ("05D0", "0F10"), c, LOW)
    taken(c, "05C0", "0FA0", "9F00")


@test
def decline_5_pin():
    c = card(sr1=0x02)
    quad = ("32000000", "34000000", "6B000000", "6C0000000000", "EB00000000")
    write = ("01A000", "1FD000", "02000000", "84000000", "10000000", "D8000000", "A100000000")
    declines(5, quad, c)
    declines(5, quad + write, c, LOW)
    taken(c, "06", "04", "13000000", wp=LOW)
    finish(c)
    taken(c, "03000000", "A500", "FF", "01C0FF", "01A000")
    equal(outcome(c, "6B000000", LOW), 0)


@test
def decline_6_register():
    c = card()
    for digit in "0123456789DEF":
        declines(6, [f"05{digit}A", f"0F{digit}B", f"01{digit}C20", f"1F{digit}020"], c)
    taken(c, "05AF", "0FB7", "01C9FF", "1FA37C")


@test
def decline_7_sr1():
    c = card(sr1=0x80)
    declines(7, ("01A000", "1FAF00"), c, LOW)
    taken(c, "01C000", "01B018", wp=LOW)
    taken(c, "01A081")
    taken(c, "01A082", wp=LOW)                             # both SRP bits 1: open, /WP low or not
    equal(outcome(c, "01A000", LOW), 5)
    taken(c, "01A001")
    declines(7, ("01A001",), c)
    declines(7, ("01A001",), c, LOW)
    c.power_cycle()
    taken(c, "01A081", "01B050", "01B070")
    finish(c)
    declines(7, ("01A081", "01A000"), c)
    c.power_cycle()
    equal((register(c, "A"), register(c, "B")), (0x81, 0x38))
    declines(7, ("01A081", "01A000"), c)


@test
def decline_8_locks():
    c = card()
    declines(8, ("01B080", "1FB0A0", "01B0FF", "01B060"), c)     # OTP-E as it is, not as written
    taken(c, "01B040")
    equal(register(c, "B"), 0x48)
    declines(8, ("01B060", "01B0E0"), c)
    taken(c, "01B080")                                     # taken; OTP-E falls at once
    equal((register(c, "B"), register(c, "C")), (0x08, 0x01))
    equal([c.step() for _ in range(5)], [3, 2, 1, 0, 0])
    equal(register(c, "B"), 0x88)
    taken(c, "01B080", "01B000")                           # a lock bit that is 1 stays 1
    equal((register(c, "B"), register(c, "C")), (0x88, 0x00))
    for sr1, number in ((0x01, 8), (0x80, 8), (0x81, 0)):
        d = card(sr1=sr1)
        taken(d, "01B040")
        equal(outcome(d, "01B060"), number)


@test
def decline_9_latch():
    texts = ("02000000", "84000000", "32000000", "34000000", "1000000C", "D8000000")
    c = card()
    taken(c, "01B050")
    declines(9, texts, c)
    taken(c, "06", *texts[:4])
    taken(c, "04")
    declines(9, texts, c)
    equal(outcome(c, "A100000000"), 12)


@test
def decline_10_otp_row():
    c = card()
    taken(c, "01B050", "06")
    declines(10, ("1000000C", "1300000C", "10000100", "13FFFFFF", "10000010"), c)
    taken(c, "1300000B")


@test
def decline_11_sealed():
    c = card()
    for text, fail in (("10000000", 0x08), ("D8000003", 0x0C), ("10000007", 0x0C)):
        taken(c, "06")
        declines(11, (text,), c)
        equal(register(c, "C"), fail)                      # the other FAIL bit stays
    taken(c, "FF", "01A000", "01B050")
    for text, fail in (("10000000", 0x08), ("10000001", 0x08), ("D8000005", 0x0C),
                       ("D800FFFF", 0x0C)):
        taken(c, "06")
        declines(11, (text,), c)
        equal(register(c, "C"), fail)
    taken(c, "06", "10000002")
    equal(register(c, "C"), 0x03)                          # taking clears both FAIL bits
    finish(c)
    done(c, "01B0D0", "06")
    declines(11, ("10000002",), c)
    taken(c, "06")
    declines(10, ("1000000C",), c)


@test
def decline_12_13_14_15_links():
    c = card(8, 1, sr1=0)
    declines(12, ("A100080000", "A100000008", "A1FFFF0001", "A100030003"), c)
    done(c, "A100020003")
    declines(13, ("A100020003", "A100030002", "A100000002", "A100000003", "A100030001"), c)
    taken(c, "01A00C")                                     # seals addresses 0 and 1
    declines(15, ("A100000004", "A100040000", "A100010005"), c)
    declines(13, ("A100020003",), c)
    taken(c, "A100040005")
    finish(c)
    taken(c, "01A008")                                     # seals addresses 6 and 7
    done(c, "A100020001", "01A00C")
    declines(15, ("A100020007",), c)                       # its partner 1 is sealed
    taken(c, "01A000")
    for count in range(3, 20):
        equal(register(c, "C"), 0x00)
        done(c, f"A10002000{'67'[count % 2]}")
    equal(register(c, "C"), 0x40)
    taken(c, "01A07C")
    declines(14, ("A100020001",), c)
    declines(13, ("A100020004",), c)
    declines(12, ("A100020002",), c)
    equal(len(tx(c, "A500", area=100)[2].rstrip(b"\xff")), 80)
    equal(tx(c, "A500", area=100)[1], 80)


@test
def columns_and_loads():
    c = card()
    taken(c, "06", "02F83E0102030405")                     # column F83Eh counts as 83Eh = 2,110
    equal(tx(c, "0B083D55", area=5), (0, 3, HEX("FF0102FFFF")))
    taken(c, "84083FAABB", "840FFF11", "84084022")
    equal(tx(c, "EB083D5555", area=9)[2][:3], HEX("FF01AA"))
    equal(tx(c, "BC083D555555", area=9)[1], 3)
    equal(tx(c, "030FFF00", area=2), (0, 0, HEX("FFFF")))
    taken(c, "020FFF11")
    equal(bytes(c.buffer), b"\xff" * PAGE)
    equal(tx(c, "05C0", area=0), (0, 0, b""))
    equal(tx(c, "0FC5", area=4), (0, 4, HEX("02020202")))


@test
def power_cycle_loads_through_links():
    c = card(4, 1, sr1=0)
    done(c, "06", "020000AB", "10000002", "A100000002")
    taken(c, "06", "01B040")
    equal((c.power_cycle(), c.buffer[0], register(c, "C"), register(c, "B")), (0, 0xAB, 0, 0x18))
    taken(c, "01A081", "01B050", "01B070")                 # a pending lock is dropped whole
    c.step()
    c.power_cycle()
    equal((register(c, "A"), register(c, "B"), c.step()), (0x7C, 0x18, 0))


# --------------------------------------------------------------------- arrays

@test
def six_lines():
    zeros = bytes(PAGE)
    for array in (memory(2, 2, 1), LinkedArray(memory(2, 2, 1), LinkTable())):
        area = bytearray(PAGE)
        equal((array.n, array.p), (2, 2))
        for answer in (array.read(2, 0, area), array.read(0, 2, area), array.program(2, 0, zeros),
                       array.program(0, 2, zeros), array.program(0, 0, zeros[1:]), array.erase(2),
                       array.read(0, 0, bytearray(5))):
            equal(answer, ABSENT)
        equal(area, bytearray(PAGE))
        equal((array.program(1, 1, zeros), array.read(1, 1, area), bytes(area)), (DONE, DONE, zeros))
        equal((array.erase(1), array.life(1), array.life(0)), (DONE, 0, 1))
        equal((array.read(1, 1, area), bytes(area)), (DONE, b"\xff" * PAGE))
        equal((array.program(1, 1, zeros), array.erase(1)), (WORN, WORN))
        equal((array.program(1, 2, zeros), array.program(1, 1, b"")), (ABSENT, ABSENT))
    dump = DumpArray(2, 2, bytes(memory(2, 2).data))
    equal((dump.n, dump.read(1, 1, area), dump.program(0, 0, zeros), dump.erase(0)),
          (2, DONE, WORN, WORN))
    for n, p, length in ((3, 1, 12 + 3 * PAGE), (2, 1, 8), (2048, 1, 2048 * (4 + PAGE)), (0, 0, 0),
                         (1, 128, 4 + 128 * PAGE)):
        equal((MemoryArray(n, p, bytearray(length)).n, DumpArray(n, p, bytes(length)).p), (0, 0))


@test
def link_not_below_n():
    table = LinkTable()
    table.words[:3] = [(0x8001, 4), (0xC000, 2), (0x8000, 3)]
    equal([table.reach(b, 4) for b in range(6)], [3, 1, 2, 0, 4, 5])
    equal([table.reach(b, 8) for b in range(6)], [3, 4, 2, 0, 1, 5])


# ----------------------------------------------------------------- book and job

@test
def book_follows():
    c = card(4, 2, 1)
    b = Book(4, 2, [1] * 4)

    def both(*texts, steps=True):
        for text in texts:
            b.transaction(HEX(text), outcome(c, text))
            while steps and c.left:
                c.step()
                b.step()

    both("01A000", "A100000001", "A100000002", "06", "D8000000", "06", "D8000001")
    equal((b.swaps, b.erases, b.sr1), ([(0, 1), (0, 2)], [0, 0, 1, 0], 0))
    equal([b.block_of(a) for a in range(4)], [2, 1, 0, 3])
    both("01A0FF", "01B040", "01B020", steps=False)
    equal(b.locks, 0)
    c.power_cycle()
    b.power_cycle()
    equal((b.locks, b.sr1, b.left), (0, 0x7C, 0))
    both("01A081", "01B040", "01B0E0")
    c.power_cycle()
    b.power_cycle()
    equal((b.locks, b.sr1), (0xA0, 0x81))


ONES, TEXT = b"\xff" * PAGE, bytes(i % 251 for i in range(PAGE))


@test
def job_runs():
    c = card()
    job = Job.open(c, HIGH)
    equal((job.kept, c.sr1), (0x7C, 0))
    equal(job.write(c, HIGH, 9, TEXT), None)
    area = bytearray(PAGE)
    equal((job.check(c, HIGH, 1, TEXT, area), bytes(area), job.state), (None, TEXT, "checked"))
    equal((job.seal(c, HIGH, 0xFC), c.sr1, job.state), (None, 0x7D, "spent"))
    job.drop()
    equal(Job.open(c, HIGH), Fault("register", 0x01, 7))
    c.power_cycle()
    taken(c, "01A0AA")
    job = Job.open(c, HIGH)
    equal((job.give_up(c, HIGH), c.sr1, job.state), (0, 0xAA, "spent"))


@test
def job_faults():
    c = card(life=0)
    taken(c, "13000000")
    equal(Job.open(c, HIGH), Fault("counter", 0xFF, 4))
    finish(c)
    taken(c, "01A07E")
    equal(Job.open(c, LOW), Fault("pin", 0x01, 5))
    equal(Job.open(Card(memory(0, 0), memory(1, 16)), HIGH), Fault("card", 0xFF, 1))
    job = Job.open(c, HIGH)
    state = snapshot(c)
    equal(job.write(c, HIGH, 3, TEXT[1:]), Fault("job", 0, 16, 3))
    equal(snapshot(c), state)
    equal(job.write(c, HIGH, 3, TEXT), Fault("job", 0x05, 17, 3))
    area = bytearray(b"\x77" * PAGE)
    equal(job.check(c, HIGH, 3, TEXT + b"x", area), Fault("job", 0, 16, 3))
    short = bytearray(b"\x77" * 5)
    equal((job.check(c, HIGH, 3, TEXT, short), bytes(short)), (Fault("job", 0, 16, 3), b"\x77" * 5))
    equal(bytes(area), b"\x77" * PAGE)
    equal(job.check(c, HIGH, 3, ONES[:7] + TEXT[7:], area), Fault("job", 0x03, 18, 3, 7))
    equal((bytes(area), job.state), (ONES, "opened"))
    taken(c, "01B050")
    equal(job.check(c, HIGH, 300, TEXT, area), Fault("address", 0x13, 10, 300))
    equal(bytes(area), ONES)
    equal(job.write(c, HIGH, 1, TEXT), Fault("address", 0x10, 11, 1))
    taken(c, "FF", "01A002")
    equal(job.write(c, LOW, 1, TEXT), Fault("pin", 0x02, 5, 1))
    taken(c, "01A001")
    equal((job.check(c, HIGH, 0, ONES, area), job.state), (None, "checked"))
    equal((job.seal(c, HIGH, 0), job.state), (Fault("register", 0x01, 7), "checked"))
    equal((job.give_up(c, HIGH), job.state), (7, "spent"))


@test
def job_misuses():
    c = card()
    job = Job.open(c, HIGH)

    def turned_away(call, *arguments):
        try:
            call(*arguments)
        except Misuse:
            return
        raise AssertionError("not turned away")

    turned_away(job.seal, c, HIGH, 0)
    turned_away(job.drop)
    equal(job.check(c, HIGH, 0, ONES, bytearray(PAGE)), None)
    turned_away(job.write, c, HIGH, 0, ONES)
    turned_away(job.drop)
    equal(job.give_up(c, HIGH), 0)
    turned_away(job.give_up, c, HIGH)


if __name__ == "__main__":
    failed = 0
    for function in TESTS:
        try:
            function()
        except Exception as error:
            failed += 1
            print(f"{function.__name__}: {type(error).__name__} {str(error)[:300]}")
    print(f"{len(TESTS) - failed} passed, {failed} failed")
    raise SystemExit(failed > 0)
