"""Planted bugs: shows that the tapes and the laws have teeth.

    python3 reference/mutants.py [--tapes 40] [--lines 2000] [--runs 200] [--calls 400]
    python3 reference/mutants.py --tape crates/cardtape/stdin      one tape, without the laws

Each mutant is a card with one rule turned.  For each the report tells how many tapes
print something else than the reference, and the first of the laws a to c that it breaks on
the random runs.  A "-" there says only that so many runs found no breach.
"""
import argparse
from multiprocessing import Pool

import card as model
from card import (DECLINES, ERASE, FF_PAGE, LOAD, LOCKS, LOW, OTP_L, PAGE, PROGRAM, SR1_L, SWAP,
                  Card, power_lock, seal_covers, srp0, srp1, wp_e)
from cardtape import answer, lines_of, memory
from gen import Tape
from laws import random_run

MUTANTS = {}


def mutant(cls):
    MUTANTS[cls.__name__] = cls
    return cls


def turned(number, condition):
    """The decline table with another condition under a number."""
    return tuple((no, place, condition if no == number else old) for no, place, old in DECLINES)


def cards(name, **members):
    MUTANTS[name] = type(name, (Card,), members)


# every line of the decline table left out, and every two neighbours exchanged
for i, (no, _, _) in enumerate(DECLINES):
    if no > 3:
        cards(f"without_{no}", declines=DECLINES[:i] + DECLINES[i + 1:])
    if i:
        order = list(DECLINES)
        order[i - 1:i + 1] = order[i], order[i - 1]
        if no > 2:
            cards(f"order_{no}_before_{no - 1}", declines=tuple(order))


# single conditions
def seal_by_block(c, f):
    if f.code not in (PROGRAM, ERASE) or c.otp_e:
        return model.sealed_place(c, f)
    return c.sealed(c.main.reach(c.place(f.row)[0]))


def swap_seal(*which):
    def condition(c, f):
        if f.code != SWAP:
            return False
        partner = c.table.partner(f.a, c.main.n)
        parts = {"a": f.a, "b": f.b, "partner": f.a if partner is None else partner}
        return any(c.sealed(parts[name]) for name in which)
    return condition


cards("seal_by_reached_block", declines=turned(11, seal_by_block))
cards("swap_seal_without_partner", declines=turned(15, swap_seal("a", "b")))
cards("swap_seal_only_a", declines=turned(15, swap_seal("a", "partner")))
cards("swap_seal_only_b", declines=turned(15, swap_seal("b")))
cards("b_only_second", declines=turned(13, lambda c, f: f.code == SWAP and any(
    f.b == link[1] or f.a == link[1] for link in c.table.live())))
cards("a_second_let_through", declines=turned(13, lambda c, f: f.code == SWAP and any(
    f.b in link for link in c.table.live())))
cards("a_in_any_link", declines=turned(13, lambda c, f: f.code == SWAP and any(
    f.b in link or f.a in link for link in c.table.live())))
cards("retired_links_count", declines=turned(13, lambda c, f: f.code == SWAP and any(
    first and (f.b in (first & 0x3FFF, second) or f.a == second) for first, second in c.table.words)))
cards("full_at_19", declines=turned(14, lambda c, f: f.code == SWAP and c.table.used() >= 19))
cards("same_address_let_through", declines=turned(12, lambda c, f: f.code == SWAP and max(f.a, f.b) >= c.main.n))
cards("otp_row_12", declines=turned(10, lambda c, f: c.otp_e and f.code in (PROGRAM, LOAD) and f.row > 12))
cards("otp_row_by_low_byte", declines=turned(
    10, lambda c, f: c.otp_e and f.code in (PROGRAM, LOAD) and f.row % 256 > 11))
cards("otp_row_also_erase", declines=turned(
    10, lambda c, f: c.otp_e and f.code in (PROGRAM, LOAD, ERASE) and f.row > 11))
cards("otp_row_1_free", declines=turned(11, lambda c, f: model.sealed_place(c, f) and not (
    c.otp_e and f.code == PROGRAM and f.row == 1 and not c.locks & OTP_L)))
cards("otp_under_seal", declines=turned(11, lambda c, f: model.sealed_place(c, f) or (
    f.code == PROGRAM and c.otp_e and c.sealed(0))))
cards("otp_lock_ignored", declines=turned(11, lambda c, f: model.sealed_place(c, f) and not (
    c.otp_e and f.code == PROGRAM and f.row > 1)))
cards("new_lock_by_written_otp_e", declines=turned(8, lambda c, f: f.writes(0xB) and (
    (new := f.value & LOCKS & ~c.locks) and not f.value & 0x40
    or new & SR1_L and not (srp1(c.sr1) and srp0(c.sr1)))))
cards("sr1_lock_by_one_srp", declines=turned(8, lambda c, f: f.writes(0xB) and (
    (new := f.value & LOCKS & ~c.locks) and not c.otp_e or new & SR1_L and not srp1(c.sr1))))
cards("old_lock_bits_count_as_new", declines=turned(
    8, lambda c, f: f.writes(0xB) and f.value & LOCKS and not c.otp_e))
cards("power_lock_ignored", declines=turned(7, lambda c, f: model.sr1_shut(c, f) and not (
    power_lock(c.sr1) and not c.locks & SR1_L)))
cards("srp_both_is_power_lock", declines=turned(7, lambda c, f: model.sr1_shut(c, f) or f.writes(0xA) and srp1(c.sr1)))
cards("sr1_lock_ignored", declines=turned(7, lambda c, f: model.sr1_shut(c, f) and (
    not c.locks & SR1_L or power_lock(c.sr1))))
cards("srp0_with_wp_e_shut", declines=turned(7, lambda c, f: model.sr1_shut(c, f) or (
    f.writes(0xA) and srp0(c.sr1) and not srp1(c.sr1) and wp_e(c.sr1))))
cards("srp0_ignores_pin", declines=turned(7, lambda c, f: model.sr1_shut(c, f) or (
    f.writes(0xA) and srp0(c.sr1) and not srp1(c.sr1) and not wp_e(c.sr1))))
cards("pin_spares_swap", declines=turned(5, lambda c, f: f.code != SWAP and model.pin_shut(c, f)))
cards("pin_spares_registers_2_3", declines=turned(
    5, lambda c, f: not (f.code in model.WRITE_REGISTER and f.register >> 4 != 0xA) and model.pin_shut(c, f)))
cards("quad_only_at_low_pin", declines=turned(5, lambda c, f: f.wp == LOW and model.pin_shut(c, f)))
cards("pin_shuts_06h", declines=turned(5, lambda c, f: model.pin_shut(c, f) or (
    wp_e(c.sr1) and f.wp == LOW and f.code == 0x06)))
cards("pin_without_wp_e", declines=turned(5, lambda c, f: model.pin_shut(c, f) or (
    f.wp == LOW and f.code in (0x02, 0x84))))
cards("reset_while_busy", declines=turned(4, lambda c, f: f.code != 0xFF and model.busy(c, f)))
cards("busy_spares_a5", declines=turned(4, lambda c, f: f.code != 0xA5 and model.busy(c, f)))
cards("busy_shuts_9f", declines=turned(4, lambda c, f: c.left > 0 and f.code not in model.READ_REGISTER))
cards("latch_spares_84h", declines=turned(9, lambda c, f: f.code != 0x84 and model.latch_open(c, f)))
cards("latch_wanted_by_swap", declines=turned(9, lambda c, f: model.latch_open(c, f) or f.code == SWAP and not c.wel))
cards("load_without_data", declines=turned(
    3, lambda c, f: not f.count_fits and not (f.code in model.DATA_LOAD and len(f.sent) == 3)))


# effects
@mutant
class SwapKeepsOldLink(Card):
    def act(self, operation, *arguments):
        if operation == "swap":
            a, b = arguments
            self.table.words[self.table.words.index((0, 0))] = (0x8000 + a, b)
        else:
            super().act(operation, *arguments)


@mutant
class SwapDeletesOldLink(Card):
    def act(self, operation, *arguments):
        super().act(operation, *arguments)
        if operation == "swap":
            kept = [entry for entry in self.table.words if entry[0] < 0xC000]
            self.table.words = kept + [(0, 0)] * (20 - len(kept))


@mutant
class SwapClearsWel(Card):
    def act(self, operation, *arguments):
        super().act(operation, *arguments)
        if operation == "swap":
            self.wel = 0


@mutant
class LoadKeepsWel(Card):
    def act(self, operation, *arguments):
        wel = self.wel
        super().act(operation, *arguments)
        if operation == "load":
            self.wel = wel


@mutant
class LockClearsWel(Card):
    def act(self, operation, *arguments):
        super().act(operation, *arguments)
        if operation == "lock":
            self.wel = 0


@mutant
class WelFallsWhenTaken(Card):
    def take(self, f, length):
        given = super().take(f, length)
        if f.code == PROGRAM:
            self.wel = 0
        return given


@mutant
class ProgramsWhenTaken(Card):
    def take(self, f, length):
        given = super().take(f, length)
        if f.code == PROGRAM:
            self.program_buffer(f.row)
        return given


@mutant
class LocksWhenTaken(Card):
    def take(self, f, length):
        given = super().take(f, length)
        if f.writes(0xB):
            self.locks |= f.value & LOCKS
        return given


@mutant
class LockBitsFall(Card):
    def take(self, f, length):
        given = super().take(f, length)
        if f.writes(0xB):
            self.locks &= f.value
        return given


@mutant
class LoadCodeKeepsFails(Card):
    def take(self, f, length):
        fails = self.p_fail, self.e_fail
        given = super().take(f, length)
        if f.code in (PROGRAM, ERASE):
            self.p_fail, self.e_fail = fails
        return given


@mutant
class LoadPageClearsFails(Card):
    def take(self, f, length):
        given = super().take(f, length)
        if f.code == LOAD:
            self.p_fail = self.e_fail = 0
        return given


@mutant
class ResetKeepsOtpE(Card):
    def take(self, f, length):
        otp_e = self.otp_e
        given = super().take(f, length)
        if f.code == 0xFF:
            self.otp_e = otp_e
        return given


@mutant
class ResetSetsEccE(Card):
    def take(self, f, length):
        given = super().take(f, length)
        if f.code == 0xFF:
            self.ecc_e = 1
        return given


@mutant
class ColumnOfSixteenBits(Card):
    def take(self, f, length):
        if "column" in f.part:
            f.part["column"] = f.column if f.column < 0x1000 else 0xFFF
        return super().take(f, length)


@mutant
class ColumnWraps(Card):
    def take(self, f, length):
        if "column" in f.part:
            f.part["column"] = (f.column & 0xFFF) % PAGE
        return super().take(f, length)


@mutant
class RandomLoadResets(Card):
    def take(self, f, length):
        if f.code in model.DATA_KEEP:
            self.buffer[:] = FF_PAGE
        return super().take(f, length)


@mutant
class LoadKeepsWhenOutside(Card):
    def take(self, f, length):
        if f.code in model.DATA_RESET and f.column & 0xFFF >= PAGE:
            return b""
        return super().take(f, length)


@mutant
class DeclinedEraseKeepsWel(Card):
    def transaction(self, sent, wp, length):
        wel = self.wel
        answer = super().transaction(sent, wp, length)
        if answer[0] == 11 and sent[0] == ERASE:
            self.wel = wel
        return answer


@mutant
class ElevenClearsOtherFail(Card):
    def fail(self, code):
        self.p_fail = self.e_fail = 0
        super().fail(code)


@mutant
class PowerCycleFinishes(Card):
    def power_cycle(self):
        if getattr(self, "left", 0) == 1:
            self.step()
        return super().power_cycle()


@mutant
class PowerCycleKeepsPending(Card):
    def power_cycle(self):
        kept = getattr(self, "pending", None), getattr(self, "left", 0)
        super().power_cycle()
        self.pending, self.left = kept
        return 0


@mutant
class PowerCycleForgetsSr1Lock(Card):
    def power_cycle(self):
        super().power_cycle()
        self.sr1 = 0x7C
        return 0


@mutant
class PowerCycleKeepsSr1(Card):
    def power_cycle(self):
        kept = getattr(self, "sr1", 0x7C)
        super().power_cycle()
        self.sr1 = kept
        return 0


@mutant
class PowerCycleKeepsBuffer(Card):
    def power_cycle(self):
        kept = getattr(self, "buffer", None)
        super().power_cycle()
        self.buffer = kept or self.buffer
        return 0


@mutant
class PowerCyclePastLinks(Card):
    def power_cycle(self):
        super().power_cycle()
        if self.fit():
            self.main.array.read(0, 0, self.buffer)
        return 0


@mutant
class PowerCycleKeepsEccE(Card):
    def power_cycle(self):
        kept = getattr(self, "ecc_e", 1)
        super().power_cycle()
        self.ecc_e = kept
        return 0


@mutant
class SealTurned(Card):
    def sealed(self, address):
        return seal_covers(self.sr1 ^ 4, self.main.n, address)


@mutant
class SealOneShort(Card):
    def sealed(self, address):
        k = model.block_protect(self.sr1)
        return k > 1 and seal_covers(self.sr1 - 8, self.main.n, address)


@mutant
class ErasePastLinks(Card):
    def act(self, operation, *arguments):
        if operation == "erase":
            self.main.array.erase(self.place(*arguments)[0])
            self.wel = 0
        else:
            super().act(operation, *arguments)


@mutant
class ProgramPastLinks(Card):
    def array_place(self, row):
        if self.otp_e:
            return super().array_place(row)
        return (self.main.array, *self.place(row))


@mutant
class ProgramOverwrites(Card):
    def program_buffer(self, row):
        array, block, page = self.array_place(row)
        answer = array.program(block, page, self.buffer)
        if answer == model.DONE:
            below = array
            while hasattr(below, "array"):
                block, below = below.reach(block), below.array
            below.data[below._part(block, page)] = self.buffer
        return answer


@mutant
class WornUnnoticed(Card):
    def act(self, operation, *arguments):
        fails = self.p_fail, self.e_fail
        super().act(operation, *arguments)
        self.p_fail, self.e_fail = fails


@mutant
class EraseOfFifteenSteps(Card):
    def start(self, operation, *arguments):
        super().start(operation, *arguments)
        self.left -= operation == "erase"


@mutant
class RowByHighBits(Card):
    def place(self, row):
        return divmod(row % (self.main.n * self.main.p), self.main.n)[::-1]


@mutant
class OtpModeErases(Card):
    declines = turned(11, lambda c, f: not (c.otp_e and f.code == ERASE) and model.sealed_place(c, f))

    def act(self, operation, *arguments):
        if operation == "erase" and self.otp_e:
            self.otp.erase(0)
            self.wel = 0
        else:
            super().act(operation, *arguments)


@mutant
class OtpProgramOverwrites(Card):
    def program_buffer(self, row):
        answer = super().program_buffer(row)
        if self.otp_e and answer == model.DONE:
            self.otp.data[self.otp._part(0, row)] = self.buffer
        return answer


@mutant
class PowerCycleForgetsLinks(Card):
    def power_cycle(self):
        self.table.words[:] = [(0, 0)] * 20
        return super().power_cycle()


@mutant
class DrivenCountInvented(Card):
    def transaction(self, sent, wp, length):
        outcome, driven, area = super().transaction(sent, wp, length)
        return outcome, length if sent[:1] == b"\xa5" else driven, area


@mutant
class StepAnswersAfterActing(Card):
    def step(self):
        return super().step() + (self.left > 0)


@mutant
class LutFullAtNineteen(Card):
    def registers(self):
        registers = super().registers()
        registers[0xC] |= (self.table.used() >= 19) << 6
        return registers


@mutant
class BufBitWritable(Card):
    buf = 1

    def take(self, f, length):
        if f.writes(0xB):
            self.buf = f.value >> 3 & 1
        return super().take(f, length)

    def registers(self):
        registers = super().registers()
        registers[0xB] = registers[0xB] & ~8 | self.buf << 3
        return registers


def tape_answers(make, tape):
    try:
        c = make(memory(4, 2), memory(1, 16))
        return [answer(c, line) for line in lines_of(tape)]
    except Exception as error:                             # a mutant may trip over itself
        return [repr(error)]


def first_breach(make, runs, calls):
    """The first of the laws a to c that the mutant breaks, how it trips, or nothing."""
    for seed in range(runs):
        try:
            law = random_run(seed, calls, make=make, beside=False)[2]
        except Exception as error:
            return f"trips: {error!r}"
        if law:
            return f"{law} (run {seed})"
    return "-"


def report(work):
    name, tapes, wanted, runs, calls = work
    make = MUTANTS[name]
    shown = sum(tape_answers(make, tape) != right for tape, right in zip(tapes, wanted))
    return name, shown, first_breach(make, runs, calls)


def one_tape(name):
    with open(name, "rb") as file:
        tape = file.read()
    right = tape_answers(Card, tape)
    unseen = [name for name, make in MUTANTS.items() if tape_answers(make, tape) == right]
    print(f"{len(MUTANTS)} mutants; not shown: {len(unseen)}: {' '.join(unseen) or '-'}")


def main():
    options = argparse.ArgumentParser(description="try planted bugs on tapes and laws")
    for name, default in (("tapes", 40), ("lines", 2000), ("runs", 200), ("calls", 400)):
        options.add_argument("--" + name, type=int, default=default)
    options.add_argument("--tape", help="a tape to try alone")
    o = options.parse_args()
    if o.tape:
        return one_tape(o.tape)
    tapes = [Tape(seed).make(o.lines) for seed in range(o.tapes)]
    wanted = [tape_answers(Card, tape) for tape in tapes]
    unseen, lawful, fired = [], [], set()
    with Pool() as pool:
        for name, shown, law in pool.imap(report, [(m, tapes, wanted, o.runs, o.calls) for m in MUTANTS]):
            print(f"{name:32} {shown:4} of {o.tapes} tapes   {law}", flush=True)
            unseen += [name] * (shown == 0)
            lawful += [name] * (law == "-")
            fired |= {law[:2]} - {"-", "tr"}
    print("laws that some mutant broke first:", *sorted(fired))
    print(f"{len(MUTANTS)} mutants; not shown by {o.tapes} tapes: {len(unseen)}: {' '.join(unseen) or '-'}")
    print(f"no law a to c broken in {o.runs} runs of {o.calls} calls: {len(lawful)}: {' '.join(lawful) or '-'}")


if __name__ == "__main__":
    main()
