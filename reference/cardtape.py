"""cardtape: runs a tape of calls from standard input on a small card.

    python3 reference/cardtape.py < tape > answers
"""
import re
import sys

from card import PAGE, Card, MemoryArray

RECORD = re.compile(rb"TX ([01]) ([0-9][0-9]) ((?:[0-9A-F]{2}){0,64})")


def memory(n, p, life=3):
    return MemoryArray(n, p, bytearray(life.to_bytes(4, "big") * n + b"\xff" * (PAGE * n * p)))


def tape_card():
    """4 blocks of 2 pages (OTP 1 block of 16), all bytes FFh and all lives 3."""
    return Card(memory(4, 2), memory(1, 16))


def lines_of(tape):
    """Each line goes up to 0Ah or the end; nothing after the last 0Ah is no line."""
    lines = tape.split(b"\n")
    return lines if lines[-1] else lines[:-1]


def answer(card, line):
    if line == b"ST":
        return str(card.step())
    if line == b"PW":
        return str(card.power_cycle())
    record = RECORD.fullmatch(line)
    if record is None or int(record[2]) > 64:
        return "??"
    outcome, driven, area = card.transaction(
        bytes.fromhex(record[3].decode()), int(record[1]), int(record[2]))
    return f"{outcome} {driven}" + (f" {area.hex().upper()}" if area else "")


def run(tape):
    card = tape_card()
    return "".join(answer(card, line) + "\n" for line in lines_of(tape)).encode()


if __name__ == "__main__":
    sys.stdout.buffer.write(run(sys.stdin.buffer.read()))
