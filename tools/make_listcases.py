#!/usr/bin/env python3
"""Writes the stored streams of crates/listcases and what they must list, from the format alone.

Each stream is spelled as text: a word of bits for each field, or bytes in hexadecimal. The listing of
each is worked out from the fields that were spelled, and never by reading bytes or running the library.
Run from the top of the repository; it also writes the input and output of crates/orderlist.
"""
import pathlib

def bits(width, value):
    """The lowest bits of a number in two's complement, the most significant first."""
    return "".join("1" if value >> i & 1 else "0" for i in reversed(range(width)))

def pad(text):
    return text + "0" * (-len(text) % 8)

def pack(text):
    return bytes(int(text[i:i + 8], 2) for i in range(0, len(text), 8))

def place(kind, word):
    def order(gate, distance, height):
        text = bits(3, kind) + bits(8, gate) + bits(20, distance) + bits(20, height)
        return pack(pad(text)), f"{word} {gate} {distance} {height}"
    return order

set_gate = place(0, "set")
move = place(2, "move")

def lift(gate):
    return pack(pad(bits(3, 1) + bits(8, gate))), f"lift {gate}"

def plan_for(zones):
    return pack(pad(bits(3, 3) + bits(6, zones))), f"plan for {zones}"

def plan_within(limit):
    return pack(pad(bits(3, 4) + bits(43, limit))), f"plan within {limit}"

def stream(orders, tail="", fault=None):
    """Orders and then bytes in hexadecimal, which have the fault of the given number."""
    data, lines = b"", []
    for packed, words in orders:
        lines.append(f"{len(data)} {words}")
        data += packed
    lines.append(f"{len(orders)} orders" + (f" !{fault} {len(data)}" if fault else ""))
    return data + bytes.fromhex(tail), lines

FIVE = [set_gate(1, 0, 900), lift(1), move(2, 300, -500), plan_for(2), plan_within(250000)]

EXTREMES = [
    set_gate(0, 0, 0), set_gate(255, 1048575, -524288), set_gate(255, 1048575, 524287),
    set_gate(128, 524288, -1), move(0, 0, 0), move(255, 1048575, -524288), move(255, 1048575, 524287),
    move(1, 1, 1), lift(0), lift(255), plan_for(0), plan_for(32), plan_for(63),
    plan_within(0), plan_within(2 ** 43 - 1), plan_within(2 ** 42),
]

# 584 sets of 7 bytes and 4 lifts of 2 are 4,096 bytes
FULL = [set_gate(i % 256, 1790 * i, 524287 - 1795 * i) for i in range(584)] + [lift(i) for i in range(4)]

CASES = {
    "five": stream(FIVE),
    "five_then_kind_5": stream(FIVE, "a0", 10),
    "empty": stream([]),
    "kind_5": stream([], "a0", 10),
    "kind_6": stream([], "c0 00 00 00 00 00 00", 10),
    "kind_7": stream([], "ff ff", 10),
    "ends_in_set": stream([lift(9)], "00 20 00 00 00 70", 11),
    "ends_in_lift": stream([], "20", 11),
    "ends_in_move": stream([plan_for(1)], "40", 11),
    "ends_in_plan_for": stream([], "61", 11),
    "ends_in_plan_within": stream([], "80 00 00 00 00", 11),
    "padding_of_set": stream([], "00 20 00 00 00 70 81", 12),
    "padding_of_lift": stream([], "20 30", 12),
    "padding_of_move": stream([lift(7)], "40 40 09 60 ff 0c 10", 12),
    "padding_of_plan_for": stream([], "61 01", 12),
    "first_padding_bit": stream([], "61 40", 12),
    "padding_of_plan_within": stream([], "80 00 00 7a 12 02", 12),
    "stops_at_the_first_fault": stream([plan_for(2)], "61 01 61 00 a0", 12),
    "extremes": stream(EXTREMES),
    "longest": stream(FULL),
    "longest_with_a_fault": stream(FULL[:-1], "61 01", 12),
    "one_byte_more": (stream(FULL)[0] + b"\x20", ["LONG"]),
}

def main():
    cases = pathlib.Path("crates/listcases")
    told = []
    for name, (data, lines) in CASES.items():
        (cases / "data" / f"{name}.orders").write_bytes(data)
        told += [f"{name}:"] + lines
    (cases / "stdout").write_text("\n".join(told) + "\n")
    data, lines = CASES["five"]
    program = pathlib.Path("crates/orderlist")
    (program / "stdin").write_bytes(data)
    (program / "stdout").write_text("\n".join(lines) + "\n")

main()
