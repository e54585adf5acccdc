#!/usr/bin/env python3
"""What the listing of some words must be, from Table 29-1 alone.

Usage: expected_listing.py INPUT.bin EXPECTED.txt FIRST COUNT

Writes a listing input that holds the words FIRST, FIRST + 1, ... (COUNT of them) to INPUT.bin, and the
listing that it must give to EXPECTED.txt. It knows nothing of our code: it reads tests/table_29_1.txt,
the printed table, and matches each word against each row's picture bit by bit, as a person would with a
pencil. A row fits where every printed 0 and 1 is the word's bit. An operand is the number that the bits
under its letter make. It ends with an error if two rows fit one word.
"""
import os
import sys

HERE = os.path.dirname(os.path.abspath(__file__))


def rows():
    for line in open(os.path.join(HERE, "table_29_1.txt"), encoding="ascii"):
        if line.startswith("#"):
            continue
        name, operands, *picture = line.split()
        picture = "".join(picture)
        assert len(picture) == 14, line
        yield name, [] if operands == "-" else operands.split(","), picture


TABLE = list(rows())
assert len(TABLE) == 35


def operand(letter, picture, bits):
    digits = "".join(bit for mark, bit in zip(picture, bits) if mark == letter)
    value = int(digits, 2)
    if letter in "db":
        return str(value)
    return "0x" + format(value, "X").zfill(3 if len(digits) == 11 else 2)


def text(word):
    bits = format(word, "016b")
    if bits[:2] != "00":
        return "????"
    bits = bits[2:]
    found = []
    for name, operands, picture in TABLE:
        if all(mark == bit for mark, bit in zip(picture, bits) if mark in "01"):
            words = [name]
            if operands:
                words.append(",".join(operand(o, picture, bits) for o in operands))
            found.append(" ".join(words))
    assert len(found) < 2, (hex(word), found)
    return found[0] if found else "????"


def main():
    out_input, out_expected, first, count = sys.argv[1], sys.argv[2], int(sys.argv[3], 0), int(sys.argv[4], 0)
    words = range(first, first + count)
    with open(out_input, "wb") as f:
        f.write((2 * count).to_bytes(2, "little") + (1).to_bytes(2, "little"))
        for word in words:
            f.write(word.to_bytes(2, "little"))
    with open(out_expected, "w", encoding="ascii", newline="\n") as f:
        for address, word in enumerate(words):
            f.write("%04X %04X %s\n" % (address, word, text(word)))


main()
