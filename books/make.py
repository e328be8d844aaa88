#!/usr/bin/env python3
"""Writes the example books again: NAME.book, each with what the program must print in NAME.out.

books/make.py [FOLDER]    into FOLDER, or in place of those beside this file.

A book is a byte, the number of members; 71 weights of four bytes; for each member a byte of age and four of stake; then
lines. All numbers have their low byte first. docs/RULES.md has the whole format.
"""
import os
import sys

AGES = 71


def number(n):
    return n.to_bytes(4, "little")


def table():
    """Deaths in a year among 100,000 people, rising by about a tenth with each year of age."""
    weights, weight = [], 150.0
    for _ in range(AGES):
        weights.append(min(100_000, int(weight)))
        weight *= 1.1
    return weights


def head(members, weights=None):
    book = bytes([len(members)]) + b"".join(number(w) for w in weights or table())
    return book + b"".join(bytes([age]) + number(stake) for age, stake in members)


def weights_with(index, weight):
    weights = table()
    weights[index] = weight
    return weights


THREE = [(62, 1_000_000), (70, 650_000), (81, 300_000)]
PAID = "0 paid 0\n1 paid 0\n2 paid 0\n"

BOOKS = {
    "three": (head(THREE), PAID),
    "one": (head([(40, 1)]), "0 paid 0\n"),
    "lines": (head(THREE) + bytes([1, 2]) + number(5000) + bytes([2, 3, 1, 0]), PAID),
    "full": (head([(40 + i, 100_000_000 - i) for i in range(64)]), "".join(f"{i} paid 0\n" for i in range(64))),
    "empty": (b"", "refused 1 at 0\n"),
    "no-members": (head([]), "refused 1 at 0\n"),
    "too-many": (head([(50, 100)] * 65), "refused 1 at 0\n"),
    "cut-in-table": (head(THREE)[:100], "refused 2 at 100\n"),
    "cut-in-member": (head(THREE)[:-1], "refused 2 at 299\n"),
    "weight-zero": (head(THREE, weights_with(0, 0)), "refused 2 at 0\n"),
    "weight-high": (head(THREE, weights_with(70, 100_001)), "refused 2 at 70\n"),
    "age-low": (head([(62, 1000), (39, 1000), (111, 1000)]), "refused 3 at 1\n"),
    "age-high": (head([(62, 0), (70, 1000), (111, 1000)]), "refused 3 at 2\n"),
    "stake-zero": (head([(62, 1000), (70, 1000), (81, 0)]), "refused 4 at 2\n"),
    "stake-high": (head([(62, 100_000_001), (70, 1000), (81, 0)]), "refused 4 at 0\n"),
}

if __name__ == "__main__":
    folder = sys.argv[1] if len(sys.argv) > 1 else os.path.dirname(os.path.abspath(__file__))
    for name, (book, out) in BOOKS.items():
        with open(os.path.join(folder, name + ".book"), "wb") as f:
            f.write(book)
        with open(os.path.join(folder, name + ".out"), "w") as f:
            f.write(out)
