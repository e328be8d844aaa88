#!/usr/bin/env python3
"""Holds the program to a second reader of books, which shares no code with it.

books/compare.py PROGRAM [COUNT]    makes COUNT books (2000), the same ones in each run, most of them damaged somewhere, runs the
program on each, and says 'N books agree', or shows the first on which the two differ and ends with status 1.

It sees what the program prints: the refusals 1 to 4 with their places, and how many members there are.
"""
import random
import subprocess
import sys

from make import head, table


def reads(book):
    """What the program must print for a book, as far as it is built: a refusal, or what each member was paid."""
    count = book[0] if book else 0
    if not 1 <= count <= 64:
        return "refused 1 at 0\n"
    if len(book) < 1 + 71 * 4 + 5 * count:
        return f"refused 2 at {len(book)}\n"
    for index in range(71):
        weight = int.from_bytes(book[1 + 4 * index : 5 + 4 * index], "little")
        if not 1 <= weight <= 100_000:
            return f"refused 2 at {index}\n"
    members = [book[285 + 5 * i : 290 + 5 * i] for i in range(count)]
    for i, member in enumerate(members):
        if not 40 <= member[0] <= 110:
            return f"refused 3 at {i}\n"
    for i, member in enumerate(members):
        if not 1 <= int.from_bytes(member[1:], "little") <= 100_000_000:
            return f"refused 4 at {i}\n"
    return "".join(f"{i} paid 0\n" for i in range(count))


def lines(chance):
    """Some lines, not all of which can be read."""
    kinds = [bytes([1]) + chance.randbytes(5), b"\x02", b"\x03", chance.randbytes(3)]
    return b"".join(chance.choice(kinds) for _ in range(chance.randrange(6)))


def sample(chance):
    """A sound book, and then in most cases one or two things wrong with it."""
    edge = chance.choice
    count = edge([1, 2, 3, 30, 63, 64])
    members = [(edge([40, 41, 75, 109, 110]), edge([1, 2, 70_000, 99_999_999, 100_000_000])) for _ in range(count)]
    weights = [edge([1, 2, 99_999, 100_000, w]) for w in table()]
    for _ in range(chance.randrange(3)):
        where = chance.randrange(3)
        if where == 0:
            weights[chance.randrange(71)] = edge([0, 100_001, 2**32 - 1])
        elif where == 1:
            i = chance.randrange(count)
            members[i] = (edge([0, 39, 111, 255]), members[i][1])
        else:
            i = chance.randrange(count)
            members[i] = (members[i][0], edge([0, 100_000_001, 2**32 - 1]))
    book = head(members, weights) + lines(chance)
    damage = chance.randrange(8)
    if damage == 0:
        book = book[: chance.randrange(len(book) + 1)]
    elif damage == 1:
        book = bytes([edge([0, 1, 64, 65, 128, 255])]) + book[1:]
    elif damage == 2:
        at = chance.randrange(len(book))
        book = book[:at] + chance.randbytes(1) + book[at + 1 :]
    return book


def main():
    program = sys.argv[1]
    count = int(sys.argv[2]) if len(sys.argv) > 2 else 2000
    chance = random.Random(7)
    for _ in range(count):
        book = sample(chance)
        ran = subprocess.run([program], input=book, capture_output=True, timeout=60)
        if (ran.returncode, ran.stdout.decode(), ran.stderr) != (0, reads(book), b""):
            print(f"the book {book.hex()}\nshould give\n{reads(book)}and gave, with status {ran.returncode},\n{ran.stdout.decode()}{ran.stderr.decode()}")
            sys.exit(1)
    print(f"{count} books agree")


if __name__ == "__main__":
    main()
