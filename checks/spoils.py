"""What may be done to the lines of a file, and to its bytes: a spoil takes a draw and a list of lines, and gives a list of lines."""

import random
from collections.abc import Callable

Draw = random.Random
Lines = list[bytes]
Spoil = Callable[[Draw, Lines], Lines]


def lost(draw: Draw, lines: Lines) -> Lines:
    """Some lines in a row are lost."""
    place = draw.randrange(len(lines))
    return lines[:place] + lines[place + draw.choice((1, 1, 1, 5, 60)) :]


def doubled(draw: Draw, lines: Lines) -> Lines:
    """Some lines in a row stand there twice."""
    place = draw.randrange(len(lines))
    return lines[: place + 1] + lines[place : place + draw.choice((1, 1, 7))] + lines[place + 1 :]


def swapped(draw: Draw, lines: Lines) -> Lines:
    """Two lines change places."""
    here, there = draw.randrange(len(lines)), draw.randrange(len(lines))
    lines = list(lines)
    lines[here], lines[there] = lines[there], lines[here]
    return lines


def shuffled(draw: Draw, lines: Lines) -> Lines:
    """Some lines in a row are out of order."""
    place = draw.randrange(len(lines))
    some = lines[place : place + draw.randint(2, 9)]
    draw.shuffle(some)
    return lines[:place] + some + lines[place + len(some) :]


def in_bytes(change: Callable[[Draw, bytes, int], bytes]) -> Spoil:
    """Returns a spoil of bytes, at a place among them."""

    def spoil(draw: Draw, lines: Lines) -> Lines:
        data = b"".join(lines)
        if not data:
            return lines
        return change(draw, data, draw.randrange(len(data))).splitlines(keepends=True)

    return spoil


def cut(draw: Draw, data: bytes, place: int) -> bytes:
    """The file ends there."""
    return data[:place]


def changed(draw: Draw, data: bytes, place: int) -> bytes:
    """A byte is another one."""
    return data[:place] + bytes([draw.choice(b"0123456789 \n\r\t-.x\0\xff\"=[]")]) + data[place + 1 :]


def flipped(draw: Draw, data: bytes, place: int) -> bytes:
    """A bit is the other one."""
    return data[:place] + bytes([data[place] ^ 1 << draw.randrange(8)]) + data[place + 1 :]


def put_in(draw: Draw, data: bytes, place: int) -> bytes:
    """Some bytes are put in."""
    noise = draw.choice((b"0", b" ", b"\n", b"\r\n", b"\r", b"9" * 40, b"1125899906842624 1\n", draw.randbytes(5), b"0" * 5000, b"-", b"-0 "))
    return data[:place] + noise + data[place:]


def taken_out(draw: Draw, data: bytes, place: int) -> bytes:
    """Some bytes are taken out."""
    return data[:place] + data[place + draw.choice((1, 1, 2, 30)) :]


def another_digit(draw: Draw, data: bytes, place: int) -> bytes:
    """What a reader doesn't see at once: a digit is another one."""
    for here in range(place, len(data)):
        if data[here : here + 1].isdigit():
            return data[:here] + draw.choice(b"0123456789").to_bytes(1, "big") + data[here + 1 :]
    return data


SPOILS: list[Spoil] = [lost, doubled, swapped, shuffled]
SPOILS += [in_bytes(change) for change in (cut, changed, flipped, put_in, taken_out, another_digit, another_digit)]


def spoil(draw: Draw, lines: Lines) -> bytes:
    """Returns the bytes of these lines, damaged in up to six ways; one file in seven is left whole."""
    for _ in range(draw.choice((0, 1, 1, 1, 2, 3, 6))):
        if lines:
            lines = draw.choice(SPOILS)(draw, lines)
    return b"".join(lines)
