"""Sends a number of malformed datagrams to a server, from several sockets, with good requests between them, and looks at all that comes
back. It prints how many good and how many bad ones were received, and how many were sent from port 0.

    python3 -m checks.hostile PORT COUNT

A socket holds what the server has not yet received, some 200 thousand bytes of it, and the host drops what comes on top. So a good request
is sent after some hundred others at most, and its reply says that all before it were received. At the end good ones are sent until the
server is gone.
"""

import argparse
import random
import socket
import struct
import sys
import time

from lab import ends
from lab.client import HOST, socket_on, to_server
from lab.packets import LENGTH, QUERY, read, request

# What the host takes for a datagram that waits, at the most, and how much may wait.
COST = 1200
ROOM = 120_000


def head(version, mode):
    return bytes([version << 3 | mode])


def is_good(datagram):
    """A client's request, by RFC 5905."""
    return len(datagram) >= LENGTH and 1 <= datagram[0] >> 3 & 7 <= 4 and datagram[0] & 7 == 3


def malformed(draw, i):
    """The bad one of number i: kinds by turns."""
    noise = draw.randbytes
    kind = i % 10
    if i % 4000 == 999:
        return head(4, 7) + noise(65506)
    if i % 400 == 99:
        return head(draw.choice((0, 5, 7)), 3) + noise(8999)
    if kind == 0:
        return b""
    if kind == 1:
        return head(4, 3) + noise(draw.randrange(46))
    if kind == 2:
        return head(4, 3) + noise(46)
    if kind == 3:
        return head(draw.choice((0, 5, 6, 7)), 3) + noise(47)
    if kind == 4:
        return head(draw.randrange(1, 5), draw.choice((0, 1, 2, 4, 5))) + noise(47)
    if kind == 5:
        # What ntpq asks with, as it is and made long.
        return head(2, 6) + bytes([2, 0, 1]) + bytes(8) + noise(draw.choice((0, 36, 480)))
    if kind == 6:
        # What monlist was asked with.
        return head(2, 7) + bytes([0, 3, 42]) + bytes(draw.choice((4, 44, 188)))
    if kind == 7:
        return head(4, 4) + noise(draw.choice((60, 1023, 1024, 1471)))
    while True:
        datagram = noise(draw.randrange(200))
        if not is_good(datagram):
            return datagram


def good(draw, i, sent):
    """The good one of number i, with bytes after its header that nobody asks for."""
    length = (48, 49, 68, 1023, 1024, 1025, 1472, 9000)[i % 8]
    return request(sent, 1 + i % 4, draw.randrange(-128, 128)) + draw.randbytes(length - LENGTH)


class Senders:
    """Sockets that send by turns, and receive from whoever sends to them."""

    def __init__(self, port, count):
        self.server = (HOST, port)
        self.sockets = [socket_on() for _ in range(count)]
        for one in self.sockets:
            one.settimeout(10)
        self.turn = 0

    def next(self):
        self.turn += 1
        return self.sockets[self.turn % len(self.sockets)]

    def send(self, datagram):
        self.next().sendto(datagram, self.server)

    def ask(self, question):
        """The right reply comes, to the socket that asked."""
        one = self.next()
        one.sendto(question, self.server)
        reply, sender = one.recvfrom(65536)
        due, got = read(question), read(reply)
        is_right = got and len(reply) == LENGTH and (got.version, got.mode, got.origin) == (due.version, 4, due.transmit)
        if sender != self.server or not is_right:
            sys.exit(f"{question[:LENGTH].hex()} is answered from {sender} with {reply.hex()}")

    def hear_nothing(self):
        time.sleep(0.3)
        for one in self.sockets:
            one.setblocking(False)
            try:
                reply, sender = one.recvfrom(65536)
                sys.exit(f"{sender} has sent what nobody asked for: {reply.hex()}")
            except BlockingIOError:
                pass


def from_port_0(port, datagram):
    """Sends a datagram from port 0, to which there is no way back; false where that isn't allowed."""
    try:
        with socket.socket(socket.AF_INET, socket.SOCK_RAW, socket.IPPROTO_UDP) as raw:
            raw.sendto(struct.pack(">HHHH", 0, port, 8 + len(datagram), 0) + datagram, (HOST, 0))
            return True
    except PermissionError:
        return False


def lost(port):
    """How many datagrams the host had no room for, as it says."""
    with open("/proc/net/udp", encoding="ascii") as table:
        return sum(int(line.split()[-1]) for line in table if line.split()[1].endswith(f":{port:04X}"))


def drain(port):
    """How many good requests are answered until nobody listens any more."""
    count = 0
    with to_server(port, 1) as one:
        end = time.monotonic() + 30
        while time.monotonic() < end:
            try:
                one.send(QUERY)
                one.recv(2048)
                count += 1
            except TimeoutError:
                pass
            except ConnectionRefusedError:
                return count
    sys.exit("the server goes on")


def main():
    words = argparse.ArgumentParser(description=__doc__, formatter_class=argparse.RawDescriptionHelpFormatter)
    words.add_argument("port", type=int)
    words.add_argument("count", type=int)
    asked_for = words.parse_args()
    port, count = asked_for.port, asked_for.count
    draw = random.Random(123)
    senders, silent = Senders(port, 8), Senders(port, 4)
    asked = unheard = waiting = 0
    for i in range(count):
        datagram = malformed(draw, i)
        # Some sockets never ask, so they have nothing to receive.
        (silent if i % 3 == 0 else senders).send(datagram)
        waiting += COST + 2 * len(datagram)
        if i % 1000 == 500 and from_port_0(port, good(draw, 0, i)):
            unheard += 1
        if waiting > ROOM or i % 100 == 99:
            senders.ask(good(draw, asked, draw.getrandbits(64)))
            asked, waiting = asked + 1, 0
    senders.hear_nothing()
    silent.hear_nothing()
    if lost(port):
        sys.exit(f"the host had no room for {lost(port)} datagrams: they weren't paced")
    print(asked + drain(port), count, unheard)


if __name__ == "__main__":
    ends.run(main)
