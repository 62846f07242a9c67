"""A plain client, for the checks of `serve`: it asks a server and looks at each field of the answers.

    ask.py port                             a port that is free, below those that the host gives out by itself
    ask.py ahead START                      how far the example's radios are ahead of the host's clock now, in seconds, where the
                                            server's counter stands at START microseconds
    ask.py local START                      the same for a server that has no time, which counts from 1900 on
    ask.py wait PORT                        waits until a server answers, for ten seconds at most
    ask.py soon PORT                        waits until a server has a time, for ten seconds at most, and asks ten times at most
    ask.py look PORT COUNT AHEAD LEAP STRATUM REFID [DUMP]
                                            asks that many times and looks at each answer; DUMP gets them for text2pcap
    ask.py gets PORT ADDRESS WHAT...        asks from an address of this host, once for each WHAT and at once after the one before: the
                                            answer is the time where it says `time`, else this kiss code; where it says `nothing`, a
                                            request of 47 bytes isn't answered
    ask.py drain PORT                       asks until the server has ended, for half a minute at most
    ask.py near VALUE AHEAD                 whether a value that a client has printed is that many seconds, within one

It ends with 1 and says why where something isn't as it should be.
"""

import datetime
import sys
import time

from lab.client import free_port, socket_on, to_server
from lab.packets import LENGTH, UNIX, WHOLE, number_of, read, request, stamp

# The example's first whole minute, and the counter's microseconds at which it begins.
FIRST = datetime.datetime(2026, 1, 1, 12, 0, tzinfo=datetime.timezone.utc).timestamp()
FIRST_AT = 2_000_000
WAIT = 10


def long_request(version, poll, sent, length=LENGTH):
    """A client's request; after its 48 bytes a server has nothing to look at."""
    return request(sent, version, poll) + bytes(length - LENGTH)


def answer(client, question):
    """The answer, or None where nobody listens."""
    try:
        client.send(question)
        return client.recv(2048)
    except ConnectionRefusedError:
        return None


def wait_for(port):
    """One request is received at most: one that finds no socket is refused at once."""
    end = time.monotonic() + WAIT
    with to_server(port, WAIT) as client:
        while time.monotonic() < end:
            if answer(client, request(1)) is not None:
                return
            time.sleep(0.01)
    sys.exit(f"nobody listens on port {port}")


def wait_for_time(port):
    with to_server(port, WAIT) as client:
        for _ in range(10):
            reply = answer(client, request(1))
            if reply and reply[0] >> 6 != 3:
                return
            time.sleep(WAIT / 10)
    sys.exit(f"the server on port {port} has no time")


def span(later, earlier):
    """The seconds from one time stamp to another, which are less than 68 years apart."""
    apart = (later - earlier) % 2**64
    return (apart - 2**64 if apart >= 2**63 else apart) / WHOLE


def look_at(reply, question, left, came, ahead, leap, stratum, refid):
    """Each field of an answer, against what was sent and what is known of the server."""
    told, asked = read(reply), read(question)
    has_time = leap != 3
    shift = round(ahead * WHOLE)
    off = (span(told.receive, left + shift) + span(told.transmit, came + shift)) / 2
    yield "the leap indicator", told.leap, leap
    yield "the version", told.version, asked.version
    yield "the mode", told.mode, 4
    yield "the stratum", told.stratum, stratum
    yield "the poll", told.poll, asked.poll
    yield "the precision", told.precision, -20
    yield "the root delay", told.root_delay, 0
    yield "the reference ID", reply[12:16].rstrip(b"\0").decode("latin-1"), refid
    yield "the origin", told.origin, left
    # A radio's time is reported to be 5 ms off at the least, and as no time from 1 s on. None is 16 s off.
    far, known = told.root_dispersion, told.reference
    yield f"that the root dispersion {far} is in range", (328 <= far <= 65536 if has_time else far == 2**20), True
    yield "that it was received before it was sent", 0 <= span(told.transmit, told.receive) < 1, True
    # The newest minute of the radios came in the quarter of an hour before.
    yield f"that the reference time {known:016x} is in range", (0 <= span(told.receive, known) <= 900 if has_time else known == 0), True
    yield f"that the offset, which is {off:.6f} s off, is {ahead:.6f} within a second", abs(off) < 1, True


def dump(datagram):
    """A datagram as text2pcap reads it."""
    return f"000000 {datagram.hex(' ')}\n"


def look(port, count, ahead, leap, stratum, refid, dump_name=None):
    """Asks in each version, with several polls, and with bytes after the 48."""
    dumped = []
    with to_server(port, WAIT) as client:
        for i in range(count):
            left = stamp(time.time())
            question = long_request(1 + i % 4, (6, 10, -3, 127)[i // 4 % 4], left, (48, 48, 68, 1024)[i // 3 % 4])
            reply = answer(client, question)
            came = stamp(time.time())
            if reply is None or len(reply) != 48:
                sys.exit(f"request {i} is answered with {reply!r}")
            dumped.append(dump(reply))
            for what, told, due in look_at(reply, question, left, came, ahead, leap, stratum, refid):
                if told != due:
                    sys.exit(f"request {i}: {what} is {told!r} and not {due!r}: {reply.hex()}")
    if dump_name:
        with open(dump_name, "w", encoding="ascii") as out:
            out.write("".join(dumped))


def gets(port, address, *due):
    """Asks from an address; a kiss code has its letters where the reference ID stands, stratum 0, and isn't synchronised."""
    with socket_on(address) as client:
        client.connect(("127.0.0.1", port))
        for i, what in enumerate(due):
            client.settimeout(0.5 if what == "nothing" else WAIT)
            number = stamp(time.time())
            question = request(number)[: 47 if what == "nothing" else LENGTH]
            try:
                reply = answer(client, question)
            except TimeoutError:
                told = "nothing"
            else:
                if reply is None or len(reply) != 48 or number_of(reply) != number:
                    sys.exit(f"request {i} from {address} is answered with {reply!r}")
                told = reply[12:16].decode("latin-1") if (reply[0], reply[1]) == (0xE4, 0) else "time"
            if told != what:
                sys.exit(f"request {i} from {address} gets {told} and not {what}")


def drain(port):
    """Where the server has ended, the host refuses what is sent."""
    end = time.monotonic() + 30
    with to_server(port, WAIT) as client:
        client.settimeout(1)
        while time.monotonic() < end:
            try:
                if answer(client, request(1)) is None:
                    return
            except TimeoutError:
                pass
    sys.exit(f"the server on port {port} goes on")


def main():
    command, words = (sys.argv[1:2] or [""])[0], sys.argv[2:]
    if command == "port":
        print(free_port())
    elif command == "ahead":
        print(FIRST + (int(words[0]) - FIRST_AT) / 1e6 - time.time())
    elif command == "local":
        print(int(words[0]) / 1e6 - UNIX - time.time())
    elif command == "wait":
        wait_for(int(words[0]))
    elif command == "soon":
        wait_for_time(int(words[0]))
    elif command == "look":
        port, count, ahead, leap, stratum, refid, *name = words
        look(int(port), int(count), float(ahead), int(leap), int(stratum), refid, *name)
    elif command == "gets":
        gets(int(words[0]), *words[1:])
    elif command == "drain":
        drain(int(words[0]))
    elif command == "near":
        value, ahead = map(float, words)
        if abs(value - ahead) >= 1:
            sys.exit(f"{value} isn't {ahead} within a second")
    else:
        sys.exit(__doc__)


if __name__ == "__main__":
    try:
        main()
    except (IndexError, ValueError):
        sys.exit(f"ask.py: wrong words: {' '.join(sys.argv[1:])}\n\n{__doc__}")
    except OSError as fault:
        sys.exit(f"ask.py: {fault}")
