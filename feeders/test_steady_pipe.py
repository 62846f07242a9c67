#!/usr/bin/env python3
"""Tests of steady.py as a program in a pipe.

    feeders/test_steady_pipe.py
"""

import pathlib
import subprocess
import unittest

HERE = pathlib.Path(__file__).parent
SECOND = 1_000_000


def due(second):
    """When the mark of a second is due."""
    return 5 * SECOND + 123_456 + second * SECOND


class Pipe(unittest.TestCase):
    def run_it(self, text, *words):
        return subprocess.run([HERE / "steady.py", *words], input=text, capture_output=True, timeout=60)

    def test_lines_come_as_they_are_read(self):
        child = subprocess.Popen([HERE / "steady.py"], stdin=subprocess.PIPE, stdout=subprocess.PIPE, bufsize=0)
        self.addCleanup(child.wait)
        self.addCleanup(child.stdout.close)
        self.addCleanup(child.stdin.close)
        for second in (1, 2, 3):
            child.stdin.write(b"%d000000 100000\n" % second)
            self.assertEqual(child.stdout.readline(), b"%d000000 100000\n" % second)

    def test_the_end(self):
        done = self.run_it(b"1000000 100000\n2000000 100")
        self.assertEqual((done.returncode, done.stdout, done.stderr), (0, b"1000000 100000\n2000000 100", b""))

    def test_what_is_no_line_of_a_log(self):
        """The first one is shown, and each is passed on."""
        for text in (b"start,width\n1000000,100000\n", b"1000000 100000\r\n2000000 100000\r\n"):
            done = self.run_it(text)
            first = text.splitlines(keepends=True)[0]
            said = f"steady.py: no line of a pulse log is steadied: {first!r}\n".encode()
            self.assertEqual((done.returncode, done.stdout, done.stderr), (0, text, said))

    def test_a_line_without_an_end(self):
        """It is passed on in pieces: it takes no memory, and its tail is no line of a log."""
        with subprocess.Popen(["head", "-c", "300M", "/dev/zero"], stdout=subprocess.PIPE) as zeros:
            words = ["sh", "-c", 'ulimit -v 200000; exec "$0"', HERE / "steady.py"]
            done = subprocess.run(words, stdin=zeros.stdout, stdout=subprocess.DEVNULL, stderr=subprocess.PIPE, timeout=60)
        self.assertEqual((done.returncode, done.stderr), (0, b""))
        long = b"x" * 4096 + b"1000000 100000\n"
        self.assertEqual(self.run_it(long).stdout, long)

    def test_a_reader_that_ends(self):
        child = subprocess.Popen([HERE / "steady.py"], stdin=subprocess.PIPE, stdout=subprocess.PIPE, stderr=subprocess.PIPE)
        child.stdout.close()
        try:
            child.stdin.write(b"1000000 100000\n" * 3)
            child.stdin.close()
        except BrokenPipeError:
            pass
        self.addCleanup(child.stderr.close)
        self.assertEqual(child.wait(20), 1)
        self.assertEqual(child.stderr.read(), b"")

    def test_words(self):
        for words in (("--most", "0"), ("--most", "91"), ("--most", "x"), ("--least", "1")):
            with self.subTest(words=words):
                done = self.run_it(b"", *words)
                self.assertEqual(done.returncode, 2)
                self.assertNotIn(b"Traceback", done.stderr)

    def test_the_greatest_move(self):
        """With --most 10 a mark 30 ms late is left, and one 9 ms late isn't."""
        text = b"".join(b"%d 100000\n" % (due(second) + {200: 30_000, 201: 9_000}.get(second, 0)) for second in range(210))
        starts = [int(line.split()[0]) for line in self.run_it(text, "--most", "10").stdout.splitlines()]
        self.assertEqual(starts[200] - due(200), 30_000)
        self.assertEqual(starts[201] - due(201), 0)


if __name__ == "__main__":
    unittest.main()
