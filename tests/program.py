#!/usr/bin/env python3
"""Tests of the program clsm that no session can say: bytes that are no text, lines of thousands of
bytes, an input with no end, and what differs from one run to the next.

    tests/program.py               the program as both compilers of the gate built it
    tests/program.py PROGRAM..     these programs
"""
import contextlib
import os
import pathlib
import re
import subprocess
import sys
import unittest
from typing import NamedTuple

ROOT = pathlib.Path(__file__).resolve().parent.parent
BUILT = ROOT / "crates" / "clsm_driver" / "out"
PROGRAMS = [BUILT / "clsm_driver", BUILT / "clsm_driver.by-rattle"]
MOST_SECONDS = 600

# Lines with another blank than the space, and lines that are no text.
BAD_COMMANDS = b"put\t7 70|get\t7|get 7\t|\tget 7|\t|get 7\r|\r|get \xd9\xa7|get \xff7|get \xff\n".split(b"|")
BAD_RECORDS = b"0 0 put\t7 70|0 0 put 7 70\r|0 0 put 7 \xff".split(b"|")


class Played(NamedTuple):
    """What a command line printed, and its status."""

    output: bytes
    faults: bytes
    status: int


def play(program: pathlib.Path, words: list[bytes | str], typed: bytes = b"") -> Played:
    ran = subprocess.run(["clsm", *words], executable=program, input=typed, capture_output=True, timeout=MOST_SECONDS)
    return Played(ran.stdout, ran.stderr, ran.returncode)


def play_endless(program: pathlib.Path, words: list[str], fill: bytes) -> Played:
    """Plays a command line on an input with no end."""
    pipes = {"stdin": subprocess.PIPE, "stdout": subprocess.PIPE, "stderr": subprocess.PIPE}
    with subprocess.Popen(["clsm", *words], executable=program, bufsize=0, **pipes) as running:
        assert running.stdin and running.stdout and running.stderr
        with contextlib.suppress(BrokenPipeError):
            # Far more than the program may read of one line.
            for _ in range(1 << 14):
                running.stdin.write(fill * 4096)
        return Played(running.stdout.read(), running.stderr.read(), running.wait(MOST_SECONDS))


class Tests(unittest.TestCase):
    def expect(self, words: list[bytes | str], typed: bytes, wanted: Played) -> None:
        """Each program answers so."""
        for program in PROGRAMS:
            with self.subTest(program=program.name, words=words, typed=typed[:60]):
                self.assertEqual(play(program, words, typed), wanted)

    def test_lines_of_any_bytes(self) -> None:
        for command, typed, output in [
            ("script", b"", b""),
            ("script", b"\n", b""),
            ("script", b"put 7 70\nget 7", b"@0\n70 @1\n"),
            ("script", b"  \n# comment\n  #\tput\n  get   7  \n#", b"none @0\n"),
            ("script", b"# \xff\nget 7\n", b"none @0\n"),
            ("audit", b"# \xff\n", b"audit ok\n"),
            ("audit", b"", b"audit ok\n"),
            ("audit", b"0 0 put 7 70\n0 1 get 7 70", b"audit ok\n"),
        ]:
            self.expect([command], typed, Played(output, b"", 0))
        bad = Played(b"", b"bad line 1\n", 1)
        for line in BAD_COMMANDS:
            self.expect(["script"], line, bad)
        for line in BAD_RECORDS:
            self.expect(["audit"], line, bad)
        self.expect(["script"], b"put 7 70\nget 7\nget", Played(b"@0\n70 @1\n", b"bad line 3\n", 1))

    def test_lines_of_4096_bytes(self) -> None:
        for begin, fill, end, output in [
            (b"get 7", b" ", b"\n", b"none @0\n"),
            (b"get 7", b" ", b"\nget 8\n", b"none @0\nnone @0\n"),
            (b"get 7", b" ", b"", b"none @0\n"),
        ]:
            self.expect(["script"], begin.ljust(4096, fill) + end, Played(output, b"", 0))
            for length in (4097, 9000):
                self.expect(["script"], begin.ljust(length, fill) + end, Played(b"", b"bad line 1\n", 1))

    def test_comments_and_spaces_of_any_length(self) -> None:
        for begin, fill in [(b"#", b"x"), (b"#", b"\xff"), (b" ", b" ")]:
            for length in (4096, 4097, 8192, 100000):
                line = begin.ljust(length, fill)
                self.expect(["script"], line + b"\nget 7", Played(b"none @0\n", b"", 0))
                self.expect(["script"], b"get 7\n" + line, Played(b"none @0\n", b"", 0))
        self.expect(["script"], b" " * 9000 + b"get 7\n", Played(b"", b"bad line 1\n", 1))

    def test_an_input_with_no_end(self) -> None:
        for program in PROGRAMS:
            with self.subTest(program=program.name):
                self.assertEqual(play_endless(program, ["script"], b"x"), Played(b"", b"bad line 1\n", 1))

    def test_words_are_text(self) -> None:
        refused = Played(b"", b"error: a word of the command line is not UTF-8\n", 1)
        self.expect([b"\xff"], b"", refused)
        self.expect(["script", b"--cells=\xff"], b"", refused)

    def test_what_is_shown_beside_changes_no_output(self) -> None:
        """Times differ from one run to the next."""
        plain = ["run", "--threads", "2", "--ops", "100"]
        shown = ["--stats", "--progress"]
        for more, parts in [
            (["--batch"], [b"\nput answered ", b"\nbatch answered ", b"\nrefused full 0\n", b"\nmerges "]),
            (["--many", "--swap"], [b"\nmany answered ", b"\nswap answered ", b"\nrefused unmet "]),
            # Writes find the epoch full again and again.
            (["--wait", "--cells", "4"], [b"\nrefused full 0\n", b"\ncallers 2\n", b"\nmilliseconds "]),
        ]:
            for program in PROGRAMS:
                with self.subTest(program=program.name, more=more):
                    played = play(program, [*plain, *more, *shown])
                    self.assertEqual((played.output, played.status), (b"calls 200\naudit ok\n", 0))
                    self.assertTrue(played.faults.startswith(b"\rcalls "), played.faults)
                    for part in parts:
                        self.assertIn(part, played.faults)

    def test_figures_have_the_names_of_the_library(self) -> None:
        members = (ROOT / "capi" / "clsm.h").read_text().split("} clsm_statistics;")[0].rsplit("typedef struct {")[-1]
        names = re.findall(r"\b([a-z_]+)[,;]", re.sub(r"/\*.*?\*/", "", members, flags=re.DOTALL))
        words = ["run", "--threads", "2", "--ops", "500", "--cells", "16", "--run", "1000", "--stats"]
        for program in PROGRAMS:
            with self.subTest(program=program.name):
                lines = play(program, words).faults.decode()
                figures = {name: int(value) for name, value in re.findall(r"^([a-z_]+) (\d+)$", lines, re.MULTILINE)}
                self.assertEqual(list(figures), [name for name in names if name in figures])
                self.assertEqual(figures["callers"], 2)
                self.assertEqual(figures["clock"], 16 * figures["merges"] + figures["epoch_writes"])
                self.assertEqual(figures["room_for_versions"], 1000 - figures["level_one"])
                self.assertLessEqual(figures["level_zero"], 3 * 16)
                self.assertLessEqual(figures["last_merge"], figures["longest_merge"])
                self.assertEqual("oldest_time" in figures, figures["snapshots"] > 0)
                lines = play(program, [*words, "--wait"]).faults.decode()
                waiting = dict(re.findall(r"^([a-z_]+) (\d+)$", lines, re.MULTILINE))
                self.assertEqual({*waiting} - {"oldest_time"}, {"callers", "snapshots"})

    def test_records_pass_the_audit_of_lines(self) -> None:
        for program in PROGRAMS:
            with self.subTest(program=program.name):
                words = ["run", "--threads", "2", "--ops", "50", "--seed", "7", "--batch", "--records"]
                records = play(program, words)
                self.assertEqual((records.faults, records.status), (b"", 0))
                self.assertEqual(records.output.count(b"\n"), 100)
                audited = play(program, ["audit", "--seats", "2", "--cells", "1024"], records.output)
                self.assertEqual(audited, Played(b"audit ok\n", b"", 0))
                clocked = play(program, [*words, "--clock"])
                self.assertEqual((clocked.faults, clocked.status), (b"", 0))
                self.assertEqual(clocked.output.count(b" | "), 100)
                ordered = play(program, ["audit", "--seats", "2", "--order"], clocked.output)
                self.assertEqual(ordered, Played(b"audit ok\n", b"", 0))

    def test_records_of_several_keys_pass_the_audit_of_lines(self) -> None:
        """A read of four keys is four lines, and an exchange has a batch behind four gets."""
        words = ["run", "--threads", "2", "--ops", "200", "--keys", "8", "--many", "--swap", "--records", "--clock"]
        for program in PROGRAMS:
            with self.subTest(program=program.name):
                records = play(program, words)
                self.assertEqual((records.faults, records.status), (b"", 0))
                lines = records.output.splitlines()
                self.assertGreater(len(lines), 400)
                for place, line in enumerate(lines):
                    seat, time, call, *_ = line.split(b" ")
                    if call == b"batch":
                        before = [it.split(b" ")[:3] for it in lines[place - 2 : place]]
                        self.assertEqual(before, [[seat, time, b"get"]] * 2)
                ordered = play(program, ["audit", "--seats", "2", "--order"], records.output)
                self.assertEqual(ordered, Played(b"audit ok\n", b"", 0))


def main() -> None:
    if len(sys.argv) > 1:
        PROGRAMS[:] = [pathlib.Path(it).resolve() for it in sys.argv[1:]]
    missing = [str(it) for it in PROGRAMS if not os.access(it, os.X_OK)]
    if missing:
        sys.exit(f"program: not built: {' '.join(missing)} (`rt ci` builds both programs)")
    unittest.main(argv=sys.argv[:1])


if __name__ == "__main__":
    main()
