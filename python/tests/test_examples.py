"""The programs in examples, over files whose answers are worked out number by number."""

import ipaddress
import random
import subprocess
import sys
import tempfile
import unittest
from collections import defaultdict
from pathlib import Path

EXAMPLES = Path(__file__).resolve().parent.parent / "examples"


def said(name, *words):
    return subprocess.run([sys.executable, EXAMPLES / name, *words], capture_output=True, text=True, check=True).stdout


class Examples(unittest.TestCase):
    def setUp(self):
        folder = tempfile.TemporaryDirectory()
        self.addCleanup(folder.cleanup)
        self.folder = Path(folder.name)

    def write(self, name, text):
        (self.folder / name).write_text(text, encoding="ascii")
        return self.folder / name

    def test_a_few_lines_of_bed(self):
        first = self.write("a", "track name=a\n# comment\nchr1\t0\t10\nchr1\t5\t20\t.\t0\t+\nchr2\t7\t9\n\nchr2\t9\t11\n")
        second = self.write("b", "chr1\t15\t30\nchr3\t0\t5\n")
        self.assertEqual(said("bed.py", first), "chr1\t20\t0\nchr2\t4\t0\n")
        self.assertEqual(said("bed.py", first, second), "chr1\t20\t5\nchr2\t4\t0\n")

    def test_many_lines_of_bed(self):
        some, files, marks = random.Random(7), [], []
        for file in "ab":
            marked, lines = defaultdict(lambda: bytearray(1_000_000)), []
            for _ in range(100_000 if file == "a" else 20_000):
                name, start, length = f"chr{some.randint(1, 3)}", some.randrange(990_000), some.randrange(30)
                marked[name][start : start + length] = b"\1" * length
                lines.append(f"{name}\t{start}\t{start + length}\n")
            files.append(self.write(file, "".join(lines)))
            marks.append(marked)
        expected = "".join(
            f"{it}\t{marks[0][it].count(1)}\t{sum(x & y for x, y in zip(marks[0][it], marks[1][it]))}\n" for it in sorted(marks[0])
        )
        self.assertEqual(said("bed.py", *files), expected)

    def test_when_people_have_time(self):
        times = {
            "anna": ["09:00 10:00", "12:00 13:00"],
            "ben": ["09:00 09:30", "15:30 17:00"],
            "cleo": ["11:00 11:45", "11:30 12:15"],
            "dora": ["14:00 14:15"],
            "emil": ["16:30 18:00"],
        }
        day, files = "2026-05-04", []
        for name, busy in times.items():
            lines = [" ".join(f"{day}T{it}" for it in line.split()) for line in busy]
            files.append(self.write(name, "\n".join(["# who", *lines, "", "2026-05-03T10:00 2026-05-03T23:00"])))
        free = ["free from 10:00 to 11:00", "free from 13:00 to 14:00", "free from 14:15 to 15:30"]
        for minutes, last in (
            (60, "60 minutes from 10:00"),
            (61, "61 minutes from 14:15"),
            (75, "75 minutes from 14:15"),
            (76, "no 76 minutes are free"),
        ):
            self.assertEqual(said("meeting.py", day, str(minutes), *files).splitlines(), [*free, last])
        self.assertEqual(said("meeting.py", day, "480").splitlines(), ["free from 09:00 to 17:00", "480 minutes from 09:00"])

    def test_a_few_networks(self):
        for text, expected in (
            ("10.0.0.0/8\n-10.0.0.0/9\n", ["10.128.0.0/9", "8,388,608 addresses are free"]),
            ("0.0.0.0/0 -128.0.0.0/1", ["0.0.0.0/1", "2,147,483,648 addresses are free"]),
            (
                "192.168.0.0/24 192.168.1.0/24 -192.168.0.4/30",
                [
                    "192.168.0.0/30",
                    "192.168.0.8/29",
                    "192.168.0.16/28",
                    "192.168.0.32/27",
                    "192.168.0.64/26",
                    "192.168.0.128/25",
                    "192.168.1.0/24",
                    "508 addresses are free",
                ],
            ),
            ("10.0.0.0/24 -10.0.0.0/8", ["0 addresses are free"]),
            ("", ["0 addresses are free"]),
            ("10.0.0.0/30 -10.0.0.1-10.0.0.2", ["10.0.0.0/32", "10.0.0.3/32", "2 addresses are free"]),
            ("224.0.0.0/3 -224.0.0.0/4", ["240.0.0.0/4", "268,435,456 addresses are free"]),
        ):
            with self.subTest(text=text):
                self.assertEqual(said("networks.py", self.write("nets", text)).splitlines(), expected)

    def test_many_networks(self):
        some, lines = random.Random(9), []
        for _ in range(200):
            length = some.randint(20, 32)
            network = ipaddress.IPv4Network((0x0A000000 + (some.randrange(2**16) >> 32 - length << 32 - length), length))
            lines.append((some.random() < 0.4, network))
        free = {int(it) for is_taken, network in lines if not is_taken for it in network}
        free -= {int(it) for is_taken, network in lines if is_taken for it in network}
        *networks, last = said(
            "networks.py", self.write("nets", "\n".join("-" * is_taken + str(it) for is_taken, it in lines))
        ).splitlines()
        self.assertEqual(sorted(int(it) for text in networks for it in ipaddress.IPv4Network(text)), sorted(free))
        self.assertEqual(last, f"{len(free):,} addresses are free")

    def test_without_a_file_each_says_what_it_takes(self):
        for it in ("bed.py", "meeting.py", "networks.py"):
            with self.subTest(it):
                ran = subprocess.run([sys.executable, EXAMPLES / it], capture_output=True, text=True)
                self.assertEqual(ran.returncode, 1)
                self.assertIn(f"python3 {it} ", ran.stderr)

    def test_each_is_short(self):
        for it in ("bed.py", "frame.py", "meeting.py", "networks.py"):
            self.assertLess(len((EXAMPLES / it).read_text(encoding="utf-8").splitlines()), 40)


if __name__ == "__main__":
    unittest.main()
