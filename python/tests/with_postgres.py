"""Sets and PostgreSQL's multiranges, by a server in a folder of its own that is reached on a socket there alone.

Without a server, or where it can't run, the tests are skipped and say why. psycopg's own ranges are read if it is installed.
"""

import os
import pwd
import random
import shutil
import subprocess
import tempfile
import unittest
from datetime import date, datetime, timedelta, timezone
from pathlib import Path

from range_sets import RangeSet

try:
    import psycopg
except ImportError:
    psycopg = None

COUNT = 10_000
DAY, NOON, UTC = date(2026, 5, 1), datetime(2026, 5, 1, 12), timezone.utc
# The type of a multirange, its kind, and how an element is made of a small whole number.
TYPES = [
    ("int8", "int", lambda at: at),
    ("int8", "int", lambda at: (at - 60) * (2**63 // 64)),
    ("date", "date", lambda at: DAY + timedelta(40 * at)),
    ("ts", "datetime", lambda at: NOON + at * timedelta(hours=7, microseconds=123_400)),
    ("tstz", "datetime[UTC]", lambda at: (NOON + at * timedelta(days=3, hours=7)).replace(tzinfo=UTC)),
]


def server():
    """The folder of a server's programs, and by whom they are run, since it refuses root."""
    found = shutil.which("initdb")
    folders = (
        [Path(found).resolve().parent] if found else sorted(Path("/usr/lib/postgresql").glob("*/bin"), key=lambda it: int(it.parent.name))
    )
    if not folders or not (folders[-1] / "initdb").is_file():
        raise unittest.SkipTest("PostgreSQL's server is missing; on Debian the package postgresql brings it")
    if os.geteuid():
        return folders[-1], {}
    try:
        return folders[-1], {"user": pwd.getpwnam("postgres").pw_uid, "group": pwd.getpwnam("postgres").pw_gid, "extra_groups": []}
    except KeyError:
        raise unittest.SkipTest("PostgreSQL's server doesn't run as root, and there is no user postgres") from None


class Beside(unittest.TestCase):
    @classmethod
    def setUpClass(cls):
        cls.programs, cls.user = server()
        # The path of a socket is short.
        cls.folder = Path(tempfile.mkdtemp(prefix="pg", dir="/tmp"))
        cls.addClassCleanup(shutil.rmtree, cls.folder, ignore_errors=True)
        if cls.user:
            os.chown(cls.folder, cls.user["user"], cls.user["group"])
        data = cls.folder / "data"
        cls.run_by_it("initdb", "--auth=trust", "--no-sync", "--username=tests", "--encoding=UTF8", "--locale=C", "-D", data)
        options = f"-k {cls.folder} -c listen_addresses='' -c fsync=off"
        cls.run_by_it("pg_ctl", "-D", data, "-l", cls.folder / "log", "-o", options, "--wait", "start")
        cls.addClassCleanup(cls.run_by_it, "pg_ctl", "-D", data, "--mode=immediate", "--wait", "stop")

    @classmethod
    def run_by_it(cls, program, *words, said=""):
        command = [cls.programs / program, *words]
        # A server that is started would hold a pipe open.
        with open(cls.folder / "said", "w+", encoding="utf-8") as out:
            ran = subprocess.run(command, input=said, stdout=out, stderr=subprocess.STDOUT, cwd=cls.folder, text=True, **cls.user)
            out.seek(0)
            answer = out.read()
        if ran.returncode:
            raise AssertionError(f"{program}: {answer}")
        return answer

    def asked(self, said):
        """What the server answers, as rows of texts."""
        words = ("-X", "-q", "-A", "-t", "-F|", "-v", "ON_ERROR_STOP=1", "-h", self.folder, "-U", "tests", "-d", "postgres")
        return [line.split("|") for line in self.run_by_it("psql", *words, said=said).splitlines()]

    def test_there_and_back(self):
        for seed, (name, kind, element) in enumerate(TYPES):
            some = random.Random(seed)

            def made_up():
                ends = [*map(element, sorted(some.sample(range(1, 120), some.randrange(9))))]
                made = RangeSet.from_values([], kind=kind)
                for start, end in zip(ends[::2], [*ends[1::2], None]):
                    made = made.insert(None if some.random() < 0.05 else start, end)
                return made

            pairs = [(made_up(), made_up()) for _ in range(COUNT // len(TYPES))]
            rows = "".join(f"{at}|{a.to_multirange()}|{b.to_multirange()}\n" for at, (a, b) in enumerate(pairs))
            said = f"""set timezone = 'Europe/Berlin';
                create temporary table pairs (at int, a {name}multirange, b {name}multirange);
                copy pairs from stdin with (format csv, delimiter '|', quote '~');\n{rows}\\.
                select a, b, a + b, a * b, a - b, a @> b, a && b from pairs order by at;
                select range_agg(a), range_intersect_agg(a) from pairs where not isempty(a);"""
            *answers, (every, common) = self.asked(said)
            with self.subTest(type=name):
                for (a, b), (*texts, has, meets) in zip(pairs, answers, strict=True):
                    sets = [RangeSet.from_multirange(it, kind=kind) for it in texts]
                    self.assertEqual(sets, [a, b, a | b, a & b, a - b])
                    self.assertEqual((has == "t", meets == "t"), (b <= a, not a.isdisjoint(b)))
                    if name in ("int8", "date"):
                        self.assertEqual([it.to_multirange() for it in sets], texts)
                given = [a for a, _ in pairs if a]
                self.assertEqual(RangeSet.from_multirange(every, kind=kind), RangeSet.union_all(given))
                self.assertEqual(RangeSet.from_multirange(common, kind=kind), RangeSet.intersection_all(given))

    def test_ends_of_all_forms(self):
        some, rows = random.Random(9), []
        for name, element in (("int8", lambda at: at), ("date", lambda at: DAY + timedelta(at))):
            for _ in range(1000):
                start, end = sorted(some.sample(range(20), 2))
                bounds = ["" if some.random() < 0.1 else str(element(it)) for it in (start, end)]
                rows.append((name, f"{{{some.choice('[(')}{','.join(bounds)}{some.choice('])')}}}"))
        values = ", ".join(f"({at}, '{text}'::{name}multirange::text)" for at, (name, text) in enumerate(rows))
        answers = self.asked(f"select text from (values {values}) as given (at, text) order by at;")
        for (name, text), (answer,) in zip(rows, answers, strict=True):
            kind = "int" if name == "int8" else name
            made = RangeSet.from_multirange(text, kind=kind)
            self.assertEqual((made, made.to_multirange()), (RangeSet.from_multirange(answer, kind=kind), answer), text)

    @unittest.skipUnless(psycopg, "psycopg is missing; on Debian the package python3-psycopg brings it")
    def test_what_psycopg_makes(self):
        with psycopg.connect(host=str(self.folder), user="tests", dbname="postgres") as database:
            for name, kind, element in TYPES:
                ends = [*map(element, (3, 5, 9, 20))]
                for made in (RangeSet([ends[:2], (ends[2], None)]), RangeSet([(None, ends[0]), ends[2:]]), RangeSet(kind=kind)):
                    text = f"select %s::{name}multirange, (select unnest(%s::{name}multirange) limit 1), '(,)'::{name}range"
                    several, one, every = database.execute(text, [made.to_multirange()] * 2).fetchone()
                    self.assertEqual((RangeSet(several, kind=kind), RangeSet(every, kind=kind)), (made, ~RangeSet(kind=kind)))
                    self.assertEqual(RangeSet([] if one is None else one, kind=kind), made[:1])


if __name__ == "__main__":
    unittest.main()
