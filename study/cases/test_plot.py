"""study/plot: each picture is drawn from a table, names its axes, and a table that cannot be drawn is refused. study/steady and study/theory: what they
make of tables whose answers are known."""

import glob
import os
import re
import subprocess

from support import STUDY, TOP, Case

RUNS = """run [number],host since the start [bytes],media since the start [bytes],write amplification [ratio],free [units],handle 0 alone [units],handle 1 alone [units],handle 2 alone [units],several handles [units]
1,1048576,1048576,1.000000,3,2,3,0,0
2,2097152,3145728,2.000000,2,2,2,0,2
3,2097152,3145728,,2,2,2,0,2
4,4194304,9437184,3.000000,2,1,2,0,3
"""
UNITS = "run [number],host since the start [bytes],unit [number],programmed [pages],live [pages]\n" + "".join(
    f"{run},{run * 2**20},{unit},8,{(run * unit) % 9}\n" for run in (1, 2, 3) for unit in range(8)
)
VICTIMS = "run [number],host since the start [bytes],copied from a victim [pages],victims [units]\n1,1048576,0,3\n2,2097152,4,2\n2,2097152,7,1\n"
SPARE = "kind [name],spare [in 100],measured [ratio],closed [ratio]\na,10,5,5.1\na,20,2.5,2.6\nb,10,4,\n"


class Plot(Case):
    def setUp(self):
        super().setUp()
        for name, text in (("runs.csv", RUNS), ("units.csv", UNITS), ("victims.csv", VICTIMS), ("spare.csv", SPARE)):
            self.write(name, text)

    def draws(self, *words):
        """Both files are there, the one a PNG of its size, the other an SVG, whose texts are given back."""
        self.passes("plot", *words)
        out = words[1]
        with open(self.path(f"{out}.png"), "rb") as file:
            head = file.read(24)
        self.assertEqual((head[:8], head[16:24]), (b"\x89PNG\r\n\x1a\n", (960).to_bytes(4, "big") + (540).to_bytes(4, "big")))
        self.assertEqual(sorted(it for it in os.listdir(self.folder) if it.startswith((f"{out}.", ".plot"))), [f"{out}.png", f"{out}.svg"])
        return [re.sub(r"<[^>]*>", "", it) for it in re.findall(r"<text>.*?</text>", self.read(f"{out}.svg"))]

    def test_help(self):
        for script in ("plot", "steady", "theory"):
            self.assertIn(f"usage: study/{script}", self.passes(script, "--help").out)

    def test_each_picture_names_its_axes(self):
        rows = [
            (["wa", "a", "runs.csv"], ["host writes [MiB]", "write amplification of the run [ratio]", "runs"]),
            (["wa", "b", "runs.csv", "runs.csv", "--names", "one,it's two", "--title", "A_title"], ["A_title", "one", "it's two"]),
            (["units", "c", "runs.csv"], ["units of the drive [number]", "free", "pages of handle 0 alone", "pages of handle 1 alone", "pages of several handles"]),
            (["live", "d", "units.csv"], ["unit of the drive [number]", "live pages [number]", "host writes [MiB]", "1", "2", "3"]),
            (["victims", "e", "victims.csv"], ["pages copied before the erase [number]", "victims [in 100]"]),
            (["columns", "f", "spare.csv", "--x", "spare", "--y", "measured", "--by", "kind"], ["spare [in 100]", "measured [ratio]", "a", "b"]),
            (["columns", "h", "spare.csv", "--x", "spare", "--y", "closed,measured", "--by", "kind", "--marks", "measured"], ["closed, measured", "a: closed", "a: measured", "b: measured"]),
            (["columns", "g", "spare.csv", "--x", "spare", "--y", "measured,closed", "--by", "kind", "--label", "both"], ["both", "a: measured", "a: closed", "b: measured"]),
        ]
        for words, wanted in rows:
            with self.subTest(" ".join(words)):
                texts = [it.replace("&#39;", "'").replace("&apos;", "'") for it in self.draws(*words)]
                self.assertEqual([it for it in wanted if it not in texts], [], texts)
                if words[0] == "units":
                    self.assertNotIn("pages of handle 2 alone", texts)

    def test_a_table_may_come_from_a_pipe(self):
        pipe = f"cat runs.csv | {STUDY}/plot wa it /dev/stdin"
        subprocess.run(["sh", "-c", pipe], cwd=self.folder, check=True, capture_output=True)
        self.assertTrue(os.path.exists(self.path("it.svg")))

    def test_one_row(self):
        self.write("one.csv", "".join(RUNS.splitlines(True)[:2]))
        self.write("one-units.csv", "".join(UNITS.splitlines(True)[:9]))
        for picture, table in (("wa", "one.csv"), ("units", "one.csv"), ("live", "one-units.csv")):
            self.draws(picture, f"only-{picture}", table)

    def test_refusals(self):
        self.write("empty.csv", "")
        self.write("head.csv", RUNS.splitlines(True)[0])
        self.write("torn.csv", RUNS[:-20])
        self.write("text.csv", RUNS.replace("2.000000", "two"))
        self.write("none.csv", RUNS.splitlines(True)[0] + RUNS.splitlines(True)[3])
        self.write("binary.csv", "\0\1")
        rows = [
            ("absent.csv: No such file or directory", "wa it absent.csv"),
            ("empty.csv: no table: it has no head line", "wa it empty.csv"),
            ("head.csv has a head line and no row", "wa it head.csv"),
            ("torn.csv line 5: 3 columns in place of 9", "wa it torn.csv"),
            ("text.csv: the column write amplification has no number", "wa it text.csv"),
            ("none.csv: no run of it has host writes", "wa it none.csv"),
            ("spare.csv has no column host since the start", "wa it spare.csv"),
            ("spare.csv has no units by handle", "units it spare.csv"),
            ("takes one table, and 2 are given", "units it runs.csv runs.csv"),
            ("--names has 1 names for 2 tables", "wa it runs.csv runs.csv --names one"),
            ("victims.csv has no victim behind run 2", "victims it victims.csv --behind 2"),
            ("takes --x and --y", "columns it spare.csv --x spare"),
            ("has no column none: it has kind, spare, measured, closed", "columns it spare.csv --x spare --y none"),
            ("no/.plot-", "wa no/it runs.csv"),
        ]
        for why, words in rows:
            with self.subTest(words):
                self.refuses(why, "plot", *words.split())
        self.refuses("invalid choice: 'pie'", "plot", "pie", "it", "runs.csv", status=2)
        self.refuses("there is no gnuplot", "plot", "wa", "it", "runs.csv", environment={"PATH": self.only("python3", "env")})
        self.assertEqual(glob.glob(self.path("it*")) + glob.glob(self.path(".plot*")), [])

    def only(self, *programs):
        """A folder that has these programs alone."""
        os.makedirs(self.path("only"), exist_ok=True)
        for it in programs:
            where = subprocess.run(["sh", "-c", f"command -v {it}"], capture_output=True, text=True, check=True).stdout.strip()
            os.symlink(os.path.realpath(where) if it == "env" else where, self.path(f"only/{it}"))
        return self.path("only")

    def test_steady(self):
        self.assertEqual(self.passes("steady", "runs.csv").out.splitlines()[1], "runs,2,2097152,6291456,3.0000,2.0000")
        self.write("one.csv", "".join(RUNS.splitlines(True)[:2]))
        self.refuses("one has too few runs", "steady", "one.csv")
        self.refuses("head.csv has no run", "steady", self.write("head.csv", RUNS.splitlines(True)[0]))
        self.refuses("spare.csv is no table of study/run", "steady", "spare.csv")

    def test_theory(self):
        """W and both closed forms, at values that were computed with another program."""
        head = "config [name],workload [name],seed [number],host since the start [bytes],media since the start [bytes]\n"
        rows = [("a", 256, 64, 8096), ("b", 256, 256, 58291)]
        os.makedirs(self.path("sweep/configs"))
        for name, units, pages, blocks in rows:
            self.write(f"sweep/configs/{name}.toml", f"units = {units}\nunit_pages = {pages}\ngroups = 1\n[[namespaces]]\nblocks = {blocks}\n")
        self.write("sweep/table.csv", head + "".join(f"{name},u,1,{host},{2 * host}\n" for name, *_ in rows for host in (100, 200)))
        found = [it.split(",") for it in self.passes("theory", "sweep").out.splitlines()[1:]]
        self.assertEqual([(it[0], it[4], it[6], it[7], it[9]) for it in found], [("a", "50.0000", "2.0000", "1.2387", "1.2550"), ("b", "10.0003", "2.0000", "5.0826", "5.1785")])
        self.write("sweep/configs/a.toml", "units = 256\nunit_pages = 64\ngroups = 2\n[[namespaces]]\nblocks = 1\n")
        self.refuses("a has not one group and one namespace", "theory", "sweep")

    def test_pictures_of_the_documents(self):
        """The pictures of the documents are those of the tables beside them, as far as the same gnuplot drew them."""
        subprocess.run([f"{STUDY}/all", "--draw", self.path("drawn")], check=True, capture_output=True)
        version = subprocess.run(["gnuplot", "--version"], capture_output=True, text=True, check=True).stdout.split()
        drawn = sorted(it for it in os.listdir(self.path("drawn")) if it.endswith(".svg"))
        self.assertGreaterEqual(len(drawn), 7)
        for name in drawn:
            with open(f"{TOP}/docs/studies/{name}", encoding="utf-8") as file:
                kept = file.read()
            if f"GNUPLOT {version[1]} patchlevel {version[3]}" in kept:
                self.assertEqual(self.read(f"drawn/{name}"), kept, name)
