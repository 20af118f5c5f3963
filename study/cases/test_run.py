"""study/run: the table says what the drive said, records agree with it, and no stop loses or repeats a run."""

import json
import os
import random
import shutil
import signal
import subprocess
import time

from support import STUDY, Case, config, program

HANDLES = ("initial", "persistent")


class Run(Case):
    def setUp(self):
        super().setUp()
        self.program = program()
        self.write("drive.toml", config(units=40, unit_pages=8, blocks=180, handles=HANDLES))

    def load(self, out="load", workload="hotcold", commands=900, more=("--pid", "0,1", "--fill", "--fill-size", 8)):
        self.passes("load", workload, out, "--blocks", 180, "--commands", commands, "--in-run", 200, *more)

    def serve(self, image, *words, load="load", **how):
        return self.passes("run", "drive.toml", image, load, *words, **how)

    def sums(self, image, trace):
        """The sums that the program prints for a run."""
        ran = subprocess.run([self.program, "run", "drive.toml", image, trace], cwd=self.folder, capture_output=True, text=True, check=True)
        return next(it.split()[1:] for it in ran.stdout.splitlines() if it.startswith("stats "))

    def test_help(self):
        self.assertIn("usage: study/run", self.passes("run", "--help").out)

    def test_table_is_what_the_drive_says(self):
        self.load()
        self.serve("it.img")
        rows = self.rows("it.img.csv")
        self.assertEqual([it["run [number]"] for it in rows], ["1", "2", "3", "4", "5"])
        before = [0, 0, 0]
        for run, row in enumerate(rows, 1):
            sums = self.sums("own.img", f"load/{run:06}.01.trace")
            self.assertEqual([row[f"{it} since the start [bytes]"] for it in ("host", "media", "erased")], sums)
            now = list(map(int, sums))
            host, media, erased = (it - its for it, its in zip(now, before))
            before = now
            self.assertEqual([row[f"{it} [bytes]"] for it in ("host", "media", "erased")], [str(host), str(media), str(erased)])
            self.assertEqual(row["relocated [blocks]"], str((media - host) // 512))
            self.assertEqual(row["write amplification [ratio]"], f"{media / host:.6f}")
            self.assertEqual(row["refused [number]"], "0")
        self.assertEqual(sum(int(it["commands [number]"]) for it in rows), 900 + 3 + 21)
        self.assertGreater(int(rows[-1]["relocated [blocks]"]), 0)

    def test_records_agree_with_the_table(self):
        self.load()
        self.write("more.trace", "dealloc 1 0 10 5 20\nzero 1 100 8\nread 1 0 8\ndelete 9\nwrite 1 3 2 7 pid 1\n")
        self.serve("it.img", "more.trace", "--records", "records")
        rows, units, victims = self.rows("it.img.csv"), self.rows("records/units.csv"), self.rows("records/victims.csv")
        self.assertEqual([it["live [pages]"] for it in rows], ["180"] * 5 + [str(180 - 25 - 8 + 2)])
        for row in rows:
            run, of = row["run [number]"], [it for it in units if it["run [number]"] == row["run [number]"]]
            self.assertEqual(len(of), 40)
            self.assertEqual(sum(int(it["live [pages]"]) for it in of), int(row["live [pages]"]))
            self.assertEqual(sum(it["programmed [pages]"] == "0" for it in of), int(row["free [units]"]))
            kinds = [int(row[it]) for it in ("handle 0 alone [units]", "handle 1 alone [units]", "several handles [units]")]
            self.assertEqual(sum(kinds) + int(row["free [units]"]), 40)
            self.assertEqual(kinds[2], 0, "a persistently isolated handle shares no unit")
            erased = [it for it in victims if it["run [number]"] == run]
            self.assertEqual(sum(int(it["victims [units]"]) for it in erased), int(row["erased [bytes]"]) // (8 * 512))
        copied = sum(int(it["copied from a victim [pages]"]) * int(it["victims [units]"]) for it in victims)
        self.assertLessEqual(abs(copied - sum(int(it["relocated [blocks]"]) for it in rows)), 8, "but for the pass that is under way")
        self.assertEqual(rows[-1]["refused [number]"], "1")

    def test_records_of_several_queues(self):
        self.write("drive.toml", config(units=40, unit_pages=8, blocks=180, handles=HANDLES, queues=4))
        self.load(workload="uniform", more=("--queues", 4, "--pid", 1, "--fill", "--fill-size", 8))
        self.serve("it.img", "--records", "records")
        rows = self.rows("it.img.csv")
        self.assertEqual({it["live [pages]"] for it in rows}, {"180"})
        self.assertEqual({it["refused [number]"] for it in rows}, {"0"})
        self.assertEqual(sum(int(it["commands [number]"]) for it in rows), 4 * (900 + 6))

    def test_records_of_several_groups(self):
        self.write("drive.toml", config(units=40, unit_pages=8, blocks=300, handles=HANDLES, groups=2))
        self.passes("load", "uniform", "low", "--blocks", 150, "--commands", 700, "--fill", "--fill-size", 8, "--pid", 1)
        self.passes("load", "uniform", "high", "--blocks", 150, "--first", 150, "--commands", 700, "--fill", "--fill-size", 8, "--pid", 0x8001)
        self.serve("it.img", "high", "--records", "records", load="low")
        rows, units = self.rows("it.img.csv"), self.rows("records/units.csv")
        self.assertEqual([it["live [pages]"] for it in rows], ["150", "300"])
        self.assertEqual(sum(it["run [number]"] == "2" and it["programmed [pages]"] == "0" for it in units), int(rows[1]["free [units]"]))
        self.assertEqual([sum(int(it["live [pages]"]) for it in units if it["run [number]"] == "2" and int(it["unit [number]"]) // 40 == group) for group in (0, 1)], [150, 150])
        self.assertEqual((rows[1]["several handles [units]"], rows[1]["refused [number]"]), ("0", "0"))

    def test_killed_again_and_again(self):
        self.load(commands=1500)
        whole = ["--records", "whole.records"]
        self.serve("whole.img", *whole)
        words = [f"{STUDY}/run", "drive.toml", "it.img", "load", "--records", "it.records"]
        chance, killed = random.Random(1), 0
        for longest in (0.2, 0.3, 0.4, 0.6, 0.8, 1, 1.5, 2, 3, 5, 8, None):
            started = subprocess.Popen(words, cwd=self.folder, stdout=subprocess.DEVNULL, stderr=subprocess.DEVNULL, start_new_session=True)
            try:
                status = started.wait(longest and longest * (0.5 + chance.random() / 2))
            except subprocess.TimeoutExpired:
                os.killpg(started.pid, signal.SIGKILL)
                started.wait()
                killed += 1
                continue
            self.assertEqual(status, 0)
            break
        self.assertGreater(killed, 0)
        self.same("whole", "it")

    def same(self, one, two):
        """Two gatherings came to the same."""
        for name in ("{}.img.csv", "{}.records/units.csv", "{}.records/victims.csv"):
            if os.path.exists(self.path(name.format(one))):
                self.assertEqual(self.read(name.format(one)), self.read(name.format(two)), name)
        with open(self.path(f"{one}.img"), "rb") as file, open(self.path(f"{two}.img"), "rb") as other:
            self.assertEqual(file.read(), other.read())
        self.assertEqual([it for it in os.listdir(self.folder) if it.endswith((".next", ".row", ".lock", ".part"))], [])

    def test_stopped_within_a_step(self):
        """What a stop leaves before and after each of the files of a step takes its place."""
        self.load()
        self.serve("whole.img")
        whole = self.read("whole.img.csv")
        self.serve("short.img", load="load/000001.01.trace")
        self.write("first.csv", whole.splitlines(True)[0] + whole.splitlines(True)[1])
        shutil.copy(self.path("short.img"), self.path("one.img"))
        self.sums("short.img", "load/000002.01.trace")
        two = json.dumps({"run": 2, "table": "".join(whole.splitlines(True)[:3])})
        for name, image, following, row in (
            ("no-row", "one.img", b"half an image", None),
            ("no-move", "one.img", "short.img", two),
            ("moved", "short.img", None, two),
        ):
            with self.subTest(name):
                shutil.copy(self.path("first.csv"), self.path(f"{name}.img.csv"))
                shutil.copy(self.path(image), self.path(f"{name}.img"))
                if isinstance(following, bytes):
                    self.write(f"{name}.img.next", following.decode())
                elif following:
                    shutil.copy(self.path(following), self.path(f"{name}.img.next"))
                if row:
                    self.write(f"{name}.img.row", row)
                self.serve(f"{name}.img")
                self.same("whole", name)

    def test_a_run_that_fails(self):
        self.load()
        self.serve("whole.img")
        self.write("calls", "")
        failing = f'#!/bin/sh\necho >> calls\nif [ "$(wc -l < calls)" -eq 3 ]; then echo "fault 5 flash"; echo "no room" >&2; exit 5; fi\nexec {self.program} "$@"\n'
        os.chmod(self.write("failing", failing), 0o755)
        why = "run 3 of 5, which is run 3 of load, failed: status 5, fault 5 flash no room; it.img.csv has the runs before it, and the same words begin again with run 3"
        self.refuses(why, "run", "drive.toml", "it.img", "load", environment={"FDPDRIVE": self.path("failing")})
        self.assertEqual(self.read("it.img.csv"), "".join(self.read("whole.img.csv").splitlines(True)[:3]))
        self.serve("it.img")
        self.same("whole", "it")

    def test_ended_by_a_signal(self):
        self.load(commands=4000)
        os.chmod(self.write("slow", f'#!/bin/sh\nsleep 0.3\nexec {self.program} "$@"\n'), 0o755)
        words = [f"{STUDY}/run", "drive.toml", "it.img", "load"]
        started = subprocess.Popen(words, cwd=self.folder, stderr=subprocess.PIPE, text=True, env={**os.environ, "FDPDRIVE": self.path("slow")})
        while not os.path.exists(self.path("it.img.csv")):
            time.sleep(0.05)
        started.terminate()
        said = started.communicate(timeout=60)[1]
        self.assertEqual(started.returncode, 143)
        self.assertIn("start it again with the same words to go on", said)
        self.serve("whole.img")
        self.serve("it.img")
        self.same("whole", "it")

    def test_goes_on_from_an_image(self):
        self.load(commands=300)
        self.serve("it.img", "--table", "one.csv")
        self.passes("load", "uniform", "next", "--blocks", 180, "--commands", 100)
        self.serve("it.img", "--table", "two.csv", load="next")
        one, two = self.rows("one.csv"), self.rows("two.csv")
        host = "host since the start [bytes]"
        self.assertEqual(int(two[0][host]), int(one[-1][host]) + 100 * 512)
        self.assertEqual(two[0]["host [bytes]"], str(100 * 512))
        self.serve("it.img", "next", "--table", "one.csv")
        self.assertEqual(len(self.rows("one.csv")), len(one) + 1)

    def test_nothing_to_serve(self):
        self.passes("load", "uniform", "empty", "--blocks", 1, "--commands", 0)
        self.serve("it.img", load="empty")
        row = self.rows("it.img.csv")[0]
        self.assertEqual([row["commands [number]"], row["host [bytes]"], row["write amplification [ratio]"], row["free [units]"]], ["0", "0", "", "40"])

    def test_commands_that_are_refused_are_counted(self):
        self.passes("load", "rings", "wide", "--blocks", 200, "--commands", 200, "--rings", 1)
        self.assertIn("20 commands did not succeed", self.serve("it.img", load="wide").said)
        self.assertEqual(self.rows("it.img.csv")[0]["refused [number]"], "20")

    def test_refusals(self):
        self.load(commands=300)
        self.serve("it.img")
        self.passes("load", "uniform", "other", "--blocks", 180, "--commands", 10, "--in-run", 5)
        os.mkdir(self.path("hollow"))
        shutil.copytree(self.path("load"), self.path("torn"))
        os.remove(self.path("torn/000001.01.trace"))
        self.write("text.img", "this is longer than the head of an image of a flash")
        self.write("bad.csv", "run [number],load [name]\n1\n")
        rows = [
            ("absent: there is no such load", "drive.toml new.img absent"),
            ("hollow: no load", "drive.toml new.img hollow"),
            ("torn: run 1 is not whole", "drive.toml new.img torn"),
            ("has in run 1 another load, load run 1", "drive.toml it.img other --table it.img.csv"),
            ("it.img.csv has 2 runs, and these loads have 1", "drive.toml it.img load/000001.01.trace"),
            ("new.img is not there: remove the table to begin anew", "drive.toml new.img load --table it.img.csv"),
            ("it.img is there already: records begin with the image", "drive.toml it.img load --table new.csv --records records"),
            ("failed: status 2, fault 2 config absent", "absent.toml new.img load"),
            ("no/new.img.lock: No such file or directory", "drive.toml no/new.img load"),
            ("fault 5 flash", "drive.toml text.img load"),
            ("bad.csv line 2: 1 columns in place of 2", "drive.toml it.img load --table bad.csv"),
        ]
        before = self.read("it.img.csv")
        for why, words in rows:
            with self.subTest(words):
                self.refuses(why, "run", *words.split())
        self.assertEqual(self.read("it.img.csv"), before)
        self.refuses("there is no program /none", "run", "drive.toml", "new.img", "load", environment={"FDPDRIVE": "/none"})

    def test_one_gathering_at_a_time(self):
        self.load(commands=300)
        holding = "import fcntl, time; file = open('it.img.lock', 'w'); fcntl.flock(file, fcntl.LOCK_EX); print('held', flush=True); time.sleep(60)"
        held = subprocess.Popen(["python3", "-c", holding], cwd=self.folder, stdout=subprocess.PIPE, text=True)
        try:
            held.stdout.readline()
            self.refuses("another study/run has it.img", "run", "drive.toml", "it.img", "load")
        finally:
            held.kill()
            held.communicate()
        self.serve("it.img")
