"""study/sweep: each cell of a matrix once, whatever stops it, on this machine or on another; and study/all says what it does."""

import os
import shutil
import signal
import subprocess
import time

from support import STUDY, Case, config, program

LOADS = ["uniform --blocks {blocks} --commands {blocks*3} --fill --fill-size 8 --in-run 300", "cold=hotcold --blocks {blocks} --commands 400 --in-run 300"]


class Sweep(Case):
    def setUp(self):
        super().setUp()
        self.program = program()
        self.write("small.toml", config(units=20, unit_pages=8, blocks=100))
        self.write("large.toml", config(units=30, unit_pages=8, blocks=150))

    def words(self, out, *more, configs=("small.toml", "large.toml"), seeds=(1,)):
        return [out, "--config", *configs, "--load", *LOADS, "--seed", *map(str, seeds), "--jobs", "2", *more]

    def sweep(self, out, **how):
        return self.passes("sweep", *self.words(out, **how))

    def test_help(self):
        self.assertIn("usage: study/sweep", self.passes("sweep", "--help").out)
        for script in ("all", "setup"):
            self.assertIn(f"Usage: study/{script}", self.passes(script, "--help").out)
        self.refuses("study/setup: it takes no words", "setup", "more", status=2)
        self.refuses("there is no study none", "all", "none")

    def test_matrix_is_joined(self):
        self.sweep("it", seeds=(1, 2))
        rows = self.rows("it/table.csv")
        cells = [tuple(row[it] for it in ("config [name]", "workload [name]", "seed [number]")) for row in rows]
        self.assertEqual(list(dict.fromkeys(cells)), [(c, l, s) for c in ("small", "large") for l in ("uniform", "cold") for s in "12"])
        commands = {cell: sum(int(row["commands [number]"]) for row, it in zip(rows, cells) if it == cell) for cell in cells}
        self.assertEqual([commands[it] for it in (("small", "uniform", "1"), ("large", "uniform", "2"), ("large", "cold", "1"))], [313, 469, 400])
        self.assertEqual({row["refused [number]"] for row in rows}, {"0"})
        self.passes("load", "uniform", "own", "--blocks", 150, "--commands", 450, "--fill", "--fill-size", 8, "--in-run", 300, "--seed", 2)
        self.passes("run", "large.toml", "own.img", "own")
        own = [it.split(",")[3:] for it in self.read("own.img.csv").splitlines()[1:]]
        of = [it.split(",")[6:] for it in self.read("it/table.csv").splitlines()[1:] if it.startswith("large,uniform,2,")]
        self.assertEqual(own, of)
        self.assertEqual(sorted(os.listdir(self.path("it/cells/small.cold.1"))), ["table.csv"])

    def test_goes_on_where_it_was_ended(self):
        self.sweep("whole")
        words = [f"{STUDY}/sweep", *self.words("it")]
        for ended in (signal.SIGTERM, signal.SIGKILL):
            started = subprocess.Popen(words, cwd=self.folder, stdout=subprocess.DEVNULL, stderr=subprocess.DEVNULL, start_new_session=True)
            before, until = self.tables(), time.monotonic() + 60
            while self.tables() == before and time.monotonic() < until:
                time.sleep(0.02)
            os.killpg(started.pid, ended)
            started.wait()
            time.sleep(0.5)
        there = {it: os.stat(self.path(f"it/cells/{it}/table.csv")).st_mtime_ns for it in self.tables()}
        self.assertGreaterEqual(len(there), 2)
        self.sweep("it")
        self.assertEqual(self.read("it/table.csv"), self.read("whole/table.csv"))
        for it, when in there.items():
            self.assertEqual(os.stat(self.path(f"it/cells/{it}/table.csv")).st_mtime_ns, when, "a cell that was there was served again")

    def test_ended_behind_the_table(self):
        """Ended when a table was whole and its load and image were not yet removed, a cell is not served again, and they go."""
        self.sweep("it", configs=["small.toml"])
        cell, joined = self.path("it/cells/small.cold.1"), self.read("it/table.csv")
        when = os.stat(f"{cell}/table.csv").st_mtime_ns
        self.passes("load", "uniform", f"{cell}/load", "--blocks", 100, "--commands", 300, "--seed", 1)
        for it in ("drive.toml", "image", "lock"):
            self.write(f"it/cells/small.cold.1/{it}", "left")
        self.sweep("it", configs=["small.toml"])
        self.assertEqual(os.listdir(cell), ["table.csv"])
        self.assertEqual(os.stat(f"{cell}/table.csv").st_mtime_ns, when)
        self.assertEqual(self.read("it/table.csv"), joined)

    def tables(self):
        folder = self.path("it/cells")
        return sorted(it for it in (os.listdir(folder) if os.path.isdir(folder) else []) if os.path.exists(f"{folder}/{it}/table.csv"))

    def test_a_seed_more_serves_its_cells_alone(self):
        self.sweep("it", configs=["small.toml"])
        shutil.rmtree(self.path("it/cells/small.cold.1"))
        os.chmod(self.write("counted", f'#!/bin/sh\necho >> {self.path("calls")}\nexec {self.program} "$@"\n'), 0o755)
        environment = {"FDPDRIVE": "./counted"}
        self.passes("sweep", *self.words("it", configs=["small.toml"]), environment=environment)
        self.assertEqual(len(self.read("calls")), 2)
        self.passes("sweep", *self.words("it", configs=["small.toml"]), environment=environment)
        self.assertEqual(len(self.read("calls")), 2)
        self.passes("sweep", *self.words("it", configs=["small.toml"], seeds=[1, 5]), environment=environment)
        self.assertEqual(len(self.read("calls")), 2 + 2 + 2)

    def test_another_machine(self):
        """A stand-in for ssh runs what it is given here, in another home and with the shell that a login has: the words, the files that go there and those that come back."""
        home = self.path("home")
        os.mkdir(home)
        stand_in = f'#!/bin/sh\nwhile [ "${{1#-}}" != "$1" ]; do case $1 in -[lpo]) shift ;; esac; shift; done\necho "$1" >> {self.path("hosts")}\nshift\nif [ "$1" = -- ]; then shift; fi\ncd {home} && SHELL=/bin/sh exec sh -c "$*"\n'
        os.chmod(self.write("ssh", stand_in), 0o755)
        environment = {"PATH": f"{self.folder}:{os.environ['PATH']}", "FDPDRIVE": self.program}
        self.sweep("here")
        self.passes("sweep", *self.words("it", "--sshlogin", "1/far"), environment=environment)
        self.assertIn("far", self.read("hosts"))
        self.assertEqual(self.read("it/table.csv"), self.read("here/table.csv"))

    def test_a_cell_that_fails(self):
        self.write("wrong.toml", config(units=20, unit_pages=8, blocks=100).replace("units = 20", "units = 0"))
        why = "2 of 4 cells failed: wrong.uniform.1, wrong.cold.1; the same words begin again with these"
        self.refuses(why, "sweep", *self.words("it", configs=["small.toml", "wrong.toml"]))
        self.assertEqual(self.tables(), ["small.cold.1", "small.uniform.1"])
        self.assertFalse(os.path.exists(self.path("it/table.csv")))

    def test_refusals(self):
        self.sweep("it", configs=["small.toml"])
        self.write("text.toml", "no configuration")
        os.mkdir(self.path("other"))
        shutil.copy(self.path("large.toml"), self.path("other/small.toml"))
        rows = [
            ("absent.toml: No such file or directory", ["it", "--config", "absent.toml", "--load", LOADS[0]]),
            ("text.toml: no configuration with a namespace", ["it", "--config", "text.toml", "--load", LOADS[0]]),
            ("two configurations have the same name", ["it", "--config", "small.toml", "other/small.toml", "--load", LOADS[0]]),
            ("is another configuration of this name", ["it", "--config", "other/small.toml", "--load", LOADS[0]]),
            ("is another load of this name", ["it", "--config", "small.toml", "--load", "uniform --blocks 1 --commands 1"]),
            ("two loads are named uniform", ["it", "--config", "small.toml", "--load", LOADS[0], LOADS[0]]),
            ("'uniform' is no load", ["it", "--config", "small.toml", "--load", "uniform"]),
            ("No closing quotation", ["it", "--config", "small.toml", "--load", "uniform 'it"]),
        ]
        for why, words in rows:
            with self.subTest(why):
                self.refuses(why, "sweep", *words)
        self.refuses("is not from 1", "sweep", *self.words("it"), "--jobs", "0", status=2)
