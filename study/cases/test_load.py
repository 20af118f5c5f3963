"""study/load: the same words make the same bytes, each workload writes what its head says, and runs are cut at their limits."""

import collections
import os

from support import Case

WORKLOADS = ("uniform", "zipf", "hotcold", "rings", "cache", "log")


class Load(Case):
    def load(self, *words):
        self.passes("load", *words)

    def test_help(self):
        for words in (["--help"], *([it, "--help"] for it in WORKLOADS)):
            self.assertIn("usage: study/load", self.passes("load", *words).out)

    def test_same_words_make_same_bytes(self):
        for workload in WORKLOADS:
            with self.subTest(workload):
                for out, seed in (("one", 7), ("two", 7), ("other", 8)):
                    self.load(workload, f"{workload}-{out}", "--blocks", 2000, "--commands", 300, "--seed", seed)
                one, two, other = (self.commands(f"{workload}-{it}") for it in ("one", "two", "other"))
                self.assertEqual(one, two)
                if workload in ("rings", "log"):
                    self.assertEqual(one, other)
                else:
                    self.assertNotEqual(one, other)

    def test_head_tells_what_was_made(self):
        self.load("hotcold", "it", "--blocks", 100, "--commands", 1, "--seed", 3, "--pid", "0,1")
        head = self.read("it/000001.01.trace").splitlines()[:5]
        self.assertIn("hot and cold", head[0])
        self.assertIn("seed=3", head[1])
        self.assertEqual(head[2:], ["# hot data: blocks 0 to 9; placement identifier 0", "# cold data: blocks 10 to 99; placement identifier 1", "# run 1, queue 1 of 1"])

    def test_runs_are_cut_at_their_limit(self):
        for commands, runs in ((0, [0]), (1, [1]), (8191, [8191]), (8192, [8192]), (8193, [8192, 1])):
            with self.subTest(commands):
                self.load("uniform", f"n{commands}", "--blocks", 1, "--commands", commands)
                names = sorted(os.listdir(self.path(f"n{commands}")))
                self.assertEqual(names, [f"{run:06}.01.trace" for run in range(1, len(runs) + 1)])
                self.assertEqual([len(self.commands(f"n{commands}", run)) for run in range(1, len(runs) + 1)], runs)

    def test_each_queue_has_its_part(self):
        self.load("uniform", "it", "--blocks", 160, "--commands", 40, "--queues", 16, "--in-run", 30, "--fill", "--fill-size", 5)
        for queue in range(1, 17):
            found = [*self.commands("it", 1, queue), *self.commands("it", 2, queue)]
            self.assertEqual(len(found), 42)
            self.assertTrue(all((queue - 1) * 10 <= int(it[2]) < queue * 10 for it in found))

    def test_uniform_reaches_each_extent(self):
        self.load("uniform", "it", "--blocks", 40, "--commands", 2000, "--size", 4, "--first", 100)
        counts = collections.Counter(int(it[2]) for it in self.commands("it"))
        self.assertEqual(sorted(counts), list(range(100, 140, 4)))
        self.assertTrue(all(150 < it < 250 for it in counts.values()))

    def test_zipf_has_its_exponent(self):
        self.load("zipf", "it", "--blocks", 50, "--commands", 8000, "--exponent", "1")
        counts = [it for _, it in collections.Counter(int(it[2]) for it in self.commands("it")).most_common()]
        whole = sum(1 / rank for rank in range(1, 51))
        for rank in (1, 2, 4):
            self.assertAlmostEqual(counts[rank - 1] / 8000, 1 / rank / whole, delta=0.02)
        self.load("zipf", "flat", "--blocks", 10, "--commands", 8000, "--exponent", "0")
        counts = collections.Counter(int(it[2]) for it in self.commands("flat"))
        self.assertTrue(all(700 < it < 900 for it in counts.values()))

    def test_hot_and_cold_have_their_shares(self):
        self.load("hotcold", "it", "--blocks", 1000, "--commands", 8000, "--hot-writes", 80, "--hot-space", 20, "--pid", "3,5")
        found = self.commands("it")
        hot = [it for it in found if int(it[2]) < 200]
        self.assertAlmostEqual(len(hot) / 8000, 0.8, delta=0.02)
        self.assertEqual({it[-1] for it in hot}, {"3"})
        self.assertEqual({it[-1] for it in found if int(it[2]) >= 200}, {"5"})

    def test_rings_take_turns(self):
        self.load("rings", "it", "--blocks", 12, "--commands", 8, "--rings", 2, "--size", 2)
        self.assertEqual([int(it[2]) for it in self.commands("it")], [0, 6, 2, 8, 4, 10, 0, 6])

    def test_cache_has_its_shares_of_blocks(self):
        self.load("cache", "it", "--blocks", 1000, "--commands", 8000, "--small-writes", 50, "--size", 8)
        small = [it for it in self.commands("it") if int(it[2]) < 40]
        large = [it for it in self.commands("it") if int(it[2]) >= 40]
        self.assertAlmostEqual(len(small) / sum(int(it[3]) for it in large), 1, delta=0.05)
        self.assertEqual([int(it[2]) for it in large[:121]], [*range(40, 1000, 8), 40])

    def test_log_deallocates_what_it_wrote_once(self):
        self.load("log", "it", "--blocks", 700, "--commands", 8192, "--levels", 3, "--fanout", 3, "--size", 2, "--pid", "0,1,2")
        written, dropped = set(), 0
        for words in self.commands("it"):
            blocks = set(range(int(words[2]), int(words[2]) + int(words[3])))
            if words[0] == "write":
                self.assertFalse(blocks & written, "a block is written again before it is deallocated")
                written |= blocks
            else:
                self.assertLessEqual(blocks, written)
                written -= blocks
                dropped += 1
        self.assertGreater(dropped, 50)
        self.assertLessEqual(max(written), 699)
        self.assertEqual({it[-1] for it in self.commands("it") if it[0] == "write"}, {"0", "1", "2"})

    def test_fill_writes_each_block_once(self):
        for workload in ("uniform", "zipf", "hotcold", "rings", "cache"):
            self.load(workload, workload, "--blocks", 1000, "--commands", 0, "--fill", "--fill-size", 7)
            blocks = [block for it in self.commands(workload) for block in range(int(it[2]), int(it[2]) + int(it[3]))]
            self.assertEqual(blocks, list(range(1000)), workload)

    def test_there_already(self):
        words = ["uniform", "it", "--blocks", 10, "--commands", 5]
        self.load(*words)
        self.assertIn("there already", self.passes("load", *words).said)
        self.refuses("remove it or give another name", "load", *words, "--seed", 2)
        self.write("file", "")
        self.refuses("remove it or give another name", "load", "uniform", "file", "--blocks", 10, "--commands", 5)

    def test_refusals(self):
        rows = [
            ("is not from 1", 2, "uniform it --blocks 0 --commands 1"),
            ("is no whole number", 2, "uniform it --blocks 1e3 --commands 1"),
            ("is no whole number", 2, "uniform it --blocks -1 --commands 1"),
            ("is not from 0", 2, "uniform it --blocks 1 --commands 1 --seed 18446744073709551616"),
            ("is not from 1 to 64", 2, "uniform it --blocks 65 --commands 1 --size 65"),
            ("is not from 1 to 8192", 2, "uniform it --blocks 65 --commands 1 --in-run 8193"),
            ("is not from 1 to 16", 2, "uniform it --blocks 65 --commands 1 --queues 17"),
            ("is not from 0 to 65535", 2, "uniform it --blocks 65 --commands 1 --pid 65536"),
            ("cannot be cut into extents of 4", 1, "uniform it --blocks 10 --commands 1 --size 4"),
            ("cannot be cut into extents of 4", 1, "rings it --blocks 10 --commands 1 --size 4"),
            ("1 blocks do not suffice for 2 queues", 1, "uniform it --blocks 1 --commands 1 --queues 2"),
            ("leave no extent of 1 to hot data", 1, "hotcold it --blocks 100 --commands 1 --hot-space 0"),
            ("leave no extent of 1 to cold data", 1, "hotcold it --blocks 100 --commands 1 --hot-space 100"),
            ("leave no extent of 1 to small data", 1, "cache it --blocks 10 --commands 1"),
            ("need 100 blocks at least, and a part has 99", 1, "log it --blocks 99 --commands 1"),
            ("--pid has 3 identifiers", 1, "hotcold it --blocks 100 --commands 1 --pid 0,1,2"),
            ("go past the last address", 1, "uniform it --blocks 2 --commands 1 --first 18446744073709551614"),
            ("more than the 16777216 that are given ranks", 1, "zipf it --blocks 16777217 --commands 1"),
            ("/proc/none: No such file or directory", 1, "uniform /proc/none/it --blocks 2 --commands 1"),
        ]
        for why, status, words in rows:
            with self.subTest(words):
                self.refuses(why, "load", *words.split(), status=status)
                self.assertEqual(os.listdir(self.folder), [])
