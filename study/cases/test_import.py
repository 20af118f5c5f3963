"""study/import: each request goes where the rule says, what is left out is told, and a malformed line is refused."""

import os
import re
import subprocess

import blktrace
from support import STUDY, Case

TRACES = f"{STUDY}/cases/traces"


def expected(path, line):
    """The commands that reads, writes and trims of a log should become in blocks of 512 bytes, read off it independently: (word, first, last)."""
    with open(path, encoding="utf-8") as file:
        found = re.findall(line, file.read(), re.M)
    return [(it, int(offset) // 512, (int(offset) + int(length) - 1) // 512) for it, offset, length in found]


class Import(Case):
    def imports(self, *words, **how):
        return self.passes("import", *words, **how)

    def told(self, out):
        return self.read(f"{out}/told.txt").splitlines()

    def test_help(self):
        self.assertIn("usage: study/import", self.imports("--help").out)

    def test_fio_version_3(self):
        path = f"{TRACES}/fio-version-3.log"
        self.imports("fio", path, "it", "--blocks", 1000000, "--block", 512, "--size", 64)
        wanted = expected(path, r"^\d+ \S+ (read|write) (\d+) (\d+)$")
        found = [(it[0], int(it[2]), int(it[2]) + int(it[3]) - 1) for it in self.commands("it")]
        self.assertEqual(found, wanted)
        self.assertIn(f"requests: {len(wanted)}, of them 79 reads, 177 writes, 0 discards", self.told("it"))

    def test_fio_version_2(self):
        self.imports("fio", f"{TRACES}/fio-version-2.log", "it", "--blocks", 100)
        self.assertEqual([" ".join(it) for it in self.commands("it")], ["read 1 0 1", "write 1 1 2 1", "dealloc 1 0 4", "write 1 0 1 3"])
        self.assertEqual(
            self.told("it"),
            [
                "requests: 4, of them 1 reads, 2 writes, 1 discards",
                "commands: 4",
                *(f"left out: 1 x {it}" for it in ("add", "close", "datasync", "first line", "open", "sync", "wait")),
            ],
        )

    def test_fio_log_that_fio_writes_now(self):
        job = ["fio", "--name=it", "--filename=data", "--rw=randtrimwrite", "--size=1m", "--bsrange=512-16k", "--ioengine=null", "--write_iolog=log"]
        subprocess.run(job, cwd=self.folder, check=True, capture_output=True)
        self.imports("fio", "log", "it", "--blocks", 4096, "--block", 512, "--size", 64)
        wanted = expected(self.path("log"), r"^\d+ \S+ (read|write|trim) (\d+) (\d+)$")
        found = [({"dealloc": "trim"}.get(it[0], it[0]), int(it[2]), int(it[2]) + int(it[3]) - 1) for it in self.commands("it")]
        self.assertEqual(found, wanted)
        self.assertGreater(len(wanted), 20)

    def blkparse(self):
        """The text that blkparse prints of the sample."""
        with open(self.path("it.blktrace.0"), "wb") as file:
            file.write(blktrace.sample())
        ran = subprocess.run(["blkparse", "-i", "it"], cwd=self.folder, check=True, capture_output=True, text=True)
        return self.write("blkparse.txt", ran.stdout)

    def test_blkparse(self):
        text = self.blkparse()
        self.imports("blkparse", text, "it", "--blocks", 200)
        wanted = ["write 1 56 1 0", "write 1 57 2 1", "read 1 112 8", "read 1 120 16", "dealloc 1 24 128", "write 1 64 1 5", "write 1 0 2 6"]
        self.assertEqual([" ".join(it) for it in self.commands("it")], wanted)
        self.assertIn("left out: 2 x request without data", self.told("it"))
        self.assertIn("left out: 9 x event Q", self.told("it"))
        for action in "QC":
            self.imports("blkparse", text, action, "--blocks", 200, "--action", action)
            self.assertEqual([" ".join(it) for it in self.commands(action)], wanted)

    def test_blkparse_from_a_pipe_with_rules(self):
        self.blkparse()
        rules = self.write("rules", "process mysqld range 0 1000000 pid 1 into 100 50 # the log\nprocess 200 drop\nstream 8,0 pid 2\n")
        pipe = f"blkparse -i it | {STUDY}/import blkparse - it.load --blocks 200 --rules {rules}"
        subprocess.run(["sh", "-c", pipe], cwd=self.folder, check=True, capture_output=True)
        wanted = ["write 1 56 1 0 pid 2", "write 1 57 2 1 pid 2", "dealloc 1 24 128", "write 1 100 2 3 pid 1"]
        self.assertEqual([" ".join(it) for it in self.commands("it.load")], wanted)
        self.assertIn("left out: 3 x request by line 2 of the rules", self.told("it.load"))

    def test_msr(self):
        for out, head in (("it", ""), ("headed", "Timestamp,Hostname,DiskNumber,Type,Offset,Size,ResponseTime\n")):
            with open(f"{TRACES}/msr.csv", encoding="utf-8") as file:
                text = self.write("msr.csv", head + file.read().replace("\n", "\r\n"))
            rules = self.write("rules", "stream usr.1 pid 1\nstream proj.2 plain\n")
            self.imports("msr", text, out, "--blocks", 1000000, "--rules", rules)
            wanted = ["read 1 712551 7", "write 1 614672 1 1", "write 1 614673 2 2 pid 1", "read 1 0 1"]
            self.assertEqual([" ".join(it) for it in self.commands(out)], wanted)

    def fio(self, *requests):
        return self.write("log", "fio version 2 iolog\n" + "".join(f"f {it}\n" for it in requests))

    def folded(self, *requests, blocks=10, more=()):
        self.imports("fio", self.fio(*requests), "it", "--blocks", blocks, "--block", 512, *more)
        found = [" ".join(it) for it in self.commands("it")]
        told = self.told("it")
        subprocess.run(["rm", "-r", self.path("it")], check=True)
        return found, told

    def test_where_requests_go(self):
        rows = [
            ("write 0 1", ["write 1 0 1 0"]),
            ("write 511 2", ["write 1 0 2 0"]),
            ("write 4608 512", ["write 1 9 1 0"]),
            ("write 4608 1024", ["write 1 9 1 0", "write 1 0 1 1"]),
            ("write 5120 512", ["write 1 0 1 0"]),
            ("write 0 5120", ["write 1 0 10 0"]),
            ("write 1024 5120", ["write 1 2 8 0", "write 1 0 2 1"]),
            ("read 18446744073709551104 512", [f"read 1 {(2**64 - 512) // 512 % 10} 1"]),
            ("trim 0 512", ["dealloc 1 0 1"]),
            ("trim 1 1534", ["dealloc 1 1 1"]),
            ("trim 4608 1024", ["dealloc 1 9 1 0 1"]),
            ("trim 0 1048576", ["dealloc 1 0 10"]),
        ]
        for request, wanted in rows:
            with self.subTest(request):
                self.assertEqual(self.folded(request)[0], wanted)

    def test_what_is_left_out_is_told(self):
        rows = [
            ("write 0 0", "left out: 1 x request of no length"),
            ("trim 1 511", "left out: 1 x discard within a block"),
            ("write 0 6144", "left out: 2 x block past a whole turn"),
            ("sync 0 0", "left out: 1 x sync"),
        ]
        for request, wanted in rows:
            with self.subTest(request):
                self.assertIn(wanted, self.folded(request)[1])
        self.assertIn("left out: 1 x read, by --without-reads", self.folded("read 0 512", more=["--without-reads"])[1])

    def test_cut_into_commands_and_runs(self):
        found, _ = self.folded("write 0 5120", more=["--size", 4])
        self.assertEqual(found, ["write 1 0 4 0", "write 1 4 4 1", "write 1 8 2 2"])
        self.imports("fio", self.fio(*["write 0 512"] * 8193), "it", "--blocks", 1)
        self.assertEqual([len(self.commands("it", run)) for run in (1, 2)], [8192, 1])
        self.imports("fio", self.fio(*["read 0 32768"] * 129), "reads", "--blocks", 64, "--block", 512, "--size", 64)
        self.assertEqual([len(self.commands("reads", run)) for run in (1, 2)], [128, 1])

    def test_nothing_to_import(self):
        self.imports("msr", "-", "it", "--blocks", 1, given="")
        self.assertEqual(self.commands("it"), [])
        self.assertEqual(self.told("it"), ["requests: 0, of them 0 reads, 0 writes, 0 discards", "commands: 0"])

    def test_malformed_traces(self):
        rows = [
            ("fio", "", "standard input line 0: it is empty"),
            ("fio", "fio version 1 iolog\n", "line 1: this is no first line of an iolog of version 2 or 3"),
            ("fio", "data write 0 4096\n", "line 1: this is no first line of an iolog"),
            ("fio", "\0\1\2\n", "line 1: this is no first line of an iolog"),
            ("fio", "fio version 2 iolog\ndata erase 0 4096\n", "line 2: no action of an iolog"),
            ("fio", "fio version 2 iolog\ndata write 0\n", "line 2: 3 words in place of 4"),
            ("fio", "fio version 2 iolog\ndata write x 1\n", "line 2: 'x' stands where the offset should"),
            ("fio", "fio version 2 iolog\ndata write 0 -1\n", "line 2: '-1' stands where the length should"),
            ("fio", "fio version 2 iolog\ndata write 0 99999999999999999999\n", "line 2: '99999999999999999999' stands where the length should"),
            ("fio", "fio version 3 iolog\ndata write 0 4096\n", "line 2: 'data' stands where the time should"),
            ("fio", "fio version 3 iolog\n1 data write 0 40", None),
            ("blkparse", "hello\n", "line 1: no event of blkparse"),
            ("blkparse", "  8,0 0 3 0.0 100 D W 2048 8 [mysqld]\n", "line 1: no sector and length behind the action D"),
            ("blkparse", "  8,0 0 3 0.0 100 D X 2048 + 8 [mysqld]\n", "line 1: 'X' stands where the kind of the request should"),
            ("blkparse", "  8,0 0 3 0.0 100 D W 99999999999999999999 + 8 [it]\n", "line 1: '99999999999999999999' stands where the sector should"),
            ("msr", "1,usr,0,Read,0,1\n", "line 1: 6 columns in place of 7"),
            ("msr", "1,usr,0,Trim,0,1,1\n", "line 1: 'Trim' stands where Read or Write should"),
            ("msr", "1,usr,0,Read,0,1,1\n1,usr,0,Read,,1,1\n", "line 2: '' stands where the offset should"),
            ("msr", "1,usr,x,Read,0,1,1\n", "line 1: 'x' stands where the disk should"),
            ("msr", "a" * 70000, "line 1: it has more than 65535 bytes"),
        ]
        for trace, text, why in rows:
            with self.subTest(f"{trace}: {text[:40]!r}"):
                if why is None:
                    self.imports(trace, "-", "whole", "--blocks", 10, given=text)
                else:
                    self.refuses(why, "import", trace, "-", "it", "--blocks", 10, given=text)
                self.assertFalse(os.path.exists(self.path("it")) or os.path.exists(self.path("it.part")))

    def test_malformed_rules(self):
        log = self.fio("write 0 512")
        rows = [
            ("pid\n", "line 1: the rule breaks off"),
            ("\nrange 0 pid 1\n", "line 2: 'pid' stands where the end should"),
            ("process\n", "line 1: the rule breaks off"),
            ("pid 65536\n", "line 1: the placement identifier 65536 is above 65535"),
            ("colour red pid 1\n", "line 1: 'colour' is neither range, process or stream, nor pid, plain or drop"),
            ("pid 1 into 0\n", "line 1: the rule breaks off"),
            ("pid 1 into 9 2\n", "line 1: blocks 9 and 2 of them do not lie in a namespace of 10"),
            ("pid 1 into 0 0\n", "line 1: blocks 0 and 0 of them do not lie"),
            ("drop into 0 1\n", "line 1: 'into 0 1' stands behind the rule's end"),
            ("pid 1 2\n", "stands behind the rule's end"),
        ]
        for text, why in rows:
            with self.subTest(text):
                self.refuses(why, "import", "fio", log, "it", "--blocks", 10, "--rules", self.write("rules", text))

    def test_refusals(self):
        log = self.fio("write 0 512")
        self.refuses("absent: No such file or directory", "import", "fio", "absent", "it", "--blocks", 1)
        self.refuses(f"{self.folder}: Is a directory", "import", "fio", self.folder, "it", "--blocks", 1)
        self.refuses("invalid choice: 'strace'", "import", "strace", log, "it", "--blocks", 1, status=2)
        self.refuses("0 is not from 1", "import", "fio", log, "it", "--blocks", 0, status=2)
        self.imports("fio", log, "it", "--blocks", 1)
        self.refuses("remove it or give another name", "import", "fio", log, "it", "--blocks", 1)
