"""What the tests share: scripts that are run as a user runs them, in a folder of their own."""

import os
import shutil
import subprocess
import tempfile
import unittest

STUDY = os.path.dirname(os.path.dirname(os.path.abspath(__file__)))
TOP = os.path.dirname(STUDY)


class Ran:
    def __init__(self, ran):
        self.status, self.out, self.said = ran.returncode, ran.stdout, ran.stderr


class Case(unittest.TestCase):
    """A test in a folder that is removed behind it."""

    def setUp(self):
        self.folder = tempfile.mkdtemp(prefix="study-test-")
        self.addCleanup(shutil.rmtree, self.folder, ignore_errors=True)

    def path(self, name):
        return f"{self.folder}/{name}"

    def write(self, name, text):
        with open(self.path(name), "w", encoding="utf-8") as file:
            file.write(text)
        return self.path(name)

    def read(self, name):
        with open(self.path(name), encoding="utf-8") as file:
            return file.read()

    def run_script(self, script, *words, given=None, environment=None):
        whole = [f"{STUDY}/{script}", *map(str, words)]
        how = {"stdin": subprocess.DEVNULL} if given is None else {"input": given}
        return Ran(subprocess.run(whole, cwd=self.folder, capture_output=True, text=True, env={**os.environ, **(environment or {})}, **how))

    def passes(self, script, *words, **how):
        ran = self.run_script(script, *words, **how)
        self.assertEqual(ran.status, 0, f"{script} {words}: {ran.said}")
        return ran

    def refuses(self, why, script, *words, status=1, **how):
        """The script ends with this status, and says why in its last line and without a traceback."""
        ran = self.run_script(script, *words, **how)
        self.assertEqual(ran.status, status, f"{script} {words}: {ran.said}")
        self.assertNotIn("Traceback", ran.said)
        self.assertIn(why, ran.said.splitlines()[-1])
        return ran

    def commands(self, load, run=1, queue=1):
        """The commands of a trace, as lists of words."""
        lines = self.read(f"{load}/{run:06}.{queue:02}.trace").splitlines()
        return [it.split() for it in lines if not it.startswith("#")]

    def rows(self, name):
        lines = self.read(name).splitlines()
        return [dict(zip(lines[0].split(","), it.split(","))) for it in lines[1:]]


def program():
    """The program that tests serve runs with; a test that needs it fails without one."""
    found = os.environ.get("FDPDRIVE") or f"{TOP}/crates/fdpdrive/out/fdpdrive"
    if not os.access(found, os.X_OK):
        raise AssertionError(f"there is no program {found}, and FDPDRIVE names none")
    return found


def config(units=32, unit_pages=8, blocks=100, handles=("initial",), queues=1, listed=None, block=512, groups=1):
    """A configuration with one namespace, that lists all handles if not told otherwise."""
    budget = groups * unit_pages * (units - 2 - 3)
    area_units = -(-((5120 + 4 * budget) // block + 80) // unit_pages)
    names = ", ".join(f'"{it}"' for it in handles)
    return f"""block = {block}
unit_pages = {unit_pages}
groups = {groups}
units = {units}
area_units = {area_units}
queues = {queues}
blocks_per_command = {min(unit_pages, 64)}
fdp = [[{names}]]
enabled = true
index = 0
queue_depth = 64
collectors = 0
turns = 0

[[namespaces]]
blocks = {blocks}
handles = {list(range(len(handles))) if listed is None else listed}
"""
