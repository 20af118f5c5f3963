#!/usr/bin/env python3
"""Checks a crate over libraries whose bodies are assumed, so that a change can be tried before what stands below it is proved.

bench/assumed.py FOLDER check CRATE [FLAG..]   checks CRATE with these flags of the prover, over the libraries in FOLDER; those that are not there are made
bench/assumed.py FOLDER build CRATE..          makes the libraries of these crates anew; those of crates that stand on them go

A library here has the contracts, the definitions and the lemmas of its crate; in the place of each body stands the call of a foreign function that promises what is
false. So most are there in a minute or two, the largest in five, where the proofs take ten; and it proves nothing: `rt ci` has still to prove what a check over it found.
"""
import os
import re
import shutil
import subprocess
import sys

TOP = os.path.dirname(os.path.dirname(os.path.abspath(__file__)))
NEVER = """//! What never returns, and promises what is false.
#![tactic(auto)]

unsafe extern "C" {
    safe fn never_returns(x: u8) -> u8
        ensures { ⊥ };
}

/// It never returns.
pub fn never()
    ensures { ⊥ }
{
    let _ = never_returns(0);
}
"""
HEAD = re.compile(r'^( *)(?:pub(?:\([a-z]+\))? )?(?:final )?(const )?(?:unsafe )?(?:extern "C" )?fn ')
CLAUSE = re.compile(r" *(requires|ensures)\b")


def without_bodies(lines):
    """The lines of a file with assumed bodies, and without tests. A constant function keeps its body, since it is computed."""
    out, at = [], 0
    while at < len(lines):
        head = HEAD.match(lines[at])
        if lines[at].strip() == "#[cfg(test)]":
            at += 2
        elif head is None or head.group(2):
            out.append(lines[at])
            at += 1
        else:
            at = without_body(lines, at, head.group(1), out)
    return out


def without_body(lines, at, indent, out):
    """Puts the function that begins at a line behind what is there, with an assumed body where it has one; the line behind it."""
    while not ends_signature(lines[at], indent):
        out.append(lines[at])
        at += 1
    line = lines[at]
    if line.endswith(";"):
        out.append(line)
        return at + 1
    if not line.startswith(indent + "{"):
        out.append(line[: line.index(" {")] if line.endswith("{") else line[: line.rindex(" {")])
    out += [indent + "{", indent + "    never::never();", indent + "    unreachable!()", indent + "}"]
    if line.endswith("{"):
        while lines[at] != indent + "}":
            at += 1
    return at + 1


def ends_signature(line, indent):
    """Whether a line is the last of the signature of a function, or of its clauses. A line that closes more than it opens ends a clause of several lines."""
    if line.startswith(indent + "{") or line.endswith(";"):
        return True
    return CLAUSE.match(line) is None and line.endswith(("{", "}")) and line.count("{") >= line.count("}")


class Libraries:
    """The libraries in a folder."""

    def __init__(self, folder):
        self.folder = os.path.abspath(folder)
        self.kit = os.path.dirname(subprocess.run(["rt", "doc"], capture_output=True, text=True, check=True).stdout.strip())
        self.below = {}
        for line in open(os.path.join(TOP, "crates.txt")):
            name, _, names = line.partition(":")
            self.below[name.split()[0]] = names.split()
        self.below["never"] = []

    def library(self, name):
        folder = self.folder if name in self.below else os.path.join(self.kit, "rlibs")
        return os.path.join(folder, name + ".rlib")

    def run(self, verb, name, source, below, flags):
        """Runs the prover on a crate over libraries of these names; whether it is content."""
        command = [os.path.join(self.kit, "bin", "rattle"), verb, "--crate-name", name, "src/lib.rt"]
        for other in ["std"] + below:
            command += ["--extern", other + "=" + self.library(other)]
        command += ["-L", "dependency=" + self.folder, "-L", "dependency=" + os.path.join(self.kit, "rlibs")]
        command += ["--antt-project", os.path.join(self.kit, "rattle", "logic", "antt-project.json")]
        command += ["--logic-built", os.path.join(self.kit, "logic_built")]
        return subprocess.run(command + flags, cwd=source).returncode == 0

    def make(self, name):
        """Makes the library of a crate, and before it those that are not there of the crates below."""
        source = os.path.join(self.folder, "sources", name)
        shutil.rmtree(source, ignore_errors=True)
        if name == "never":
            os.makedirs(os.path.join(source, "src"))
            open(os.path.join(source, "src", "lib.rt"), "w").write(NEVER)
            below = []
        else:
            below = self.below[name] + ["never"]
            for other in below:
                if not os.path.isdir(self.library(other)):
                    self.make(other)
            self.copy(name, source)
        if not self.run("build", name, source, below, ["-o", self.library(name)]):
            sys.exit("assumed: no library of " + name)

    def copy(self, name, source):
        """Copies a crate without its bodies, and without the proofs of functions, whose folders have the names of files."""
        crate = os.path.join(TOP, "crates", name)
        for part in ("src", "specs", "proofs"):
            if os.path.isdir(os.path.join(crate, part)):
                shutil.copytree(os.path.join(crate, part), os.path.join(source, part), ignore=shutil.ignore_patterns("tests.rt"))
        proofs = os.path.join(source, "proofs")
        for entry in os.listdir(proofs) if os.path.isdir(proofs) else []:
            if entry[0].islower():
                shutil.rmtree(os.path.join(proofs, entry))
        for folder, _, files in os.walk(os.path.join(source, "src")):
            for file in files:
                path = os.path.join(folder, file)
                text = "\n".join(without_bodies(open(path).read().split("\n")))
                open(path, "w").write(text)

    def drop(self, name):
        """Takes away the library of a crate and those that stand on it."""
        shutil.rmtree(self.library(name), ignore_errors=True)
        for other, names in self.below.items():
            if name in names and os.path.isdir(self.library(other)):
                self.drop(other)


def main():
    if len(sys.argv) < 4 or sys.argv[2] not in ("check", "build"):
        sys.exit(__doc__)
    libraries = Libraries(sys.argv[1])
    if sys.argv[2] == "build":
        for name in sys.argv[3:]:
            libraries.drop(name)
        for name in sys.argv[3:]:
            libraries.make(name)
        return
    name, flags = sys.argv[3], sys.argv[4:]
    for other in libraries.below[name]:
        if not os.path.isdir(libraries.library(other)):
            libraries.make(other)
    kept = os.path.join(libraries.folder, "kept", name)
    os.makedirs(kept, exist_ok=True)
    source = os.path.join(TOP, "crates", name)
    sys.exit(0 if libraries.run("check", name, source, libraries.below[name], ["--incremental", kept] + flags) else 1)


main()
