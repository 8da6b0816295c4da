#!/usr/bin/env python3
"""Calls the prover itself (`rattle check --help` says what the words mean) over the libraries that `rt ci` or `rt check` built in
the crates' folders. `rt ci` leaves libraries of statements alone: over these a check is done sooner than over those of `rt check`.
The environment's MALLARDTRAY_BUILT says that `rt ci` just built them; else `rt check` is asked to.
  prover.py archive CRATE FILE    proves a static library, and compiles it into FILE"""
import os
import pathlib
import shutil
import subprocess
import sys

sys.dont_write_bytecode = True
import cratelist
from cratelist import top

PARTS = ("src", "specs", "proofs")
kit = pathlib.Path(shutil.which("rt") or "rt").resolve().parent.parent


def words(crate):
    """The words by which the prover finds the crate's root, the libraries below it and the logic."""
    rlib = lambda name: top / "crates" / name / "out" / "rlib" / f"{name}.rlib"
    found = ["--crate-name", crate, "src/main.rt" if cratelist.is_program(crate) else "src/lib.rt"]
    found += ["--extern", f"std={kit}/rlibs/std.rlib", "-L", f"dependency={kit}/rlibs"]
    for name in cratelist.listed()[crate][1]:
        found += ["--extern", f"{name}={rlib(name)}"]
    for name in cratelist.below()[crate]:
        found += ["-L", f"dependency={rlib(name).parent}"]
    found += ["--antt-project", f"{kit}/rattle/logic/antt-project.json", "--logic-built", f"{kit}/logic_built", "--links", f"{crate}="]
    return found + ["--crate-type", "staticlib"] * cratelist.is_static(crate)


def build_below(crate):
    """Builds the libraries below the crate, and proves it, where that is still to do. It gives what rt says where it does not."""
    if os.environ.get("MALLARDTRAY_BUILT"):
        return ""
    how = {"stdin": subprocess.DEVNULL, "stdout": subprocess.PIPE, "stderr": subprocess.STDOUT, "text": True, "errors": "replace"}
    ran = subprocess.run(["rt", "check", "--jobs", "1"], cwd=top / "crates" / crate, **how)
    return ran.stdout[-1000:] if ran.returncode else ""


def copy(crate, folder):
    """Copies the crate's texts into the folder."""
    for part in PARTS:
        if (top / "crates" / crate / part).is_dir():
            shutil.copytree(top / "crates" / crate / part, folder / part)


def check(crate, folder, proved):
    """Checks a copy of the crate over what the folder `proved` keeps, and keeps there what it proves. It gives what the prover says,
    and the processor seconds that it took."""
    command = [kit / "bin" / "rattle", "check", *words(crate), "--jobs", "1", "--incremental", proved]
    how = {"stdin": subprocess.DEVNULL, "stdout": subprocess.PIPE, "stderr": subprocess.STDOUT, "text": True, "errors": "replace"}
    with subprocess.Popen(command, cwd=folder, **how) as ran:
        said = ran.stdout.read()
        _, status, used = os.wait4(ran.pid, 0)
        ran.returncode = os.waitstatus_to_exitcode(status)
    return said, used.ru_utime + used.ru_stime


def archive(crate, file):
    """Proves a static library and compiles it."""
    command = [kit / "bin" / "rattle", "build", *words(crate), "--toolchain", kit / "toolchain", "--backend", "llvm", "-o", file]
    return subprocess.run(command, cwd=top / "crates" / crate, stdin=subprocess.DEVNULL).returncode


if __name__ == "__main__":
    if len(sys.argv) != 4 or sys.argv[1] != "archive":
        sys.exit(__doc__)
    sys.exit(archive(sys.argv[2], os.path.abspath(sys.argv[3])))
