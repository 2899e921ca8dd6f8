#!/usr/bin/env python3
"""Builds the static library, libfikrem.a, of the crate fikrem_c, for every x86-64 processor.

`rt lib` builds it, and proves each crate below it that isn't proved in this checkout. With --after-ci, right after `rt ci` in a clean clone, it is built over
the libraries that this left in crates/*/out: rt lib would prove them once more, and here the crate itself is checked alone, as it is compiled.
"""
import argparse
import pathlib
import shutil
import subprocess
import sys
import time

ROOT = pathlib.Path(__file__).resolve().parent.parent
CRATE = "fikrem_c"
# left out, the kit compiles for x86-64-v2, and a unit without its instructions would stop there
PROCESSOR = ["--cpu", "x86-64"]


def crates():
    """The crates of crates.txt, each with the crates that it uses."""
    found = {}
    for line in (ROOT / "crates.txt").read_text().splitlines():
        head, _, uses = line.partition("#")[0].partition(":")
        if head.strip():
            found[head.split()[0]] = uses.split()
    return found


def build_over_ci(archive):
    """The command that checks the crate over the libraries that rt ci left, and compiles it."""
    kit = pathlib.Path(subprocess.run(["rt", "doc"], stdout=subprocess.PIPE, text=True, check=True).stdout.strip()).parent
    known = crates()
    words = [kit / "bin/rattle", "build", "--crate-name", CRATE, "src/lib.rt", "--crate-type", "staticlib"]
    for use in known[CRATE]:
        words += ["--extern", f"{use}=../{use}/out/rlib/{use}.rlib"]
    # the other crates below it are found by their names
    for below in known:
        words += ["-L", f"dependency=../{below}/out/rlib"]
    words += ["--extern", f"std={kit}/rlibs/std.rlib", "-L", f"dependency={kit}/rlibs"]
    words += ["--antt-project", kit / "rattle/logic/antt-project.json", "--logic-built", kit / "logic_built", "--links", f"{CRATE}="]
    return words + ["--toolchain", kit / "toolchain", "--backend", "llvm", *PROCESSOR, "-o", archive]


def main():
    parser = argparse.ArgumentParser(description=__doc__, formatter_class=argparse.RawDescriptionHelpFormatter)
    parser.add_argument("--after-ci", action="store_true", help="build over what rt ci left")
    parser.add_argument("to", nargs="?", type=pathlib.Path, default=ROOT / "target/staticlib", help="the archive's folder, target/staticlib if left out")
    wanted = parser.parse_args()
    wanted.to.mkdir(parents=True, exist_ok=True)
    began, folder, archive = time.monotonic(), ROOT / "crates" / CRATE, wanted.to.resolve() / "libfikrem.a"
    command = build_over_ci(archive) if wanted.after_ci else ["rt", "lib", *PROCESSOR]
    if subprocess.run(command, cwd=folder).returncode:
        sys.exit("archives.py: the library is not built")
    if not wanted.after_ci:
        shutil.copyfile(folder / f"out/lib{CRATE}.a", archive)
    print(f"{archive.name}: {time.monotonic() - began:.0f} s", flush=True)


main()
