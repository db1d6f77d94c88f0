#!/usr/bin/env python3
"""Gives a crate the libraries that it uses, from what `rt ci` kept on this machine, so that they aren't proved again.

    kept_libraries.py NAME

Runs at the top of a copy of the repository. The libraries are those of exactly these sources and this toolchain. Fails
if one isn't kept, and prints which."""
import contextlib
import importlib.machinery
import importlib.util
import os
import shutil
import sys
from pathlib import Path


def load_rt():
    """The command `rt`, as a module."""
    loader = importlib.machinery.SourceFileLoader("rt_command", str(Path(shutil.which("rt")).resolve()))
    module = importlib.util.module_from_spec(importlib.util.spec_from_loader("rt_command", loader))
    sys.modules["rt_command"] = module
    loader.exec_module(module)
    return module


def give(rt, kept, crate):
    """Gives a library its files and the stamp by which `rt` knows them. False if they aren't kept."""
    key, stamp = kept.key(crate), Path(crate.folder, "out", "rlib", "stamp")
    shutil.rmtree(stamp.parent, ignore_errors=True)
    stamp.parent.parent.mkdir(exist_ok=True)
    if not os.path.isdir(kept.place(crate, False, key)) or not kept.give(crate, False, key):
        return False
    stamp.write_text(crate.stamp(), encoding="utf-8")
    kept.is_built(crate)
    return True


def main():
    if len(sys.argv) != 2:
        print(__doc__, file=sys.stderr)
        return 2
    rt, root = load_rt(), os.getcwd()
    if not hasattr(rt, "Kept"):
        print("this release of rt keeps nothing between runs", file=sys.stderr)
        return 1
    rt.Crate.allowed = rt.handles_of(root)
    crates = rt.crates_of(root)
    top = next(crate for crate in crates if crate.name == sys.argv[1])
    below = [crate for crate in crates if crate in top.below()]
    kept = rt.Kept([top, *below])
    for crate in below:
        with contextlib.redirect_stdout(sys.stderr):
            is_given = give(rt, kept, crate)
        if not is_given:
            print(f"{crate.name} isn't kept on this machine: run `rt ci {top.name}` first", file=sys.stderr)
            return 1
    return 0


if __name__ == "__main__":
    sys.exit(main())
