#!/usr/bin/env python3
"""Builds the static library for C, crates/rvdyn_c/out/librvdyn_c.a, over the libraries as they stand in out/: as `rt ci` leaves them in
a new clone, where it has proved rvdyn_c and not built it. There `rt lib` would prove every crate below once more. It takes what stands
there, and tells where a library is missing."""
from __future__ import annotations

import argparse
import importlib.machinery
import importlib.util
import os
import sys
from pathlib import Path

from ending import end

TOP = Path(__file__).resolve().parents[1]


def main() -> int:
    argparse.ArgumentParser(description=__doc__, formatter_class=argparse.RawDescriptionHelpFormatter).parse_args()
    loader = importlib.machinery.SourceFileLoader("mutants", str(TOP / "tools/mutants"))
    mutants = importlib.util.module_from_spec(importlib.util.spec_from_loader("mutants", loader))
    loader.exec_module(mutants)
    rtlib = mutants.load_rt().rtlib
    crate = next(it for it in rtlib.crates_below(str(TOP)) if it.name == "rvdyn_c")
    if lacking := [it.name for it in crate.below() if not os.path.isdir(it.rlib)]:
        sys.exit(f"c_library: {lacking[0]} is not built: crates/rvdyn_c: rt lib")
    os.makedirs(f"{crate.folder}/out", exist_ok=True)
    return crate.build_static(["--jobs", "1"])


if __name__ == "__main__":
    end(main)
