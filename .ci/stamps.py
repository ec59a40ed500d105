#!/usr/bin/env python3
"""Has `rt lib` take the libraries that a whole run of `rt ci` has just proved and built, and not build them again.

usage: .ci/stamps.py      (for .ci/library alone, after such a run of the sources that stand here)

`rt ci` leaves each library in its crate's folder out, but not the sum of its sources by which `rt lib` knows it. The sum is rt's own.
Where this toolchain makes it in another way, nothing is written, and the libraries are built again.
"""
import importlib.machinery, importlib.util, os, subprocess, sys

ROOT = os.path.realpath(os.path.join(os.path.dirname(os.path.abspath(__file__)), ".."))


def of_toolchain():
    """The part of rt that knows crates."""
    page = subprocess.run(["rt", "doc"], capture_output=True, text=True, check=True).stdout.strip()
    loader = importlib.machinery.SourceFileLoader("rtlib", os.path.join(os.path.dirname(page), "bin", "rtlib.py"))
    module = importlib.util.module_from_spec(importlib.util.spec_from_loader("rtlib", loader))
    sys.modules["rtlib"] = module
    loader.exec_module(module)
    return module


def main():
    rt, known = of_toolchain(), {}
    folder = os.path.join(ROOT, "crates", "sumcheck_c")
    os.chdir(folder)
    for crate in rt.Crate(folder, ROOT, known).below():
        stamp = os.path.join(crate.folder, "out", "rlib", "stamp")
        if os.path.isdir(crate.rlib) and not os.path.exists(stamp):
            with open(stamp, "w", encoding="utf-8") as file:
                file.write(crate.stamp())


if __name__ == "__main__":
    try:
        main()
    except (OSError, AttributeError, TypeError, ValueError, subprocess.CalledProcessError) as error:
        print(f"stamps: the libraries are built again: {error}", file=sys.stderr)
