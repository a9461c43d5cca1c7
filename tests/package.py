#!/usr/bin/env python3
"""Runs a word of the package python/excp with this program excp_tools and the library in out/library, from any folder and with any
environment:

    tests/package.py PROGRAM WORD ..

The word `test` runs the excp_job beside PROGRAM, or that of `rt ci`.
"""

import os
import pathlib
import sys

sys.dont_write_bytecode = True
TOP = os.path.dirname(os.path.dirname(os.path.realpath(__file__)))
sys.path[0] = os.path.join(TOP, "python")


def carried_out(tools, words):
    """The exit status of a word of the package."""
    try:
        from excp.command.main import main
    except KeyboardInterrupt:
        # while modules are loaded
        return 130
    beside = f"{os.path.dirname(tools)}/excp_job"
    job = beside if os.path.exists(beside) else f"{TOP}/crates/excp_job/out/excp_job"
    programs = {"excp_job": job, "excp_tools": tools, "libexcp.so": f"{TOP}/out/library/libexcp.so"}
    return main(words, lambda name: pathlib.Path(programs[name]))


if __name__ == "__main__":
    sys.exit(carried_out(sys.argv[1], sys.argv[2:]))
