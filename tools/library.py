#!/usr/bin/env python3
"""Builds the library for C, libexcp.a and libexcp.so, and copies the headers of c/ beside them, into out/library:

    tools/library.py               with proved exports
    tools/library.py --unproved    with nothing proved, in some two minutes of one processor; with `--quiet` it prints no last line

First it proves crates/excp_c and every crate below it, as `tools/prove.py build` proves the program. It leaves that out if the
exports were proved of the sources as they are: then it costs a second, also with --unproved. The shared library exports the
functions of excp.h alone. CC names another C compiler, with options if need be. `make -C c install` installs what is built.

The statuses: 0 done, 2 a fault of the words, 3 there is no C compiler, 4 a check or the C compiler failed, and those of
tools/prove.py for builds with nothing proved.
"""

import os
import re
import shlex
import shutil
import subprocess
import sys
import tempfile

sys.dont_write_bytecode = True
sys.path.insert(0, os.path.dirname(os.path.realpath(__file__)))

import prove
import unproved_exports
from prove import FAILED, TOP, say

CRATE = "excp_c"
EXPORTS = f"{TOP}/crates/{CRATE}/out/lib{CRATE}.a"
RECORD = f"{TOP}/crates/{CRATE}/out/lib{CRATE}.proof"
HEADER = f"{TOP}/c/excp.h"
HEADERS = HEADER, f"{TOP}/c/excp_blocks.h"
SOURCE = f"{TOP}/c/excp.c"
TO = f"{TOP}/out/library"
NO_COMPILER = 3

# a function of the header
FUNCTION = re.compile(r"^(?:excp_status |const char \*|int )(excp_\w+)\(", re.M)


class NoCompiler(Exception):
    """There is no C compiler. The text is the sentence for it."""


def compiler():
    """The words of the C compiler, which has compiled a file of nothing. Raises NoCompiler."""
    given = os.environ.get("CC", "").strip()
    words = shlex.split(given) or [name for name in ("cc", "gcc", "clang") if shutil.which(name)][:1]
    if not words:
        raise NoCompiler("there is no C compiler: install gcc or clang, or name one by CC")
    if not shutil.which(words[0]):
        raise NoCompiler(f"there is no C compiler {words[0]!r}, which CC names")
    with tempfile.TemporaryDirectory() as folder:
        made = subprocess.run([*words, "-x", "c", "-c", os.devnull, "-o", f"{folder}/none.o"], capture_output=True, text=True, check=False)
    if made.returncode != 0:
        raise NoCompiler(f"the C compiler {shlex.join(words)!r} compiles nothing:\n{made.stderr.strip()}")
    return words


def proved_of(sources):
    """What the exports were proved of, if `sources` is the sum of what is proved."""
    return f"sources {sources}\nkit {prove.text_of('rt', 'version')}\nsha256 {prove.sum_of(EXPORTS)}\n"


def is_proved(sources):
    """Whether the exports are there, and were proved of these sources."""
    if not os.path.isfile(EXPORTS) or not os.path.isfile(RECORD):
        return False
    with open(RECORD, encoding="utf-8") as record:
        return record.read() == proved_of(sources)


def prove_exports():
    """Proves and builds the exports. Returns whether that went well."""
    names, below = prove.crates_below(CRATE)
    sources = prove.sum_of_sources(names)
    if is_proved(sources):
        return True
    if prove.in_lanes(names, below).done != set(names):
        return False
    if sources != prove.sum_of_sources(names):
        say("a source changed during the build: start it again")
        return False
    with open(RECORD, "w", encoding="utf-8") as record:
        record.write(proved_of(sources))
    return True


def has_run(*words, **options):
    """Runs a command, and prints what it says if it fails. Returns whether it went well."""
    it = subprocess.run(words, stdout=subprocess.PIPE, stderr=subprocess.STDOUT, text=True, check=False, **options)
    if it.returncode != 0:
        say(f"{words[0]} failed:\n{it.stdout.strip()}")
    return it.returncode == 0


def read(path):
    with open(path, encoding="utf-8") as file:
        return file.read()


def write(path, text):
    with open(path, "w", encoding="utf-8") as file:
        file.write(text)


def version():
    """The version of the sources, as its number and the one after the point."""
    return re.search(r'^pub const VERSION: &str = "(\d+)\.(\d+)";$', read(prove.VERSION), re.M).groups()


def link(cc, folder, exports, is_proved):
    """Makes both libraries in a folder, of these exports. Returns whether that went well."""
    kit = os.path.dirname(prove.text_of("rt", "doc"))
    major, minor = version()
    names = FUNCTION.findall(read(HEADER))
    with open(f"{folder}/names", "w", encoding="ascii") as file:
        file.write("{ global: " + "".join(f"{name}; " for name in names) + "local: *; };\n")
    objects, heap = f"{folder}/excp.o", f"{kit}/c/liblibc_c.a"
    flags = ["-std=c11", "-O2", "-fPIC", "-Wall", "-Wextra"]
    flags += [f'-DEXCP_VERSION="{major}.{minor}"', f"-DEXCP_IS_PROVED={int(is_proved)}"]
    shared = ["-shared", f"-Wl,-soname,libexcp.so.{major}", f"-Wl,--version-script={folder}/names", "-Wl,-z,defs"]
    add = "addlib" if exports.endswith(".a") else "addmod"
    members = f"create {folder}/libexcp.a\naddmod {objects}\n{add} {exports}\naddlib {heap}\nsave\nend\n"
    return (
        has_run(*cc, *flags, "-c", SOURCE, "-o", objects)
        and has_run(*cc, *shared, objects, exports, heap, "-o", f"{folder}/libexcp.so.{major}.{minor}")
        and has_run(f"{kit}/toolchain/bin/llvm-ar", "-M", input=members)
    )


def keep(folder, is_proved):
    """Moves what a folder has into out/library, and makes the links of the shared library. Two files beside it are for `./excp`: the
    crates that it was built of, and, if it is proved, one that says so."""
    major, minor = version()
    whole = f"libexcp.so.{major}.{minor}"
    os.makedirs(TO, exist_ok=True)
    for name, to in (f"libexcp.so.{major}", whole), ("libexcp.so", f"libexcp.so.{major}"):
        os.symlink(to, f"{folder}/{name}")
    for header in HEADERS:
        shutil.copy(header, folder)
    headers = map(os.path.basename, HEADERS)
    for name in whole, f"libexcp.so.{major}", "libexcp.so", "libexcp.a", *headers:
        os.replace(f"{folder}/{name}", f"{TO}/{name}")
    write(f"{TO}/libexcp.so.crates", " ".join(prove.crates_below(CRATE)[0]))
    if is_proved:
        write(f"{TO}/libexcp.so.proved", "")
    elif os.path.exists(f"{TO}/libexcp.so.proved"):
        os.remove(f"{TO}/libexcp.so.proved")


def exports_of(is_unproved):
    """The exports, and whether they are proved, or the status if there are none."""
    if is_unproved and not is_proved(prove.sum_of_sources(prove.crates_below(CRATE)[0])):
        status = unproved_exports.build()
        return (unproved_exports.OBJECT, False) if status == 0 else status
    return (EXPORTS, True) if prove_exports() else FAILED


def main(words):
    if words not in ([], ["--unproved"], ["--unproved", "--quiet"]):
        print(__doc__, file=sys.stderr)
        return 2
    try:
        cc = compiler()
    except NoCompiler as error:
        say(str(error))
        return NO_COMPILER
    prove.end_by_signals()
    prove.locked("build")
    found = exports_of(bool(words))
    if isinstance(found, int):
        return found
    with tempfile.TemporaryDirectory(dir=f"{TOP}/out") as folder:
        if not link(cc, folder, *found):
            return FAILED
        keep(folder, found[1])
    state = "proved" if found[1] else "not proved"
    if "--quiet" not in words:
        say(f"the library is in out/library: libexcp.a, libexcp.so and excp.h; it is {state}")
    return 0


if __name__ == "__main__":
    sys.exit(main(sys.argv[1:]))
