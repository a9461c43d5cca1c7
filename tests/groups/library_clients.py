"""The library for C and Python: its answers and posts are those of the program; the examples; memory that runs out; calls at
random.

`tests/library/driver.py` carries scripts and scenarios out through the Python package. All stored and made scenarios, stored
scripts, and jobs at random are compared with what the program prints, and media with what it saves. Images at fault are judged as
tests/formats.py judges them. The programs of examples/c and tests/library are built with
each C compiler that is there, and run alone, with sanitizers and under valgrind.
"""

import glob
import io
import os
import random
import re
import shutil
import sys
import tarfile
import tempfile
import zipfile

from groups import images
from groups import random as at_random
from harness import SAMPLES, TOP, Case, Failed, Skipped, expect, files, multiple, outcome, read, require, run

# The library, what says that its exports were proved, and what `build` found: what lacks, or a run that failed.
FOLDER = f"{TOP}/out/library"
PROOF = f"{TOP}/crates/excp_c/out/libexcp_c.proof"
LIBRARY = {}

# The status of tools/library.py without a C compiler.
NO_COMPILER = 3

BUILT = f"{TOP}/out/library_clients"
DRIVER = f"{TOP}/tests/library/driver.py"
EXAMPLE = f"{TOP}/examples/python/test_channel_program.py"
UNIT_TESTS = [sys.executable, "-B", "-m", "unittest", "discover", "-q", "-s", "tests", "-t", "."]

# How many jobs at random there are, also in the long form, and how many are one case.
JOBS = 200
JOBS_LONG = 10000
BATCH = 25

# For how many seconds calls are made at random, alone and under a checker of memory.
SECONDS = 4
SECONDS_LONG = 600

# How many requests a site serves, and after how many a checkpoint comes.
USES = "100000", "100"
USES_LONG = "100000000", "1000000"

STRICT = ["-std=c99", "-Wall", "-Wextra", "-Werror", "-pedantic", "-g", "-O1"]
SANITIZERS = ["-fsanitize=address,undefined", "-fno-sanitize-recover=all", "-fno-omit-frame-pointer"]
COMPILERS = "gcc", "clang"
SHARED = [f"-L{FOLDER}", f"-Wl,-rpath,{FOLDER}", "-lexcp"]
STATIC = [f"{FOLDER}/libexcp.a"]
VALGRIND = ["valgrind", "-q", "--soname-synonyms=somalloc=nouserintercepts", "--error-exitcode=99", "--leak-check=full",
            "--show-leak-kinds=definite,indirect,possible", "--errors-for-leak-kinds=definite,indirect,possible"]

# The C programs with their sources, and what they print if that is known.
#
# search_disk, by docs/SPECIFICATION.md. Each program is a search at 1030, a transfer at 1038, and a read or a write at 1040.
# - Request 1: the fault ends the first search with unit check and sense 0800, which is tried again (6.1). Then a search passes R0,
#   one finds record 1, and the read moves its 8 bytes: code 7F, the CCW at 1040 plus 8, unit status 0C, nothing residual (4.13).
# - Request 2: it runs, and one search was done. The halt posts it 48 (7.4), with the status 0C00 of a running program, and the
#   CCW address and the residual count of that search: 1038, and 0 of its 5 bytes (5.3). Nothing was read.
# - Requests 3 and 4 end as 1 does. The image has the header of 512 bytes and the track of 64 (docs/FORMATS.md), so does not grow.
PRINTS = {
    "examples/c/copy_tape": read(f"{TOP}/crates/example_print_tape/stdout"),
    "examples/c/threads": "task 0: 1000 requests ended\ntask 1: 1000 requests ended\n",
    "examples/c/search_disk": """pending 1 again 1
post 0 0 1 7F 001048 0C00 0000 0000 FIRST...
active 1
post 0 0 2 48 001038 0C00 0000 0000 ........
post 0 0 3 7F 001048 0C00 0000 0000 CHANGED.
image of 576 bytes: CHANGED.
post 0 0 4 7F 001048 0C00 0000 0000 CHANGED.
""",
}

# What the examples in C++ and Rust print, by docs/SPECIFICATION.md.
#
# read_tape: a read of 16 bytes moves the 5 and the 12 of the blocks, so 11 and 4 are residual, and SLI keeps 7F (4.14). The read at
# the mark is unit exception, unit status 0D, which is posted 41 (6.1, 10.5).
# print_line: one command, the CCW at 1030, so the CSW has 1038. The ECB has the code in its first byte (3.5).
READ_TAPE = "000B FIRST\n0004 SECOND BLOCK\ncode 41, unit status 0D\n"
PRINT_LINE = "request 1 of DCB 1 at unit 0: code 7F at 001038\nposts 1, commands 1, ECB 7F\n"
COMMANDS, OUT_OF_MEMORY = "tests/library/commands", "tests/library/out_of_memory"
FUZZ, LONG_USE = "tests/library/fuzz", "tests/library/long_use"
REQUESTS, VOLUME = "tests/library/requests", "tests/library/volume"

# How many cylinders the volume has whose memory is measured: 2.4 MiB, or 203.
CYLINDERS, CYLINDERS_LONG = "10", "841"

# The most memory of a site, in times of the bytes of its volume: with it mounted, while it is mounted, during a checkpoint.
MEMORY = 2.2, 2.2, 2.2

# How many times the instructions of the same calls in Rattle, a site cycle of bench_steps, a request from C takes at most.
MOST_TIMES = 1.3


def needs(*tools):
    """Skips a case whose tools are missing, or the library. Fails if the library does not build."""
    for tool in tools:
        if not shutil.which(tool):
            raise Skipped(f"{tool} is not installed")
    if LIBRARY.get("failed"):
        raise Failed("tools/library.py does not build the library", LIBRARY["failed"], None, LIBRARY["failed"].text())
    if LIBRARY.get("lacks"):
        raise Skipped(LIBRARY["lacks"])


def build():
    """Builds the library of the sources as they are, if its exports are proved: that takes seconds."""
    LIBRARY.clear()
    if os.path.exists(PROOF):
        ran = run([f"{TOP}/tools/library.py"], timeout=3600)
        if ran.status == NO_COMPILER:
            LIBRARY["lacks"] = "there is no C compiler"
        elif ran.status:
            LIBRARY["failed"] = ran
    elif not os.path.exists(f"{FOLDER}/libexcp.so"):
        LIBRARY["lacks"] = "there is no library: tools/library.py builds it, with --unproved in minutes"


def without_words():
    """The environment, without what could lead Python elsewhere."""
    return {key: it for key, it in os.environ.items() if key not in ("EXCP_LIBRARY", "PYTHONPATH", "PYTHONHOME")}


# --- scripts through the library


def driven(texts):
    """What the driver prints of each script, and its run."""
    needs()
    with tempfile.TemporaryDirectory() as folder:
        names = [f"{folder}/{at}.script" for at in range(len(texts))]
        for name, text in zip(names, texts):
            with open(name, "w", encoding="ascii", newline="") as it:
                it.write(text)
        ran = run([sys.executable, "-B", DRIVER, "run", *names], timeout=600, env=without_words())
    if len(texts) == 1:
        return [ran.out], ran
    prints = [part.partition("\n")[2] for part in ran.out.split("=== ")[1:]]
    return prints + [None] * (len(texts) - len(prints)), ran


def prints_the_same(setup, texts):
    """The driver prints of each script what the program prints."""
    found, through = driven(texts)
    for text, actual in zip(texts, found):
        ran = setup.run("run", script=text)
        require((ran.status, ran.err) == (0, ""), "the program fails", ran)
        if actual != ran.out:
            raise Failed("the library gives something else", ran, ran.out, through.text() if actual is None else actual)
    require(through.status == 0, "the driver fails", through)


def posts_are_those_stored(script, wanted):
    """The driver prints one of some stored texts."""
    _, ran = driven([script])
    ran.input = script
    expect(ran, *((0, it) for it in wanted))


def stored_scripts():
    """The names, scripts and possible posts of the scripts that run: those of samples/ and of tests/cases/scripts."""
    for file in sorted(glob.glob(f"{SAMPLES}/*.script")):
        name = file.removesuffix(".script")
        texts = [read(it) for it in (f"{name}.posts", f"{name}.or.posts") if os.path.exists(it)]
        yield os.path.relpath(file, TOP), read(file), texts
    for file in files("scripts", ".posts"):
        for name, script, wanted, place in multiple(file):
            if wanted.startswith(("post ", "end ")):
                yield f"{name}, {place}", script, [wanted]


# --- jobs at random


def without_races(lines):
    """A job of the group random whose posts do not depend on a race: each unit has one task, and a task waits before a control."""
    for line in lines:
        word, *words = line.split()
        if word == "wait":
            yield line
            continue
        task = words[0] if word == "purgetask" else str(int(words[1]) % 2)
        if word != "excp":
            yield f"wait {task}"
        words[0] = task
        if word == "purgetask":
            words[1] = task
        yield " ".join([word, *words])


def jobs_are_the_same(setup, seed):
    """Jobs at random have the same posts."""
    chance = random.Random(seed)
    jobs = [at_random.job_at_random(chance, at_random.STEPS).lines for _ in range(BATCH)]
    scripts = ["\n".join([*at_random.SET_UP, *without_races(it), ""]) for it in jobs]
    prints_the_same(setup, scripts)


# --- images


def are_loaded(name_of, texts):
    """The library keeps each image, or says its first fault with its byte."""
    needs()
    with tempfile.TemporaryDirectory(dir=images.in_memory(sum(map(len, texts)))) as folder:
        for number, image in enumerate(texts):
            images.write(f"{folder}/{number}", image)
        ran = run([sys.executable, "-B", DRIVER, "load", *map(str, range(len(texts)))], cwd=folder, timeout=600,
                  env=without_words())
        said = dict(re.findall(r"(?m)^(\d+): (.*)$", ran.out))
        require((ran.status, ran.err, len(said)) == (0, "", len(texts)), f"{name_of}: an image is not judged", ran)
        for number, image in enumerate(texts):
            is_kept = said[str(number)] == "kept"
            images.is_right(number, image, None if is_kept else said[str(number)], is_kept, of_library=True)


def are_saved(setup, script, *loaded):
    """The library prints the posts of a script, and makes the images, that the program prints and saves. `loaded` are images by
    the numbers of their units; a unit without one is unit 0."""
    needs()
    with tempfile.TemporaryDirectory() as folder:
        for number, image in enumerate(loaded):
            images.write(f"{folder}/{number}", image)
        images.write(f"{folder}/script", script.encode("ascii"))
        units = range(max(1, len(loaded)))
        words = [word for it in range(len(loaded)) for word in ("--load", f"{it}={it}")]
        words += [word for it in units for word in ("--save", f"{it}=program{it}")]
        saved = run(setup.command("report", "--posts", *words, "script"), cwd=folder, timeout=300)
        require((saved.status, saved.err) == (0, ""), "the program fails", saved)
        pairs = [f"{it}={it}" for it in range(len(loaded))] + [f"library{it}={it}" for it in units]
        ran = run([sys.executable, "-B", DRIVER, "run", *pairs, "script"], cwd=folder, timeout=300, env=without_words())
        if (ran.status, ran.out, ran.err) != (0, saved.out, ""):
            raise Failed("the library gives something else", saved, saved.out, ran.text())
        for unit in units:
            one, other = (images.bytes_of(f"{folder}/{it}{unit}") for it in ("program", "library"))
            require(one == other, f"unit {unit}: the library makes another image than the program")


def block_is_rewritten(setup):
    """The job of tests/groups/images.py that rewrites a block of a data set."""
    with tempfile.TemporaryDirectory() as folder:
        images.loaded_volume(folder)
        are_saved(setup, images.script_of(setup, "vtoc.symbolic", folder), images.bytes_of(f"{folder}/old"))


def data_set_is_appended(setup):
    with tempfile.TemporaryDirectory() as folder:
        items = images.tape_with_labels()
        image = images.formats.image_of(images.formats.Tape(items, images.labelled_chunks(items)))
        are_saved(setup, images.script_of(setup, "append.symbolic", folder), image)


def of_images(setup):
    origin = "tests/formats.py, by docs/FORMATS.md"
    for name, texts in images.hostile():
        for number, part in enumerate(images.parted(texts), 1):
            yield Case(f"images: {name}, {number}", lambda n=name, p=part: are_loaded(n, p), origin)
    for name in "w.aws", "wnc.het", "load2311.img":
        yield Case(f"images: {name}", lambda n=name: are_loaded(n, [images.bytes_of(f"{images.STORED}/{n}")]), origin)
    origin = "the program, by docs/FORMATS.md"
    yield Case("images: a block of a data set is rewritten", lambda: block_is_rewritten(setup), origin)
    yield Case("images: a data set is appended to a tape", lambda: data_set_is_appended(setup), origin)
    yield Case("images: a paper", lambda: are_saved(setup, read(f"{SAMPLES}/print-pages.script")), origin)


# --- programs in C


def compiled(compiler, program, name, *words, link=SHARED):
    """A program in C, built against the library."""
    needs(compiler)
    os.makedirs(BUILT, exist_ok=True)
    built = f"{BUILT}/{os.path.basename(program)}-{compiler}-{name}"
    ran = run([compiler, *STRICT, *words, f"-I{FOLDER}", f"{TOP}/{program}.c", "-o", built, *link, "-pthread"], timeout=300)
    require((ran.status, ran.out, ran.err) == (0, "", ""), "it does not compile without a warning", ran)
    return built


def ends_well(words, prints=None, seconds=300):
    """A program ends with status 0 and nothing on standard error, and prints this, or something, which is a note."""
    ran = run(words, timeout=seconds, env=without_words())
    if (ran.status, ran.err) != (0, "") or ran.out == "" or (prints and ran.out != prints):
        raise Failed("another outcome", ran, outcome(0, prints or "(a line)\n"), ran.text())
    return ran.out.strip() if not prints else ""


def runs_in_c(compiler, program, *given, seconds=300):
    return ends_well([compiled(compiler, program, "plain"), *given], PRINTS.get(program), seconds)


def runs_sanitized(compiler, program, *given, seconds=300):
    ends_well([compiled(compiler, program, "sanitized", *SANITIZERS), *given], PRINTS.get(program), seconds)


def runs_static(compiler, program):
    """It has the library in it."""
    ends_well([compiled(compiler, program, "static", link=STATIC)], PRINTS.get(program))


def runs_in_valgrind(program, *given, seconds=300):
    needs("valgrind", "gcc")
    ends_well([*VALGRIND, compiled("gcc", program, "checked"), *given], PRINTS.get(program), seconds)


def shares_by_its_lock():
    """Helgrind finds no access to the shared site without the lock."""
    needs("valgrind", "gcc")
    program = "examples/c/threads"
    ends_well(["valgrind", "-q", "--tool=helgrind", "--error-exitcode=99", compiled("gcc", program, "helgrind")], PRINTS[program])


def is_made(compiler):
    """The Makefile of the examples builds them."""
    needs(compiler, "make")
    with tempfile.TemporaryDirectory() as folder:
        ran = run(["make", "-C", f"{TOP}/examples/c", f"CC={compiler}", f"OUT={folder}"], timeout=300)
        require((ran.status, ran.err) == (0, ""), "the examples are not made", ran)
        for program, prints in PRINTS.items():
            ends_well([f"{folder}/{os.path.basename(program)}"], prints)


def saves_its_disk():
    """search_disk writes the image that docs/FORMATS.md says: record 2 has other data, and all else is as it was."""
    built = compiled("gcc", "examples/c/search_disk", "plain")
    count = lambda number: bytes([0, 0, 0, 0, number, 0, 0, 8])
    header = b"CKD_P370" + bytes([1, 0, 0, 0, 64, 0, 0, 0, 0x90])
    track = bytes(5) + count(0) + bytes(8) + count(1) + b"FIRST..." + count(2) + b"CHANGED." + b"\xFF" * 8
    with tempfile.TemporaryDirectory() as folder:
        ends_well([built, f"{folder}/image"], PRINTS["examples/c/search_disk"])
        require(images.bytes_of(f"{folder}/image") == header.ljust(512, b"\0") + track.ljust(64, b"\0"), "another image")


def runs_in_cpp(compiler):
    """The example in C++ compiles without a warning, and runs."""
    needs(compiler)
    os.makedirs(BUILT, exist_ok=True)
    built = f"{BUILT}/read_tape-{compiler}"
    strict = ["-std=c++11", "-Wall", "-Wextra", "-Werror", "-pedantic", f"-I{FOLDER}"]
    ran = run([compiler, *strict, f"{TOP}/examples/cpp/read_tape.cpp", "-o", built, *SHARED], timeout=300)
    require((ran.status, ran.out, ran.err) == (0, "", ""), "it does not compile without a warning", ran)
    ends_well([built], READ_TAPE)


def runs_in_rust():
    """The example in Rust compiles without a warning, and runs."""
    needs("rustc")
    os.makedirs(BUILT, exist_ok=True)
    words = ["rustc", "-D", "warnings", "-L", FOLDER, "-C", f"link-arg=-Wl,-rpath,{FOLDER}", "-o", f"{BUILT}/print_line"]
    ran = run([*words, f"{TOP}/examples/rust/print_line.rs"], timeout=300)
    require((ran.status, ran.out, ran.err) == (0, "", ""), "it does not compile without a warning", ran)
    ends_well([f"{BUILT}/print_line"], PRINT_LINE)


def is_a_header(name, compiler, language):
    """A header compiles alone, as C or as C++."""
    needs(compiler)
    words = ["-Wall", "-Wextra", "-Werror", "-pedantic", "-fsyntax-only", "-include", f"{FOLDER}/{name}"]
    ran = run([compiler, *words, "-x", *language, os.devnull])
    require((ran.status, ran.out, ran.err) == (0, "", ""), "it does not compile without a warning", ran)


# --- cost


def instructions(words_for):
    """How many instructions a program takes for one request, by the difference of two runs. It has these words for a count."""
    counts = []
    for count in 200, 600:
        words = ["valgrind", "--tool=callgrind", "--callgrind-out-file=/dev/null", *words_for(str(count))]
        ran = run(words, timeout=300, env=without_words())
        found = re.search(r"Collected : (\d+)", ran.err)
        require(ran.status == 0 and found, "no instructions are counted", ran)
        counts.append(int(found[1]))
    return (counts[1] - counts[0]) / 400


def costs_little():
    """A request from C takes little more than the same calls in Rattle."""
    needs("valgrind", "gcc")
    speed = f"{TOP}/crates/bench_steps/out/bench_steps"
    if not os.path.exists(speed):
        raise Skipped("bench_steps is not built: `rt run` in crates/bench_steps")
    built = compiled("gcc", REQUESTS, "measured", "-O2")
    book, site = (instructions(lambda count, it=it: [speed, count, f"{it} cycles"]) for it in ("book", "site"))
    events, served = (instructions(lambda count, it=it: [built, it, count]) for it in ("events", "serve"))
    text = f"instructions of a request: {events:.0f} by events, {served:.0f} by excp_serve"
    text = f"{text}; a site cycle has {site:.0f}, a book cycle {book:.0f}"
    require(max(events, served) <= MOST_TIMES * site, f"{text}; at most {MOST_TIMES} times those of a site")
    return text


def takes_memory(cylinders):
    """A volume takes no more memory than docs/CLIENT.md says, after a mount and during a checkpoint."""
    text = ends_well([compiled("gcc", VOLUME, "measured", "-O2"), cylinders, "1000"])
    times = [float(it) for it in re.findall(r"\d+\.\d\d(?= times| at the most| during)", text)]
    require(len(times) == 3 and all(one <= most for one, most in zip(times, MEMORY)), f"{text}; at most {MEMORY} times")
    return text


# --- Python


# How many requests are measured through Python.
MEASURED = "20000"


def requests_in_python():
    """tests/library/requests.py ends well, whose times docs/CLIENT.md has."""
    needs()
    lines = [ends_well([sys.executable, "-B", f"{TOP}/{REQUESTS}.py", how, MEASURED]) for how in ("one", "each")]
    return f"of one area: {lines[0]}; each of its own: {lines[1]}"


def unit_tests_pass():
    needs()
    ran = run(UNIT_TESTS, cwd=f"{TOP}/python", env=without_words(), timeout=300)
    require(ran.status == 0 and "\nOK" in ran.err, "a unit test fails", ran)


def example_passes():
    needs()
    ends_well([sys.executable, "-B", EXAMPLE],
              "".join(f"{it}: passed\n" for it in re.findall(r"^def (test_\w+)", read(EXAMPLE), re.M)))


def is_installed(*how):
    """pip installs the package without a network in a new environment, and the example runs there."""
    needs()
    with tempfile.TemporaryDirectory() as folder:
        made = run([sys.executable, "-m", "venv", folder], timeout=300)
        if made.status:
            raise Skipped("python3 has no venv")
        python = f"{folder}/bin/python"
        environment = {**without_words(), **OFFLINE}
        ran = run([python, "-m", "pip", "install", *how, f"{TOP}/python"], env=environment, cwd=folder, timeout=300)
        require(ran.status == 0, "pip does not install it", ran)
        where = run([python, "-c", "import excp; print(excp.__file__)"], env=environment, cwd=folder)
        expected = f"{TOP}/python/excp" if how else f"{folder}/lib"
        require(where.out.startswith(expected), f"the package is not in {expected}", where)
        shutil.copy(EXAMPLE, folder)
        ran = run([python, "-B", f"{folder}/{os.path.basename(EXAMPLE)}"], env=environment, cwd=folder)
        require((ran.status, ran.err) == (0, "") and ran.out.count(": passed\n") == 5, "the example fails", ran)
        code, due = (re.sub("(?m)^    ", "", it) for it in PAGE_BLOCK.findall(read(f"{TOP}/python/README.md")))
        expect(run([python, "-B", "-c", code], env=environment, cwd=folder), (0, due, ""))


# The blocks of a page: a program, and what it prints.
PAGE_BLOCK = re.compile(r"(?m)(?:^    .*\n(?:\n(?=    ))?)+")

# What pip does without a network, whatever was installed before.
OFFLINE = {"PIP_NO_INDEX": "1", "PIP_DISABLE_PIP_VERSION_CHECK": "1"}


def is_not_installed():
    """Without a library pip installs nothing, and names the command that makes one."""
    with tempfile.TemporaryDirectory() as folder:
        environment = {**without_words(), **OFFLINE, "EXCP_LIBRARY": f"{folder}/libexcp.so"}
        ran = run([sys.executable, "-m", "pip", "wheel", "-w", folder, f"{TOP}/python"], env=environment, cwd=folder, timeout=300)
        if "No module named pip" in ran.err:
            raise Skipped("python3 has no pip")
        text = f"there is no {folder}/libexcp.so, so the wheel would lack the library."
        require(ran.status != 0 and text in ran.out + ran.err, "pip does not say what is missing", ran)
        require("tools/library.py --unproved" in ran.out + ran.err and "Traceback" not in ran.out + ran.err, "pip names no command", ran)
        require(os.listdir(folder) == [], "a wheel is there", ran)


# Calls a hook of the backend, in a folder with its sources. The words are its name and where it writes to.
HOOK = "import sys, wheel_backend; print(getattr(wheel_backend, sys.argv[1])(sys.argv[2]))"


def is_archived():
    """The source archive has what the wheel is built of, and the wheel that is built of it has the same files."""
    needs()
    environment = {**without_words(), "EXCP_LIBRARY": f"{FOLDER}/libexcp.so", "PYTHONDONTWRITEBYTECODE": "1"}
    with tempfile.TemporaryDirectory() as folder:
        call = lambda name, where: run([sys.executable, "-c", HOOK, name, folder], cwd=where, env=environment)
        expect(call("build_sdist", f"{TOP}/python"), (0, f"excp-{version()}.tar.gz\n", ""))
        with tarfile.open(f"{folder}/excp-{version()}.tar.gz") as archive:
            require(all(it.isfile() and it.name.startswith(f"excp-{version()}/") for it in archive), "something else is in it")
            archive.extractall(folder)
        wheels = []
        for where in f"{TOP}/python", f"{folder}/excp-{version()}":
            ran = call("build_wheel", where)
            require((ran.status, ran.err) == (0, ""), "no wheel is built", ran)
            wheels.append(images.bytes_of(f"{folder}/{ran.out.strip()}"))
        require(wheels[0] == wheels[1], "the wheel of the archive is another one")
        with zipfile.ZipFile(io.BytesIO(wheels[0])) as wheel:
            names, metadata = wheel.namelist(), wheel.read(f"excp-{version()}.dist-info/METADATA").decode()
            require(wheel.read("excp/libexcp.so") == images.bytes_of(f"{FOLDER}/libexcp.so"), "another library is in the wheel")
    require({"excp/py.typed", "excp/site.py", "excp/help/excp.txt", "excp/viewer/page.html"} <= set(names), f"it has {names}")
    head, _, body = metadata.partition("\n\n")
    require(f"Version: {version()}\n" in head and body == read(f"{TOP}/python/README.md"), f"the metadata are {metadata}")


def version():
    """The version of the package."""
    return re.search(r'^__version__ = "(.*)"$', read(f"{TOP}/python/excp/__init__.py"), re.M)[1]


# A client whose types mypy checks. The last line is wrong: a completion code is a number.
TYPED = """import excp

with excp.Site() as site:
    printer: excp.Unit = site.printer(lines=1, pages=1)
    area = excp.Area(0x1000)
    area.program(excp.Ccw(excp.Op.NOP, flags=excp.Flag.SLI))
    name: excp.Name = site.issue(0, printer.open(), area)
    post: excp.Post = site.post(0)
    code: str = post.code
"""


def has_types():
    """mypy --strict finds the types of the package that a client installs: one mistake, in its last line."""
    needs("mypy")
    with tempfile.TemporaryDirectory() as folder:
        with open(f"{folder}/client.py", "w", encoding="ascii") as file:
            file.write(TYPED)
        made = run([sys.executable, "-m", "venv", "--without-pip", f"{folder}/own"], timeout=300)
        require(made.status == 0, "no environment is made", made)
        environment = {**without_words(), "EXCP_LIBRARY": f"{FOLDER}/libexcp.so"}
        ran = run([sys.executable, "-B", "-c", HOOK, "build_wheel", folder], cwd=f"{TOP}/python", env=environment)
        packages = glob.glob(f"{folder}/own/lib/python3*/site-packages")[0]
        with zipfile.ZipFile(f"{folder}/{ran.out.strip()}") as wheel:
            wheel.extractall(packages)
        words = ["mypy", "--strict", "--cache-dir", f"{folder}/cache", "--python-executable", f"{folder}/own/bin/python", "client.py"]
        ran = run(words, cwd=folder, env=without_words(), timeout=300)
        found = [line for line in ran.out.splitlines() if ": error: " in line]
        require(len(found) == 1 and found[0].startswith("client.py:9: ") and '"str"' in found[0], "mypy finds something else", ran)


# --- cases


def through_python(setup):
    origin = "the program, by docs/SPECIFICATION.md"
    for name, script, texts in stored_scripts():
        yield Case(f"script {name}", lambda s=script, t=texts: posts_are_those_stored(s, t), "docs/SPECIFICATION.md")
    for seed in range((JOBS_LONG if setup.is_long else JOBS) // BATCH):
        yield Case(f"{BATCH} jobs at random: {seed}", lambda s=seed: jobs_are_the_same(setup, s), origin)


def in_c(setup):
    seconds, uses = (SECONDS_LONG, USES_LONG) if setup.is_long else (SECONDS, USES)
    origin = "c/excp.h"
    for compiler in COMPILERS:
        yield Case(f"make with {compiler}", lambda c=compiler: is_made(c), "crates/example_print_tape/stdout and examples/c")
        for program in *PRINTS, COMMANDS, OUT_OF_MEMORY:
            yield Case(f"{program} with {compiler}", lambda c=compiler, p=program: runs_in_c(c, p), origin)
        yield Case(f"{LONG_USE} with {compiler}", lambda c=compiler: runs_in_c(c, LONG_USE, *uses, seconds=3600), origin)
        for program in PRINTS:
            yield Case(f"{program} with {compiler} and sanitizers", lambda c=compiler, p=program: runs_sanitized(c, p), origin)
        for seed, call, kind in (1, runs_in_c, "alone"), (2, runs_sanitized, "and sanitizers"):
            judge = lambda c=compiler, s=seed, f=call: f(c, FUZZ, str(s), str(seconds), seconds=300 + 2 * seconds)
            yield Case(f"{FUZZ} with {compiler} {kind}", judge, origin)
    for program in *PRINTS, COMMANDS, OUT_OF_MEMORY:
        yield Case(f"{program} with libexcp.a", lambda p=program: runs_static("gcc", p), origin)
        yield Case(f"{program} under valgrind", lambda p=program: runs_in_valgrind(p), origin)
    yield Case("examples/c/search_disk saves its disk", saves_its_disk, "docs/FORMATS.md")
    for compiler in "g++", "clang++":
        yield Case(f"examples/cpp/read_tape with {compiler}", lambda c=compiler: runs_in_cpp(c), "docs/SPECIFICATION.md")
    yield Case("examples/rust/print_line with rustc", runs_in_rust, "docs/SPECIFICATION.md")
    yield Case("examples/c/threads under helgrind", shares_by_its_lock, origin)
    yield Case("the cost of a request", costs_little, "docs/CLIENT.md, What a call costs")
    judge = lambda: takes_memory(CYLINDERS_LONG if setup.is_long else CYLINDERS)
    yield Case("the memory of a volume", judge, "docs/CLIENT.md, What a call costs")
    judge = lambda: runs_in_valgrind(FUZZ, "3", str(seconds), seconds=300 + 2 * seconds)
    yield Case(f"{FUZZ} under valgrind", judge, origin)
    for compiler, language in ("gcc", ["c", "-std=c99"]), ("clang", ["c", "-std=c99"]), ("g++", ["c++"]), ("clang++", ["c++"]):
        for name in "excp.h", "excp_blocks.h":
            judge = lambda n=name, c=compiler, l=language: is_a_header(n, c, l)
            yield Case(f"{name} by {compiler}", judge, f"c/{name}")


def cases(setup):
    build()
    yield from through_python(setup)
    yield from of_images(setup)
    yield from in_c(setup)
    yield Case("the unit tests of the Python package", unit_tests_pass, "docs/MANUAL.md and c/excp.h")
    yield Case("requests through Python", requests_in_python, "docs/CLIENT.md, What a call costs")
    yield Case("the example in Python", example_passes, "docs/MANUAL.md")
    for how in (), ("-e",):
        yield Case(" ".join(["pip install", *how, "./python"]), lambda h=how: is_installed(*h), "docs/CLIENT.md")
    yield Case("pip without a library", is_not_installed, "docs/CLIENT.md")
    yield Case("the source archive", is_archived, "PEP 517")
    yield Case("types of the installed package", has_types, "PEP 561, by mypy --strict")
