"""The documents: their sentences and links, their definitions, what they quote of crates.txt and of the sources, and their
examples; and whether the mutants still apply.

tests/sentences measures the sentences, and tests/definitions finds names of definitions that several crates have. tests/closure
has the definitions that the headline rests on, tools/reference.py what pages have of tables of the code. The layers of crates.txt,
the steps in ARCHITECTURE.md and the code that CLIENT.md and ADDING-A-DEVICE.md quote are compared with the sources, and so is what
crates.txt lists. tests/comments measures the comments of the code, and finds phrases of tests/phrases. tools/refusals.py finds what
each call rejects in its comment. tests/edits applies the mutants to the code as it is. tests/examples.py has the jobs and the
commands of the pages. mypy, if it is installed, checks the types of python/excp. A README that names another kit is a warning.
"""

import glob
import os
import re
import shutil
import textwrap

from examples import JOBS, NOT_RUN, are_known, commands, jobs, named, prints_page, prints_posts
from harness import TOP, Case, Failed, Skipped, expect, read, require, run


def passes(program, *words, folder="tests"):
    """A program of a folder with these words passes."""
    ran = run([f"{TOP}/{folder}/{program}", *words], cwd=TOP)
    if ran.status != 0 or not re.search(r"^\d+ passed, 0 failed$", ran.out.rstrip("\n").rpartition("\n")[2]):
        raise Failed(f"{folder}/{program} found faults", ran, None, ran.out + ran.err)
    return f"{folder}/{program}: {ran.out.rstrip().rpartition(chr(10))[2]}"


def help_fits(columns=80):
    """No line of a page of help has more than 80 columns, those of a terminal."""
    pages = sorted(glob.glob(f"{TOP}/python/excp/help/*.txt"))
    wide = [f"{os.path.basename(it)}: {line}" for it in pages for line in read(it).split("\n") if len(line) > columns]
    require(pages and not wide, "\n".join([f"{len(wide)} lines of help have over {columns} columns:", *wide]))


def names_kit():
    """A warning if the README names another kit than `rt version`."""
    if not shutil.which("rt"):
        raise Skipped("no rt, so the kit of the README is not compared")
    logic = run(["rt", "version"]).out.strip().rpartition(" ")[2]
    return "" if logic in read(f"{TOP}/README.md") else f"warning: README.md does not name the logic sum of `rt version`: {logic}"


def has_types():
    """mypy finds nothing in the package of the command."""
    if not shutil.which("mypy"):
        raise Skipped("no mypy, so the types of python/excp are not checked")
    ran = run(["mypy", "--strict", "--cache-dir", f"{TOP}/out/mypy", "excp", "wheel_backend.py"], cwd=f"{TOP}/python")
    require(ran.status == 0, "mypy --strict found faults", ran)


def listed():
    """The layer of each crate of crates.txt, and the crates that it uses."""
    layer, layers, below = "", {}, {}
    for line in read(f"{TOP}/crates.txt").splitlines()[1:]:
        if line.startswith("# "):
            layer = line[2:]
        elif line:
            head, _, rest = line.partition(":")
            layers[head.split()[0]] = layer
            below[head.split()[0]] = rest.split()
    return layers, below


def layers_hold():
    """No crate of crates.txt uses a crate of a layer above its own."""
    layers, below = listed()
    order = list(dict.fromkeys(layers.values()))
    stands_above = lambda name, it: it in layers and order.index(layers[it]) > order.index(layers[name])
    wrong = [f"{name} on {it}" for name in below for it in below[name] if stands_above(name, it)]
    require(len(order) > 1 and not wrong, f"crates.txt: {len(order)} layers; {'; '.join(wrong)}")


# What may be below excp_job, the program of the promises: what reads a script, and what its requests need. Nothing of reports,
# histories, records, images, steps or outcomes.
RUN = """io_images io_area device_port ckd_disk tape_unit line_printer any_device ccw_programs subchannel recovery request_piece
unit_queue unit_book serial_order fifo_row signed_list excp_system post_ledger system_threads post_lines script_words job_script
job_mount job_run
run_options excp_job""".split()
MOST = 28


def run_is_small():
    """The crates below excp_job, and itself, are few, and of these."""
    _, below = listed()
    found, rest = set(), ["excp_job"]
    while rest:
        name = rest.pop()
        if name in below and name not in found:
            found.add(name)
            rest += below[name]
    others = sorted(found.difference(RUN))
    require(len(found) <= MOST and not others, f"{len(found)} crates, at most {MOST}; these are none of run: {' '.join(others)}")
    return f"excp_job is {len(found)} crates"


# How a source names a crate.
NAMES_CRATE = re.compile(r"(?<![\w:.])([a-z]\w*)::|\bRattle[.·](\w+)[.·]")


def used_by(crate):
    """What a crate names as crates are named, comments apart."""
    found = set()
    for part, suffix, comment in (("src", ".rt", "//"), ("specs", ".antt", "--"), ("proofs", ".antt", "--")):
        for folder, _, files in os.walk(f"{TOP}/crates/{crate}/{part}"):
            for file in (it for it in files if it.endswith(suffix)):
                text = re.sub(rf"{comment}.*", "", read(f"{folder}/{file}"))
                found |= {name for names in NAMES_CRATE.findall(text) for name in names}
    return found


def lists_what_is_used():
    """Each crate lists the crates of this repository that its sources use, and nothing that they do not use."""
    _, below = listed()
    wrong = []
    for name, deps in below.items():
        used = used_by(name) - {name}
        wrong += [f"{name} does not use {it}" for it in deps if it not in used]
        wrong += [f"{name} uses {it}, which is not listed" for it in sorted(used & below.keys()) if it not in deps]
    require(not wrong, f"crates.txt: {'; '.join(wrong)}")


PAGES = ["README.md", "CONTRIBUTING.md", "CHANGELOG.md", "samples/README.md"]
PAGES += [f"docs/{it}" for it in sorted(os.listdir(f"{TOP}/docs")) if it.endswith(".md")]

STEP = re.compile(r"^\| (\d+\.?) \| .+ \| (`.+`) \| (.+) \|$", re.M)


def steps_hold():
    """Each step of a request names functions or types that are in the files that it names."""
    steps = STEP.findall(read(f"{TOP}/docs/ARCHITECTURE.md"))
    require([it[0] for it in steps] == [f"{it}" for it in range(1, 26)], "ARCHITECTURE.md has no steps 1 to 25 of a request")
    for number, names, files in steps:
        names, files = re.split("[,;] ", names), files.split("; ")
        require(len(files) in (1, len(names)), f"step {number}: {len(names)} functions and {len(files)} files")
        for name, file in zip(names, files if len(files) > 1 else files * len(names)):
            crate, _, path = file.partition(": ")
            item = name.strip("`").rpartition("::")[2]
            code = read(f"{TOP}/crates/{crate}/src/{path}")
            require(re.search(rf"\b(fn|struct|trait) {item}\b", code), f"step {number}: no {item} in {file}")


# The pages that quote code, and a block of code in them, after a line that ends with its file.
QUOTING = ["CLIENT.md", "ADDING-A-DEVICE.md"]

QUOTE = re.compile(r"`([^`\n]+)`:\n\n```\w*\n(.*?)\n```$", re.M | re.S)


def has(file, block):
    """These lines are in the file one after another, whatever spaces all of them begin with."""
    there, wanted = read(f"{TOP}/{file}").split("\n"), textwrap.dedent(block)
    count = len(wanted.split("\n"))
    return any(textwrap.dedent("\n".join(there[at : at + count])) == wanted for at in range(len(there) - count + 1))


def quotes_hold(page):
    """Each block of code of a page is word for word in the file that the line before it names."""
    content = read(f"{TOP}/docs/{page}")
    quotes = QUOTE.findall(content)
    marks = len(re.findall(r"^```", content, re.M))
    require(quotes and marks == 2 * len(quotes),
            f"docs/{page}: {marks // 2} blocks of code, of which {len(quotes)} name their file")
    for file, block in quotes:
        require(has(file, block), f"docs/{page}: {file} has no such lines:\n{block}")


# The devices of a row of the commands left out, as a script declares them, with a DCB.
UNITS = {
    "3390": "disk 0 0 1 1 100\nopen 0 out 18000000000000000000000000000001",
    "3420": "tape 0 0 1000\nopen 0 out",
    "3480": "tape 0 0 1000\nopen 0 out",
    "1403": "printer 0 0 10 10\nopen 0 out",
    "3211": "printer 0 0 10 10\nopen 0 out",
}

# The area of an unrelated request with one CCW, of this code, with eight bytes and SLI.
AREA = f"{{place}} 001000 4200000000001028{0:016X}00001030{1:08X}{0:048X}{{code}}00103820000008{0:016X}"

LEFT_OUT = re.compile(r"^\| ((?:3390|3420|3480|1403|3211)\b[^|]*) \| (.+) \|$", re.M)


def left_out_is_rejected(setup):
    """Each command of the table of commands left out is posted 41 with command reject."""
    rows = LEFT_OUT.findall(read(f"{TOP}/docs/SPECIFICATION.md"))
    require(len(rows) > 10, f"{len(rows)} rows of commands left out")
    for device, commands_of_row in rows:
        codes = re.findall(r"\b(?=[0-9A-F]*[0-9])[0-9A-F]{2}\b(?! to)|\b(?:AF|FA|DE|FB|EB|CB|DB)\b",
                           commands_of_row.replace("2 to 12", ""))
        areas = "".join(f"area {AREA.format(place=place, code=code)}\n" for place, code in enumerate(codes))
        issues = "".join(f"excp 0 0 1 001000 {place} 001038 0\n" for place in range(len(codes)))
        script = f"tasks 1\n{UNITS[device[:4]]}\n{areas}{issues}"
        posts = "".join(f"post 0 0 {place} 41 001038 0E00 0008 8000 -\n" for place in range(1, len(codes) + 1))
        expect(setup.run("run", script=script), (0, f"{posts}end {len(codes)}\n"))


def cases(setup):
    yield Case("sentences", lambda: passes("sentences"), "tests/sentences, by CONTRIBUTING.md")
    yield Case("the measure of sentences", lambda: passes("sentences", "--self-test"), "tests/sentences, texts with known measures")
    yield Case("definitions", lambda: passes("definitions"), "tests/shared_names")
    yield Case("the list of definitions", lambda: passes("definitions", "--self-test"),
               "tests/definitions, crates with known faults")
    yield Case("definitions of the headline", lambda: passes("closure", "--check"), "docs/PROVED.md, by tests/closure")
    yield Case("the list of the headline", lambda: passes("closure", "--self-test"), "tests/closure, specs with a known list")
    yield Case("what pages have of tables", lambda: passes("reference.py", "--check", folder="tools"),
               "docs/MANUAL.md, ARCHITECTURE.md and PROVED.md, by tools/reference.py")
    yield Case("what calls reject", lambda: passes("refusals.py", folder="tools"),
               "tools/refusals.py, by the comments of the calls")
    yield Case("edits of mutants", lambda: passes("edits"), "docs/TESTING.md, by tests/edits")
    yield Case("the rules of edits", lambda: passes("edits", "--self-test"), "tests/edits, edits with known faults")
    yield Case("types of python/excp", has_types, "docs/TESTING.md, by mypy --strict")
    yield Case("layers of crates.txt", layers_hold, "crates.txt, line 1")
    yield Case("crates below excp_job", run_is_small, "tests/groups/documents.py, by docs/ARCHITECTURE.md")
    yield Case("what crates.txt lists", lists_what_is_used, "crates.txt, by the sources")
    yield Case("commands left out", lambda: left_out_is_rejected(setup), "docs/SPECIFICATION.md, 8.8")
    yield Case("steps of a request", steps_hold, "docs/ARCHITECTURE.md, by the sources")
    for page in QUOTING:
        yield Case(f"quotes of {page}", lambda page=page: quotes_hold(page), f"docs/{page}, by the sources")
    yield Case("comments", lambda: passes("comments"), "tests/comments and tests/phrases, by CONTRIBUTING.md")
    for page in JOBS:
        for job, posts in jobs(page):
            judge = lambda j=job, p=posts: prints_posts(setup, j, p)
            yield Case(f"job of {page}, line {job.line}", judge, f"{page}, line {posts.line}")
    yield Case("commands of the pages", lambda: are_known(PAGES), "tests/examples.py")
    for page in PAGES:
        for block, following in commands(page):
            if named(block, NOT_RUN) is None:
                judge = lambda b=block, f=following: prints_page(setup, b, f)
                yield Case(f"commands of {page}, line {block.line}", judge, page)
    yield Case("help in 80 columns", help_fits, "python/excp/help")
    yield Case("kit of the README", names_kit, "rt version")
