"""The examples of the pages: code blocks that are a job with its posts, and code blocks of commands."""

import os
import re
import shlex
import shutil
import sys
import tempfile
from dataclasses import dataclass

from harness import TOP, Skipped, expect, outcome, read, require, run, without_states

# The pages whose jobs have their posts in the next code block.
JOBS = ["docs/TUTORIAL.md"]

# A line that is a command.
COMMAND = re.compile(r"(?:\$ )?(?:\./|tests/(?!cases/)|tools/|samples/timed |(?:cd|rt|head|cc|make|pip|python3|valgrind) |job=)")

# ./excp of a folder in which commands run: it runs the programs that are tested, on a file or with a subcommand, and the package.
# The job whose outcomes the pages show has several, so its status is 5.
EXCP = """#!/usr/bin/env bash
set -o pipefail
case "$1" in
    report | step | debug | check | assemble | describe | convert | test) exec {package} "$@" ;;
    outcomes)
        {package} "$@"
        [ $? = 5 ]
        ;;
    -) exec {program} run ;;
    *) {package} assemble "$1" | {program} run ;;
esac
"""


@dataclass
class Block:
    """A code block: its page, the number of its first line, and its lines."""

    page: str
    line: int
    lines: list

    def text(self):
        return "\n".join(self.lines) + "\n"


def blocks(page):
    """The code blocks of a page, indented by four blanks or fenced."""
    found, block, is_fenced, is_after_blank = [], None, False, True
    for number, line in enumerate(read(f"{TOP}/{page}").split("\n"), 1):
        if line.startswith("```"):
            is_fenced = not is_fenced
            block = Block(page, number + 1, []) if is_fenced else None
            if is_fenced:
                found.append(block)
        elif is_fenced:
            block.lines.append(line)
        elif line.startswith("    ") and (block or is_after_blank):
            if block is None:
                block = Block(page, number, [])
                found.append(block)
            block.lines.append(line[4:])
        elif line or not block:
            block = None
        else:
            block.lines.append("")
        is_after_blank = not line
    for it in found:
        while it.lines and not it.lines[-1]:
            it.lines.pop()
    return [it for it in found if it.lines]


def jobs(page):
    """The jobs of a page whose posts are in the next code block, with these."""
    all_blocks = blocks(page)
    for job, posts in zip(all_blocks, all_blocks[1:]):
        if job.lines[0].startswith("tasks ") and posts.lines[0].startswith("post "):
            yield job, posts


def prints_posts(setup, job, posts):
    """A job in symbols prints the report of its page, or the posts. These are also what its plain script prints."""
    if any(line.startswith("# ") for line in posts.lines):
        expect(setup.run("report", script=job.text()), (0, posts.text()))
        return
    expect(setup.run("report", "--posts", script=job.text()), (0, posts.text()))
    assembled = setup.run("assemble", script=job.text())
    require(assembled.status == 0, f"{job.page}, line {job.line}: the job is not assembled", assembled)
    expect(setup.run("run", script=assembled.out), (0, posts.text()))


# What the commands of a block print.
SESSION = "the lines after each `$ `"
NEXT = "the next block"
AMONG = "the lines of the next block, among others"
NOTHING = "nothing"
ANYTHING = "anything"

# Blocks of commands by their page and first command: what they print, and the files that they read, each the first block of the
# page with a line, or a file of the repository.
RUN = {
    ("README.md", "./excp step samples/scenarios/halt-an-active-request.scenario | tail"): (NEXT, {}),
    ("README.md", "./excp describe tests/cases/images/w.aws"): (NEXT, {}),
    ("README.md", "./excp outcomes samples/outcomes/a-halt.symbolic | grep"): (NEXT, {}),
    ("README.md", "./excp report --posts - <<'END'"): (NEXT, {}),
    ("samples/README.md", "./excp report samples/read-a-tape.script | grep -v '^# unit\\|^#  '"): (ANYTHING, {}),
    ("samples/README.md", "./excp step samples/scenarios/halt-an-active-request.scenario"): (ANYTHING, {}),
    ("samples/README.md", "./excp report samples/update-in-place.symbolic"): (ANYTHING, {}),
    ("samples/README.md", "./excp assemble samples/read.symbolic > /tmp/read.script"): (ANYTHING, {}),
    ("docs/TUTORIAL.md", "./excp check job"): (NEXT, {"job": "LINE: DC  C'HELLO'"}),
    ("docs/TUTORIAL.md", "./excp job"): (ANYTHING, {"job": "LINE: DC  C'HELLO'"}),
    ("docs/TUTORIAL.md",
     "./excp debug errors <<'END'"): (AMONG, {"errors": "ID:     CCHHR 0,0,9                ; cylinder 0, head 0, record 9"}),
    ("docs/TUTORIAL.md", "./excp step halt"): (NEXT, {"halt": "purge 0 0 1 halt"}),
    ("docs/TUTORIAL.md", "./excp test --accept job"): (SESSION, {"job": "LINE: DC  C'HELLO'"}),
    ("docs/TUTORIAL.md", "./excp report --posts --seed 12"): (NEXT, {}),
    ("docs/TUTORIAL.md", "./excp outcomes samples/outcomes/a-halt.symbolic | grep"): (NEXT, {}),
    ("docs/TUTORIAL.md", "job=samples/outcomes/a-halt.symbolic"): (NEXT, {}),
    ("docs/TUTORIAL.md", "./excp convert --to aws"): (NEXT, {"tape": "block 0 C'BOOK1'", "append": "BLOCK:  DC    C'BOOK3'"}),
    ("docs/TUTORIAL.md", "head -c 3200 README.md"): (ANYTHING, {"README.md": "README.md"}),
    ("docs/MANUAL.md", "./excp report first | awk"): (NOTHING, {"first": "samples/read.symbolic", "rest": "samples/read.script"}),
    ("docs/MANUAL.md", "./excp report --json first"): (ANYTHING, {"first": "samples/read.symbolic"}),
    ("docs/MANUAL.md", "./excp report --html first"): (NOTHING, {"first": "samples/read.symbolic"}),
    ("docs/MANUAL.md", "./excp outcomes samples/outcomes/a-halt.symbolic"): (SESSION, {}),
    ("samples/README.md", "./excp outcomes samples/outcomes/a-halt.script"): (ANYTHING, {}),
    ("samples/README.md", "./excp test samples"): (ANYTHING, {}),
    ("docs/REPORT.md", "./excp report --json first.script"): (ANYTHING, {"first.script": "samples/read.script"}),
    ("docs/REPORT.md", "./excp report --html first.script"): (NOTHING, {"first.script": "samples/read.script"}),
    ("docs/REPORT.md", "./excp step --json samples/scenarios/halt-an-active-request.scenario"): (ANYTHING, {}),
    ("docs/SPEED.md", "samples/timed small 20000"): (NOTHING, {}),
    ("docs/ASSEMBLER.md", "./excp report --posts job"): (NEXT, {"job": "tasks 1"}),
    ("docs/ASSEMBLER.md", "./excp report --steps job"): (AMONG, {"job": "tasks 1"}),
    ("docs/ASSEMBLER.md", "./excp report --listing samples/read.script"): (AMONG, {}),
    ("docs/ASSEMBLER.md", "./excp assemble job | ./excp -"): (NEXT, {"job": "tasks 1"}),
}

# What commands need beside Python, each with the package of Debian that has it.
NEEDED = {"parallel": "parallel", "dasdload": "hercules"}

# Blocks of commands that the tests do not run, and why.
NOT_RUN = {
    ("docs/CLIENT.md", "cd crates/example_print_tape && rt run"): "`rt ci` proves the program and runs it",
    ("docs/CLIENT.md", "tools/library.py"): "the group library_clients builds and runs the examples",
    ("samples/README.md",
     "./excp step --html samples/scenarios/a-related-error.scenario"): "it needs Chromium; the group pages opens pages",
    ("docs/CLIENT.md", "cc "): "the group c_library builds programs in these ways",
    ("docs/CLIENT.md", "pip install ./python"): "the group library_clients installs the package",
    ("docs/CLIENT.md", "python3 examples/python/test_channel_program.py"): "the group library_clients runs the examples",
    ("docs/SPEED.md", "cd crates/bench_steps && rt run -- 2000"): "it proves the program and takes minutes",
    ("docs/SPEED.md", "valgrind --tool=callgrind"): "it runs that program",
}


def named(block, table):
    """The entry of a table whose first command the block begins with."""
    first = block.lines[0].removeprefix("$ ")
    for (page, command), entry in table.items():
        if page == block.page and first.startswith(command):
            return entry
    return None


def commands(page):
    """The blocks of a page that have commands, each with the block after it."""
    all_blocks = blocks(page)
    for place, block in enumerate(all_blocks):
        if COMMAND.match(block.lines[0]):
            yield block, (all_blocks[place + 1 :] or [None])[0]


def content(page, source):
    """The bytes of a file of the repository, or of the first block of a page that has this line."""
    if os.path.isfile(f"{TOP}/{source}"):
        with open(f"{TOP}/{source}", "rb") as file:
            return file.read()
    for block in blocks(page):
        if source in block.lines:
            return block.text().encode()
    raise AssertionError(f"{page} has no block with the line {source}")


def prints_page(setup, block, following):
    """The commands of a block succeed, and print what the page says."""
    kind, sources = named(block, RUN)
    for tool, package in NEEDED.items():
        if f"{tool} " in block.text() and not shutil.which(tool):
            raise Skipped(f"no {tool} (Debian's package `{package}`)")
    typed = [line.removeprefix("$ ") for line in block.lines if kind != SESSION or line.startswith("$ ")]
    with tempfile.TemporaryDirectory() as folder:
        for name in "samples", "tests":
            os.symlink(f"{TOP}/{name}", f"{folder}/{name}")
        files = {name: content(block.page, source) for name, source in sources.items()}
        programs = {"program": [setup.program], "package": [sys.executable, f"{TOP}/tests/package.py", setup.tools]}
        files["excp"] = EXCP.format(**{name: shlex.join(it) for name, it in programs.items()}).encode()
        for name, held in files.items():
            with open(f"{folder}/{name}", "wb") as file:
                file.write(held)
        os.chmod(f"{folder}/excp", 0o755)
        ran = run(["bash", "-e", "-o", "pipefail", "-c", "\n".join(typed)], cwd=folder)
    require(ran.status == 0, f"{block.page}, line {block.line}: {outcome(ran.status, ran.out, ran.err)}", ran)
    shown = without_states(ran.out).split("\n")[:-1]
    if kind == SESSION:
        due = [without_states(line) for line in block.lines if not line.startswith(("$ ", "excp: "))]
        require(shown == due, f"{block.page}, line {block.line}: other lines", ran)
    elif kind == NEXT:
        due = [line for line in following.lines if not line.startswith("excp: ")]
        require(shown == due, f"{block.page}, line {block.line}: other lines than in line {following.line}", ran)
    elif kind == AMONG:
        left = iter(shown)
        require(all(line in left for line in following.lines), f"{block.page}, line {following.line}: not all is printed", ran)
    elif kind == NOTHING:
        require(not shown, f"{block.page}, line {block.line}: something is printed", ran)


def are_known(pages):
    """Each block of commands is one that is run, or one that is not, with its reason; and each of those is in its page."""
    found = {(page, block.lines[0].removeprefix("$ ")) for page in pages for block, _ in commands(page)}
    known = [*RUN, *NOT_RUN]
    unknown = [it for it in found if not any(it[0] == page and it[1].startswith(first) for page, first in known)]
    gone = [it for it in known if not any(it[0] == page and first.startswith(it[1]) for page, first in found)]
    require(not unknown and not gone, f"tests/examples.py: unknown {sorted(unknown)}, in no page {sorted(gone)}")
