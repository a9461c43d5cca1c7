#!/usr/bin/env python3
"""Writes the parts of pages that follow from tables of the code.

    tools/reference.py            prints them
    tools/reference.py --write    writes each between its two marks in its page
    tools/reference.py --check    fails if a page has another text there; the last line is
                                  `N passed, M failed`

docs/MANUAL.md has the lines of scripts and scenarios (python/excp/script), the options of words
(python/excp/help, compared with the parsers of python/excp/command), the faults that `check` finds
(python/excp/findings.py) and the exit statuses (python/excp/command/statuses.py).
docs/ARCHITECTURE.md has the crates (crates.txt, and the first sentence of each lib.rt or main.rt),
and the folders of python/excp by theirs. docs/PROVED.md has the calls of PROMISED: the first sentence of each comment, and the
names of its promises.
"""

import difflib
import os
import re
import sys

TOP = os.path.dirname(os.path.dirname(os.path.realpath(__file__)))
sys.dont_write_bytecode = True
sys.path.insert(0, f"{TOP}/python")

from calls import calls  # noqa: E402
from excp.command.help import page_of  # noqa: E402
from excp.command.parser import WordParser  # noqa: E402
from excp.command.statuses import STATUSES  # noqa: E402
from excp.command.words import WORDS  # noqa: E402
from excp.findings import FAULTS, FaultName  # noqa: E402
from excp.script.grammar import COMMAND_WORDS, EVENT_LINES, SCRIPT_LINES, SIZES_BY_ROW  # noqa: E402
from excp.script.meanings import EVENTS, MEANINGS, SIZES  # noqa: E402

BEGIN, END = "<!-- tools/reference.py writes {} -->\n", "<!-- the end of {} -->\n"

# A line on an option in a page of help: the option, with the words that it takes, and what it does.
OPTION = re.compile(r"^ +(-.*?)  +(\S.*)$", re.M)

# The most words of a crate's first sentence. A longer one is cut at its colon.
MOST_WORDS = 13

# The most columns of a line of a list.
COLUMNS = 100


def read(file):
    with open(f"{TOP}/{file}", encoding="utf-8") as it:
        return it.read()


def table(titles, rows):
    """A table of Markdown."""
    lines = [f"| {' | '.join(row)} |\n".replace("|  |", "| |") for row in [titles, *rows]]
    return "".join([lines[0], f"|{'---|' * len(titles)}\n", *lines[1:]])


def has_all(name, found, wanted):
    """Raises SystemExit if a table lacks a row."""
    if not set(wanted) <= set(found):
        raise SystemExit(f"{name} has no row for {sorted(map(str, set(wanted) - set(found)))}")


def form(word, kind):
    """A line as it is written: its first word, and what follows."""
    return f"`{f'{word} {kind.form}'.rstrip()}`"


def lines():
    """The tables of set-up lines and of commands."""
    set_up = [word for word in SCRIPT_LINES if word not in COMMAND_WORDS]

    def part(title, words):
        rows = [(form(word, SCRIPT_LINES[word]), MEANINGS[word]) for word in words]
        return table((title, "Meaning"), rows)

    return f"{part('Set-up line', set_up)}\n{part('Command of task T', COMMAND_WORDS)}"


def events():
    """The tables of the events of a scenario, and of what it has before the first one."""
    kinds = {**SCRIPT_LINES, **EVENT_LINES}
    has_all("EVENTS", EVENTS, {*COMMAND_WORDS, *EVENT_LINES} - {"wait", "room"})
    rows = [(form(word, kinds[word]), it.says, it.answers) for word, it in EVENTS.items()]
    # the first word of a form is that of the row
    sizes = [
        (f"`room {word} {kind.form.partition(' ')[2]}`", SIZES[word])
        for word, kind in SIZES_BY_ROW.items()
    ]
    before = table(("Before the first event", "Meaning"), sizes)
    return f"{table(('Event', 'What it does', 'Answers'), rows)}\n{before}"


def options_of(word):
    """The options of a word, by its page of help. Raises SystemExit if its parser has others."""
    part = (page_of(word) or "").partition("\nOptions:\n")[2].partition("\n\n")[0]
    said = [re.sub("[<>]", "", option) for option, _ in OPTION.findall(part)]
    parser = WordParser(word)
    WORDS[word].load().add_arguments(parser)
    known = set(parser._option_string_actions)
    named = {it for option in said for it in re.findall(r"(?:^| )(-[-\w]+)", option)}
    if known != named:
        raise SystemExit(f"excp {word}: the help and the parser differ in {sorted(known ^ named)}")
    return [it for it in said if not it.startswith("-h")]


def options():
    """The table of words, with the options of each."""
    rows = [
        (f"`{name}`", word.says, " ".join(f"`{it}`" for it in options_of(name)))
        for name, word in WORDS.items()
    ]
    return table(("Word", "What it does", "Options"), rows)


def faults():
    """The table of the names of faults."""
    has_all("FAULTS", FAULTS, FaultName)
    rows = [(f"`{name.value}`", says) for name, says in FAULTS.items()]
    return table(("Name", "What is wrong"), rows)


def statuses():
    """The table of exit statuses."""
    return table(("Status", "Meaning"), [(f"{it}", says) for it, says in STATUSES.items()])


def first_sentence(text):
    """The first sentence of a comment, without its full stop; of a long one what is before its
    colon."""
    sentence = re.split(r"\.(?:\s|$)", " ".join(text.split()))[0]
    return sentence if len(sentence.split()) <= MOST_WORDS else sentence.partition(": ")[0]


def comment_of(crate):
    """The first comment of a crate."""
    files = (f"crates/{crate}/src/{name}.rt" for name in ("lib", "main"))
    text = read(next(it for it in files if os.path.exists(f"{TOP}/{it}")))
    return re.match(r"(?://! .*\n)*", text)[0].replace("//! ", "")


def comment_of_folder(folder):
    """The first comment of a folder of the package."""
    return read(f"python/excp/{folder}/__init__.py").split('"""')[1]


def crates():
    """The crates by layer, and the folders of the package."""
    text = read("crates.txt").partition("\n")[2]
    parts = []
    for layer, names in re.findall(r"^# (\w+)\n((?:\w.*\n?)*)", text, re.M):
        items = [item(name, comment_of(name)) for name in re.findall(r"^\w+", names, re.M)]
        parts.append(f"**{layer}**\n\n{''.join(items)}")
    package = f"{TOP}/python/excp"
    folders = [it for it in os.listdir(package) if os.path.exists(f"{package}/{it}/__init__.py")]
    items = [item(name, comment_of_folder(name)) for name in sorted(folders)]
    return "\n".join([*parts, f"**python/excp**\n\n{''.join(items)}"])


# The calls that a request goes through, from its script to its post, and the laws that they rest on.
PROMISED = {
    "job_script": "Script::parse",
    "job_mount": "books",
    "job_run": "Job::commands",
    "excp_system": "Task::excp Task::control Task::take_post",
    "fifo_row": "Sender::send Taker::take",
    "unit_book": """UnitBook::arrive UnitBook::start UnitBook::run UnitBook::interrupt UnitBook::purge UnitBook::close
        laws::posts_are_last laws::names_have_one_place laws::first_starts_keep_order laws::doomed_are_not_started
        laws::starts_are_few laws::posts_have_values laws::finished_posts_once""",
    "serial_order": "laws::serves_in_order",
    "ccw_programs": "burst",
    "recovery": "verdict",
    "post_ledger": "finish",
}

# What a sentence of a comment says beside its promise: where the standard has the rule.
CITED = re.compile(r" \((?:DFSMSdfp|Principles of Operation|chapter|profile)[^()]*\)")


def promises():
    """The calls of PROMISED, by crate."""
    parts = []
    for crate, names in PROMISED.items():
        known = {it.name: it for it in calls(crate)}
        named = {name: name.removeprefix("laws::") for name in names.split()}
        has_all(f"crates/{crate}", known, named.values())
        parts.append(f"**{crate}**\n\n{''.join(promise(name, known[it]) for name, it in named.items())}")
    return "\n".join(parts)


def promise(name, call):
    """An item on a call: its name, the first sentence of its comment, and the names of its promises."""
    clauses = f" (`{' '.join(call.promises)}`)" if call.promises else ""
    sentence = re.split(r"; |\.(?:\s|$)", CITED.sub("", call.comment))[0]
    return laid_out(f"- `{name}`: {sentence}{clauses}")


def item(name, comment):
    """An item on a crate or a folder."""
    return laid_out(f"- **{name}**: {first_sentence(comment)}")


def laid_out(text):
    """An item of a list, in lines of at most COLUMNS columns."""
    found = [""]
    for word in text.split(" "):
        if len(found[-1]) + 1 + len(word) > COLUMNS:
            found.append(" ")
        found[-1] += f" {word}" if found[-1] else word
    return "".join(f"{line}\n" for line in found)


# What is written, by its page and the name in its marks.
PARTS = {
    "docs/MANUAL.md": {
        "the lines of a script": lines,
        "the events": events,
        "the options": options,
        "the faults": faults,
        "the exit statuses": statuses,
    },
    "docs/ARCHITECTURE.md": {"the crates": crates},
    "docs/PROVED.md": {"the calls of a request": promises},
}


def parted(text, name):
    """What of a page is before a part, the part, and what is after it."""
    begin, end = BEGIN.format(name), END.format(name)
    before, has_begin, rest = text.partition(begin)
    old, has_end, after = rest.partition(end)
    if not has_begin or not has_end:
        raise SystemExit(f"a page has no lines {begin}and {end}")
    return before + begin, old, end + after


def is_written(page, writes):
    """Writes or compares the parts of a page. Returns whether it had each already."""
    text = held = read(page)
    for name, made in PARTS[page].items():
        before, old, after = parted(text, name)
        new = f"\n{made()}\n"
        if not writes:
            both = old.splitlines(True), new.splitlines(True)
            sys.stdout.writelines(difflib.unified_diff(*both, page, name))
        text = f"{before}{new}{after}"
    if writes:
        with open(f"{TOP}/{page}", "w", encoding="utf-8") as file:
            file.write(text)
    return text == held


def main(words):
    if words == []:
        print("\n".join(made() for parts in PARTS.values() for made in parts.values()), end="")
        return 0
    if words not in (["--write"], ["--check"]):
        print(__doc__, file=sys.stderr)
        return 2
    results = [is_written(page, words == ["--write"]) for page in PARTS]
    if words == ["--write"]:
        return 0
    print(f"{results.count(True)} passed, {results.count(False)} failed")
    return int(not all(results))


if __name__ == "__main__":
    sys.exit(main(sys.argv[1:]))
