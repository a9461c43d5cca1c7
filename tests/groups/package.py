"""The package python/excp: its words end without a traceback for any input, need no library, and are code of our form.

The inputs are stored scripts with bytes, words and lines changed, lines put together from words of the grammar, and bytes at
random.
"""

import ast
import glob
import os
import random
import re
import subprocess
import sys

from groups import first_faults
from groups.listing import same
from harness import TOP, Case, decoded, encoded, require

# How many cases of so many inputs there are, and in the long form.
COUNT = 8
LONG = 400
EACH = 250

# The most bytes of a script that is changed, and of bytes at random.
MOST = 6000
RANDOM = 600

ORIGIN = "docs/ARCHITECTURE.md: the command ends without a traceback for any input"
FORM = "CONTRIBUTING.md, Python"

# The parts of the package that have our form: at most so many lines a module and a function, and columns a line.
FOLDERS = "command", "script", "symbols", "checking", "images", "files", "programs", "reporting"
MODULES = "__init__", "__main__", "device_commands", "device_status", "findings"
MODULE_LINES, FUNCTION_LINES, COLUMNS = 300, 30, 100


def loaded():
    """The package, which this process imports once."""
    from excp import checking, findings, symbols
    from excp.script import grammar
    from excp.symbols import job_listing, listing, source_map

    assert job_listing and listing and source_map
    return checking, findings, symbols, grammar


def judge_text(text):
    """Does what the words do to a text, and returns all that is found."""
    checking, findings, symbols, _ = loaded()
    assembled = symbols.assemble(text)
    plain = symbols.Assembled(text)
    if symbols.has_symbols(text) and not assembled.findings:
        plain = assembled
    of_script = checking.check_script(plain)
    symbols.listing.listing(plain.script)
    if plain.job is not None:
        look_up(symbols, plain, checking.has_rejected_line(of_script))
    return list(findings.printed([*assembled.findings, *of_script, *checking.check_scenario(plain.script)], "job"))


def look_up(symbols, assembled, is_rejected):
    """Looks up addresses in and around each area of a job, and lists it. The listing of a job that is not rejected is assembled to
    the same script."""
    found = symbols.source_map.source_map(assembled)
    for area in found.areas:
        for address in range(area.base - 1, area.base + 100):
            line = area.line(address)
            assert line is None or found.statement(line)
            assert area.label(address) in (None, area.operand(address))
    again = symbols.assemble(symbols.job_listing.job_listing(assembled))
    assert is_rejected or same(decoded(again.script)) == same(decoded(assembled.script))


def changed(chance, text):
    """A text with one to four bytes, words or lines changed."""
    for _ in range(chance.randint(1, 4)):
        change, at = chance.randrange(5), chance.randrange(len(text) + 1)
        if change == 0:
            text = text[:at] + bytes([chance.randrange(256)]) + text[at + 1 :]
        elif change == 1:
            text = text[:at] + text[at + chance.randrange(1, 40) :]
        elif change == 2:
            text = text[:at] + chance.choice(SIGNS) + text[at:]
        else:
            lines = text.split(b"\n")
            line = chance.randrange(len(lines))
            if change == 3:
                lines.insert(chance.randrange(len(lines)), lines[line])
            else:
                words = lines[line].split(b" ")
                words[chance.randrange(len(words))] = chance.choice(SIGNS)
                lines[line] = b" ".join(words)
            text = b"\n".join(lines)
    return text


# What is put in place of words: signs of symbols, numbers at limits, and odd bytes.
SIGNS = (
    b"' , ; : + - * # = X' C' CA' L' X'' '' X'1' C'A fill endarea area all tracks key data at + +1 -1 *+8 L'L L'* 0 1 63 64 65535 "
    b"65536 4294967295 4294967296 99999999999 X'FFFFFF' FFFFFF FFFFFE 00000000000000000000000000000000 DC DS 0D ORG IOB ECB TIC "
    b"CCW SIDE IDAW "
    b"CCHHR COUNT seek= ecb= dcb= extent= related L: L0: CD CC+SLI \x00 \r \t \xff \xef\xbb\xbf \xc3\xa9"
).split(b" ") + [b"", b" ", b"\n", b"\r\n"]


def made(chance, words):
    """Lines put together from first words of the grammar and words that lines have after them."""
    lines = []
    for _ in range(chance.randint(1, 30)):
        first = chance.choice(words)
        lines.append(b" ".join([first, *(chance.choice(SIGNS) for _ in range(chance.randint(0, 8)))]))
    return b"\n".join(lines)


def ends_quietly(seed, scripts):
    """Inputs at random are each judged: an exception of the package fails the case, with the input."""
    grammar = loaded()[3]
    words = [encoded(word) for word in grammar.SCRIPT_WORDS + grammar.EVENT_WORDS] + SIGNS
    chance = random.Random(seed)
    for number in range(EACH):
        kind = chance.randrange(8)
        text = changed(chance, chance.choice(scripts)) if kind < 5 else made(chance, words)
        if kind == 7:
            text = chance.randbytes(chance.randrange(RANDOM))
        try:
            judge_text(text)
        except Exception as error:
            require(False, f"input {number} of seed {seed}: {type(error).__name__}: {error}: {text!r}")


def started(*words, **how):
    """A process that carries out words by the package."""
    command = [f"{TOP}/excp", *words]
    return subprocess.run(command, stderr=subprocess.PIPE, timeout=60, **how)


def needs_no_reader(*words):
    """If nothing reads the output, no text is printed."""
    reader, writer = os.pipe()
    os.close(reader)
    try:
        ran = started(*words, stdout=writer, stdin=subprocess.DEVNULL)
    finally:
        os.close(writer)
    require(ran.stderr == b"", f"another text: {ran.stderr!r}")


def is_one_line(setup, *words):
    """Of a program in place of a script one fault is printed, in one line."""
    with open(setup.program, "rb") as it:
        ran = setup.run(*words, script=it.read(300_000))
    text = ran.out + ran.err
    require(ran.status == 1 and text.count("\n") == 1 and "the file has zero bytes" in text, "another text", ran)


def suggests(word, due):
    """A first word that is neither a word nor a file is rejected, and a word that is near to it is named."""
    ran = started(word, stdout=subprocess.DEVNULL, stdin=subprocess.DEVNULL)
    require((ran.returncode, ran.stderr) == (1, f"excp: {word}: there is no such file, and no such subcommand; {due}\n".encode()),
            f"another text: {ran.stderr!r}")


def needs_no_library():
    """A word loads neither the library nor what needs it."""
    text = "import sys; sys.path.insert(0, sys.argv[1]); from excp.command.main import main; main(['check', sys.argv[2]], None); "
    text += "print(*sorted(it for it in sys.modules if it in ('ctypes', 'excp.library', 'excp.site')))"
    command = [sys.executable, "-c", text, f"{TOP}/python", f"{TOP}/samples/read.script"]
    ran = subprocess.run(command, capture_output=True, timeout=60, check=False)
    require((ran.stdout, ran.stderr) == (b"\n", b""), f"another output: {ran.stdout!r} {ran.stderr!r}")


def imported(tree):
    """The names that a module imports, but for those that it gives to others by `name as name`."""
    names = [it for node in ast.walk(tree) if isinstance(node, (ast.Import, ast.ImportFrom)) for it in node.names]
    return {(it.asname or it.name).partition(".")[0] for it in names if it.asname != it.name} - {"annotations"}


def has_statuses():
    """The statuses by which excp_tools leaves to the package what is to be said are those of the package."""
    from excp.command.tool_run import Status

    with open(f"{TOP}/crates/excp_tools/src/main.rt", encoding="utf-8") as it:
        found = {name: int(number) for name, number in re.findall(r"^const (\w+): u8 = (\d+);", it.read(), re.M) if int(number) > 6}
    require(found == {it.name: it.value for it in Status}, f"the program has {found}")


def is_one_version():
    """The package, its wheel, the header of the library and the programs have one version."""
    import excp

    texts = {
        "crates/run_options/src/lib.rt": r'^pub const VERSION: &str = "(.*)";$',
        "python/pyproject.toml": r'^version = "(.*)"$',
        "c/excp.h": r"^#define EXCP_VERSION_MAJOR (\d+)\n#define EXCP_VERSION_MINOR (\d+)$",
    }
    for file, form in texts.items():
        with open(f"{TOP}/{file}", encoding="utf-8") as it:
            found = ".".join(re.search(form, it.read(), re.M).groups())
        require(found == excp.__version__, f"{file} has the version {found}, and the package {excp.__version__}")


def has_form(file):
    """A module says what it is for, and is short, as its functions and its lines are."""
    with open(file, encoding="utf-8") as it:
        text = it.read()
    lines, tree = text.split("\n"), ast.parse(text)
    require(ast.get_docstring(tree), "it does not say what it is for")
    require(len(lines) <= MODULE_LINES, f"{len(lines)} lines: at most {MODULE_LINES}")
    long = [number for number, line in enumerate(lines, 1) if len(line) > COLUMNS]
    require(not long, f"lines {long}: more than {COLUMNS} columns")
    unused = imported(tree) - {node.id for node in ast.walk(tree) if isinstance(node, ast.Name)}
    require(os.path.basename(file) == "__init__.py" or not unused, f"imported, and not used: {sorted(unused)}")
    for node in ast.walk(tree):
        if isinstance(node, ast.FunctionDef):
            count = node.end_lineno - node.lineno + 1
            require(count <= FUNCTION_LINES, f"{node.name}: {count} lines: at most {FUNCTION_LINES}")


def cases(setup):
    scripts = [encoded(script) for _, script, _ in first_faults.stored() if script and len(script) <= MOST]
    for number in range(1, (LONG if setup.is_long else COUNT) + 1):
        yield Case(f"inputs at random: {number}", lambda n=number: ends_quietly(n, scripts), ORIGIN)
    for words in (["check", "--help"], ["assemble", f"{TOP}/samples/read.symbolic"], ["check", f"{TOP}/tests/run"]):
        yield Case(f"{words[0]} {os.path.basename(words[1])} to a reader that is gone", lambda w=words: needs_no_reader(*w), ORIGIN)
    for words in (["check"], ["check", "--scenario"], ["assemble"], ["report", "--listing"]):
        yield Case(f"{' '.join(words)} of a program", lambda w=words: is_one_line(setup, *w), ORIGIN)
    for word, due in ("chek", "did you mean 'check'?"), ("xyzzy", "excp --help lists them"):
        yield Case(f"a word that is none: {word}", lambda w=word, d=due: suggests(w, d), ORIGIN)
    yield Case("the statuses of excp_tools", has_statuses, "crates/excp_tools/src/main.rt")
    yield Case("one version", is_one_version, "python/excp/__init__.py")
    yield Case("a word needs no library", needs_no_library, "python/excp/__init__.py")
    for file in sorted(glob.glob(f"{TOP}/python/excp/**/*.py", recursive=True)):
        yield Case(f"the form of {os.path.relpath(file, f'{TOP}/python')}", lambda f=file: has_form(f), FORM)
