"""The model of who waits and who wakes: each accepted request is collected, and spin finds a fault of each mutant.

The model tests/models/wakes.pml is searched to its end, by small rows, and with workers that run out of memory. It says by
comments which functions its lines stand for. Each mutant of the model stands for a change of the code. Those that a contract or a
test rejects are in tests/mutants too. The first two lose a wake-up so seldom that no run shows it.
"""

import os
import re
import shutil
import tempfile
from dataclasses import dataclass

from harness import TOP, Case, Failed, Skipped, read, require, run

MODEL = f"{TOP}/tests/models/wakes.pml"
ORIGIN = "tests/models/wakes.pml, by the crates that it names"

# The most seconds and megabytes of one search, and how deep it may go.
SECONDS = 600
MEGABYTES = 2000
DEPTH = 1_000_000

# What a comment of the model names: a file of a crate, and functions or types of it.
NAMED = re.compile(r"\b(\w+)/([\w/]+\.rt): (\w+(?:(?:::|, )\w+)*)")


@dataclass(frozen=True)
class Size:
    """What the model is made for: the room of rows, the requests of both tasks, whether workers run out of memory, and whether
    idle threads look again and again."""

    room: int = 1
    first: int = 2
    second: int = 1
    alarm: int = 0
    polls: int = 0

    def macros(self):
        return [f"-D{name.upper()}={value}" for name, value in vars(self).items()]


# The searches of each run, and those of the long form.
SIZES = {
    "rows of 1": Size(),
    "rows of 2": Size(room=2),
    "out of memory": Size(first=1, alarm=1),
    "looks under weak fairness": Size(first=1, polls=1),
}
SIZES_LONG = {
    "rows of 1, two requests each": Size(second=2),
    "rows of 2, full post rows": Size(room=2, first=3),
    "out of memory, three requests": Size(alarm=1),
    "looks under weak fairness, three requests": Size(polls=1),
}

@dataclass(frozen=True)
class Mutant:
    """A mutant: the file of the code and the text there that it changes, and old and new texts of the model."""

    file: str
    text: str
    model: dict


MUTANTS = {
    "no second look before parking": Mutant(
        "system_threads/src/client.rt",
        "                alarm.want(number, wanted);\n                is_wanted = true;",
        {"want(me); is_wanted = true } goto look": "want(me); is_wanted = true } goto park"},
    ),
    "count set after the look": Mutant(
        "system_threads/src/client.rt",
        "                alarm.want(number, wanted);\n                is_wanted = true;",
        {
            "want(me); is_wanted = true } goto look": "is_wanted = true } goto look",
            ":: !raised && awaited(me) > 0 && is_wanted\n": ":: atomic { !raised && awaited(me) > 0 && is_wanted -> want(me) }\n",
        },
    ),
    "notice dropped": Mutant(  # tests/mutants/excp_system/notice_is_dropped.edit
        "excp_system/src/unit/book_calls.rt",
        "            self.owes = self.notice.send(rt, notice).is_err();",
        {"full(notice) -> owes[unit] = true": "full(notice) -> owes[unit] = false"},
    ),
    "full row wakes nobody": Mutant(  # tests/mutants/system_threads/full_row_wakes_nobody.edit
        "system_threads/src/alarm.rt",
        "        self.wake(request.task);",
        {"row_is_full */\n    atomic { token[who] = true; who = 0;": "row_is_full */\n    atomic { who = 0;"},
    ),
    "unit rests for ever": Mutant(  # tests/mutants/excp_system/units_at_rest_sleep_on.edit
        "excp_system/src/rota.rt",
        "        self.passes[place] -= 1;",
        {"worth(has_work(unit)) -> rests = false": "worth(has_work(unit)) && false -> rests = false"},
    ),
    "stop before the last delivery": Mutant(  # tests/mutants/system_threads/stop_before_the_last_delivery.edit
        "system_threads/src/run.rt",
        "            let runners = run_all(rt, alloc, system, alarm, runners, program);\n            stop.raise();",
        {"    tasks_ended == 2; /* system_threads/run.rt: run_all */\n    stop = true;": "    stop = true;\n    tasks_ended == 2;"},
    ),
}


def searched(model, size, *, ends=True, level="-O2"):
    """What spin prints of a search of all states: for orders in which the run does not end, or for states in which no thread goes
    on. It searches them all, or stops at the first fault. The compiler takes longer than a search of few states: `level` is for
    that."""
    with tempfile.TemporaryDirectory(prefix="models-") as room:
        with open(f"{room}/wakes.pml", "w", encoding="utf-8") as it:
            it.write(model)
        made = run(["spin", "-a", *size.macros(), "wakes.pml"], cwd=room, timeout=SECONDS)
        require(made.status == 0 and "Error" not in made.out, "spin cannot read the model", made)
        kind = [] if ends else ["-DSAFETY", "-DNOCLAIM"]
        built = run(["cc", level, "-w", f"-DMEMLIM={MEGABYTES}", *kind, "-o", "pan", "pan.c"], cwd=room, timeout=SECONDS)
        require(built.status == 0, "what spin made is not compiled", built)
        words = [*(["-a"] if ends else []), *(["-f"] if ends and size.polls else [])]
        return run(["./pan", *words, f"-m{DEPTH}"], cwd=room, timeout=SECONDS)


def counts(ran):
    """The faults that a search found, and how many states it went through."""
    found = re.search(r"errors: (\d+)\n\s*(\d+) states, stored", ran.out)
    require(ran.status == 0 and found, "the search has no result", ran)
    return int(found[1]), int(found[2])


def holds(size):
    """All states are searched: a run ends in each order in which each thread gets its turns. For most sizes a second search says
    too that until then some thread goes on; the first finds that as well, but says less."""
    texts = []
    for ends in (True,) if size.alarm or size.polls else (True, False):
        ran = searched(read(MODEL), size, ends=ends)
        faults, states = counts(ran)
        cut = re.search(r"not completed|too small|out of memory|reached -DMEMLIM", ran.out)
        require(not cut, "the search is cut", ran)
        require(faults == 0, "the run does not end" if ends else "no thread goes on", ran)
        texts.append(f"{states} states")
    words = ", ".join(f"{name} {value}" for name, value in vars(size).items())
    return f"{words}: {', '.join(texts)}"


def mutant_is_found(name):
    """Spin finds an order in which a run of the mutant does not end. The text that the mutant changes is in the code."""
    mutant, model = MUTANTS[name], read(MODEL)
    require(read(f"{TOP}/crates/{mutant.file}").count(mutant.text) == 1, f"{mutant.file} does not have once: {mutant.text.strip()}")
    for old, new in mutant.model.items():
        require(model.count(old) == 1, f"the model does not have once: {old}")
        model = model.replace(old, new)
    ran = searched(model, Size(), level="-O0")
    faults, states = counts(ran)
    require(faults > 0 and "acceptance cycle" in ran.out, "not found", ran)
    return f"{name}: found after {states} states"


def names_the_code():
    """The functions and types that the model names are in their files."""
    named = 0
    for crate, path, names in NAMED.findall(read(MODEL)):
        folder = f"{TOP}/crates/{crate}/src"
        code = read(f"{folder}/{path}") if os.path.isfile(f"{folder}/{path}") else ""
        require(code, f"the model names {crate}/{path}, which is no file")
        for name in re.split("::|, ", names):
            named += 1
            if not re.search(rf"\b(?:fn|struct|enum|trait) {name}\b", code):
                raise Failed(f"the model names {name} of {crate}/{path}, which is not there")
    require(named > 30, "the model names few functions")


def with_spin(judge, *given):
    """The judgement, unless spin or a compiler is missing."""
    if not shutil.which("spin") or not shutil.which("cc"):
        raise Skipped("spin or cc is missing")
    return judge(*given)


def cases(setup):
    sizes = {**SIZES, **(SIZES_LONG if setup.is_long else {})}
    for name, size in sizes.items():
        yield Case(name, lambda s=size: with_spin(holds, s), ORIGIN)
    for name in MUTANTS:
        yield Case(name, lambda n=name: with_spin(mutant_is_found, n), ORIGIN)
    yield Case("names the code", names_the_code, ORIGIN)
