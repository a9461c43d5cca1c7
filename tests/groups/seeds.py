"""Runs by a seed (`excp report --seed N`, docs/MANUAL.md): the same run each time, of which the scenario that `--scenario` writes
comes to the same end, and whose report tests/reports.py judges as it judges those of threads.
"""

import json
import os
import tempfile

import reports
from groups.reports import as_json, stored
from harness import SAMPLES, Case, expect, expect_text, read, require, run
from small_jobs import small_job

ORIGIN = "docs/MANUAL.md"

# How many small jobs there are, also in the long form, and how many are one case.
JOBS = 100
JOBS_LONG = 1000
BATCH = 25

# How many seeds run a race.
RACES = 100

SEEDS = "0", "1", "2", "18446744073709551615"

# Why a scenario is not written to a file that the command names for something else.
TAKEN = "this command reads or saves it: name another file"

TAPE = "tasks 1\ntape 0 0 1000\n"


def posts_of(run):
    """The posts of a run as JSON, with all but the names of entries."""
    return sorted(json.dumps(post, sort_keys=True) for post in run["posts"])


def is_same(setup, script, seed):
    """A seed gives the same report each time, right by the rules, and a scenario that comes to the same end."""
    with tempfile.TemporaryDirectory() as folder:
        file = f"{folder}/run.scenario"
        words = "report", "--json", "--seed", seed
        ran = setup.run(*words, "--scenario", file, script=script)
        run = as_json(ran)
        require(run["order"] == "run", "the order between units is open", ran)
        reports.check(run, script)
        expect_text("another run", ran, ran.out, setup.run(*words, script=script).out)
        stepped = as_json(setup.run("step", "--json", script=read(file)))
        require(posts_of(run) == posts_of(stepped), "the scenario comes to other posts", ran)
        for mine, other in zip(run["units"], stepped["units"], strict=True):
            for part in "events", "medium":
                require(mine[part] == other[part], f"the scenario comes to another {part} of unit {mine['unit']}", ran)


def are_same(setup, first):
    for number in range(first, first + BATCH):
        is_same(setup, small_job(number, tasks=4, units=3, requests=8, controls=3, waits=2), str(number))


def spellings(folder):
    """Words that name the script of a folder, its scenario, and what its input is, so that the scenario is the script."""
    script, link = f"{folder}/a.script", f"{folder}/link"
    os.symlink("a.script", link)
    yield [script, "--scenario", script], None
    yield [script, "--scenario", f"{folder}/./a.script"], None
    yield [script, "--scenario", os.path.relpath(script)], None
    yield [script, "--scenario", link], None
    yield [link, "--scenario", script], None
    yield ["--scenario", script], script
    yield ["-", "--scenario", link], script
    yield ["/dev/stdin", "--scenario", script], script


def leaves_its_script(setup):
    """A scenario is not written to the script, by whatever name."""
    with tempfile.TemporaryDirectory() as folder:
        script = small_job(1, tasks=2, units=1, requests=2, controls=0, waits=0)
        for words, stdin in spellings(folder):
            with open(f"{folder}/a.script", "w", encoding="utf-8") as it:
                it.write(script)
            with open(stdin or os.devnull, encoding="utf-8") as source:
                ran = run(setup.command("report", "--posts", "--seed", "1", *words), stdin=source)
            name = words[words.index("--scenario") + 1]
            expect(ran, (1, "", f"excp: {name}: {TAKEN}\n"))
            require(read(f"{folder}/a.script") == script, "the script is no longer what it was", ran)


def leaves_script_named_as_input(setup):
    """A script whose name is the one that messages have for standard input is a file as any other."""
    with tempfile.TemporaryDirectory() as folder:
        script = small_job(1, tasks=2, units=1, requests=2, controls=0, waits=0)
        with open(f"{folder}/<stdin>", "w", encoding="utf-8") as it:
            it.write(script)
        words = "report", "--posts", "--seed", "1", "<stdin>", "--scenario", "./<stdin>"
        ran = run(setup.command(*words), cwd=folder)
        expect(ran, (1, "", f"excp: ./<stdin>: {TAKEN}\n"))
        require(read(f"{folder}/<stdin>") == script, "the script is no longer what it was", ran)


def leaves_its_image(setup):
    """It is not written to an image that is loaded or saved either, and no image is saved then."""
    with tempfile.TemporaryDirectory() as folder:
        saved, link = f"{folder}/new.aws", f"{folder}/link"
        words = "report", "--posts", "--seed", "1", "--save"
        made = setup.run(*words, f"0={saved}", script=TAPE)
        require(made.status == 0, "the image is not made", made)
        with open(saved, "rb") as it:
            image = it.read()
        os.symlink("new.aws", link)
        for option in "--save", "--load":
            ran = setup.run(*words[:-1], option, f"0={saved}", "--scenario", link, script=TAPE)
            expect(ran, (1, "", f"excp: {link}: {TAKEN}\n"))
            with open(saved, "rb") as it:
                require(it.read() == image, "the image is no longer what it was", ran)
        require(sorted(os.listdir(folder)) == ["link", "new.aws"], "a file is left", ran)


def other_seed_differs(setup):
    """Other seeds can give other posts, where there are such."""
    script = read(f"{SAMPLES}/outcomes/a-halt.script")
    ended = {setup.run("report", "--posts", "--seed", str(seed), script=script).out for seed in range(RACES)}
    require(len(ended) > 1, f"{RACES} seeds give the same posts of a race")


def cases(setup):
    yield Case("another seed", lambda: other_seed_differs(setup), ORIGIN)
    yield Case("a scenario leaves its script", lambda: leaves_its_script(setup), ORIGIN)
    yield Case("a scenario leaves a script named <stdin>", lambda: leaves_script_named_as_input(setup), ORIGIN)
    yield Case("a scenario leaves images", lambda: leaves_its_image(setup), ORIGIN)
    for name, script, _ in stored():
        for seed in SEEDS:
            yield Case(f"{name}, seed {seed}", lambda s=script, n=seed: is_same(setup, s, n), ORIGIN)
    for first in range(0, JOBS_LONG if setup.is_long else JOBS, BATCH):
        yield Case(f"small jobs from {first}", lambda f=first: are_same(setup, f), ORIGIN)
