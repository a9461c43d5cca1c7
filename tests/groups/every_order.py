"""Every order of all steps of small jobs comes to the outcomes that `excp outcomes` finds.

The search of `outcomes` leaves orders out, because they are argued to lose nothing. tests/every_order.py goes through all of them
over the library, and takes two states for one only if all that the readers of their units tell is equal. The sets of posts, of whole
outputs and of media are compared. By their histories, the smallest jobs come to the same too, and so they do if
`outcomes` leaves no order out.
"""

import json
import os
import re

from every_order import Orders
from excp.images.ebcdic import seen
from excp.programs.library_choice import PLACE
from groups.outcomes import BY_HAND, MEDIA, SELDOM, TAPES, media_by, numbers_and_post, outcomes_of, told_by
from harness import LIBRARY, TOP, Case, Skipped, read, require
from small_jobs import small_job

ORIGIN = "docs/MANUAL.md, every outcome of a job: over all lawful orders of the steps"

# How many small jobs there are, also in the long form, and how many are one case. Each runs by two turns, and one in so many by a
# third. By the second one media are not compared, which takes as long as to compare posts. Of the jobs of a case so many may be left
# unfinished by each turn.
JOBS = 200
JOBS_LONG = 2_000
BATCH = 20
SHORT_TURN = 2
TURNS = 1, SHORT_TURN
LONG_TURN, LONG_TURNS = 64, 10
UNFINISHED = 1

# The turn of `outcomes` without `--turn`.
USUAL_TURN = 64

# The most states of a job.
MOST_STATES = 600_000

# At least one job in so many has requests to two units, and a task that goes on after it waited for a request.
WAITS = 12

# How many smallest jobs there are by their histories, also in the long form, and the most states of one.
HISTORIES = 40
HISTORIES_LONG = 200
MOST_HISTORIES = 10_000

# How many smallest jobs are searched without reductions, also in the long form, and the most states of one.
UNREDUCED = 20
UNREDUCED_LONG = 200
MOST_UNREDUCED = 10_000

# From so many outcomes of a request on, `outcomes` prints the first of each code without `--all`.
GROUPED = 8

COMMANDS = "excp", "purge", "purgetask", "close", "reset", "wait"


def every_order(script, turn, most=MOST_STATES, by_history=False):
    """The posts of each request by its numbers, the whole outputs, and the media of each unit, as the lines of records. There is nothing
    if a job has more states."""
    if not os.path.exists(LIBRARY):
        raise Skipped("no library in out/library: tools/library.py builds one")
    os.environ[PLACE] = LIBRARY
    orders = Orders(script, turn, by_history)
    if not orders.go_through(most):
        return None
    orders.make_again()
    told = {}
    for name, post in (numbers_and_post(line) for output in orders.outputs() for line in output):
        told.setdefault(name, set()).add(post)
    return told, orders.outputs(), orders.media


def parts_of(unit, medium):
    """What a medium has at each place, as it is told; and what is told of a place where it has nothing."""
    size, *rest = [json.loads(it) for it in f'{{"what":"medium"{medium.decode()}'.splitlines()]
    if "cylinders" in size:
        return {(it["cylinder"], it["head"], it["nth"]): (record_told(unit, it),) for it in rest}, "# no record {2} on track {0} {1}"
    if "count" in size:
        return {(number,): (f"# item {number}", item_told(unit, it["block"])) for number, it in enumerate(rest, 1)}, "# no item {0}"
    return {(number,): (line_told(it),) for number, it in enumerate(rest, 1)}, "# no printed line {0}"


def line_told(line):
    digits = line["bytes"]
    return f"# page {line['page']} line {line['line']}: {digits or '-'} |{seen(bytes.fromhex(digits))}|"


def record_told(unit, record):
    track, number = f"{record['cylinder']} {record['head']}", int(record["id"][8:], 16)
    key, data = record["key"] or "-", record["data"] or "-"
    if record["nth"] and number and record["id"][:8] == f"{record['cylinder']:04X}{record['head']:04X}":
        return f"rec {unit} {track} {number} {key} {data}"
    return f"# no line declares, on track {track}: CCHHR {record['id']}, key {key}, data {data}"


def item_told(unit, block):
    return f"mark {unit}" if block is None else f"block {unit} {block or '-'}"


def media_told(media):
    """What is told of the media of each unit, if it has several: all that differs."""
    told = {}
    for unit, of_unit in enumerate(media):
        parts, nothing = zip(*(parts_of(unit, it) for it in of_unit))
        places = sorted({place for it in parts for place in it})
        differ = [place for place in places if len({it.get(place) for it in parts}) > 1]
        if differ:
            told[unit] = {sum((it.get(place) or (nothing[0].format(*place),) for place in differ), ()) for it in parts}
    return told


def outcomes(setup, script, *words):
    """What `outcomes` finds: the posts of each request, and the whole outputs."""
    told, outputs, last = told_by(setup, script, "--whole", "--all", *words)
    is_whole = re.search(rf", {len(outputs)} whole outputs?\)$", last) and not last.startswith("not all")
    require(is_whole, f"the last line is {last!r}")
    found = [tuple(f"post {name} {post}" for name, post in it.items()) for it in outputs]
    require(len(set(found)) == len(found), "a whole output is printed twice")
    return {name: set(posts) for name, posts in told.items()}, set(found)


def grouped(posts):
    """The posts of a request that are printed without `--all`."""
    if len(posts) < GROUPED:
        return set(posts)
    first = {post[:2]: post for post in sorted(posts, reverse=True)}
    return set(first.values())


def is_equal(setup, script, turn=USUAL_TURN):
    """Whether every order was tried. If so, it comes to the outcomes that `outcomes` finds."""
    found = every_order(script, turn)
    if not found:
        return False
    words = "--turn", str(turn)
    told, outputs = outcomes(setup, script, *words)
    alone = {name: set(posts) for name, posts in outcomes_of(setup, script, *words)[0].items()}
    if turn != SHORT_TURN:
        media = media_by(setup, script, "--all", "--seeds", "0", *words)[0]
        require(media == media_told(found[2]), f"the media are {media}, and those of every order {media_told(found[2])}; of\n{script}")
    some = {name: grouped(posts) for name, posts in told.items()}
    require(some == alone, f"the outcomes with whole outputs are {some}, and without them {alone}; of\n{script}")
    require(told == found[0], f"the outcomes are {told}, and those of every order {found[0]}; of\n{script}")
    require(outputs == found[1], f"the whole outputs are {outputs}, and those of every order {found[1]}; of\n{script}")
    return True


def job(number):
    """A small job: two units and up to three tasks, with purges, closes, resets and waits."""
    return small_job(f"every order {number}", tasks=3, units=2, requests=5, controls=3, waits=2)


def are_equal(setup, first):
    """Small jobs from this one on have the same outcomes."""
    left = []
    for number in range(first, first + BATCH):
        turns = TURNS if number % LONG_TURNS else (*TURNS, LONG_TURN)
        left += [f"job {number} by turns of {turn}" for turn in turns if not is_equal(setup, job(number), turn)]
    require(len(left) <= UNFINISHED * len(TURNS), f"too many are not finished: {', '.join(left)}")
    return f"not finished: {', '.join(left)}" if left else ""


def waits_at_two_units(script):
    """Whether a job has requests to two units, and a task that goes on after it waited for a request."""
    lines = [it.split() for it in script.splitlines()]
    commands = [it for it in lines if it[0] in COMMANDS]
    tasks = {it[1] for it in commands}
    units = {it[2] for it in commands if it[0] == "excp"}
    return len(units) == 2 and any(goes_on([it[0] for it in commands if it[1] == task]) for task in tasks)


def goes_on(verbs):
    """Whether a task with these commands waits for a request, and goes on."""
    waits = [at for at, verb in enumerate(verbs) if verb == "wait"]
    return any("excp" in verbs[:at] and at + 1 < len(verbs) for at in waits)


def have_waits(jobs):
    """Enough of the small jobs have two units and a task that waits."""
    count = sum(waits_at_two_units(job(number)) for number in range(jobs))
    require(count * WAITS >= jobs, f"only {count} of {jobs} jobs have two units and a task that waits")


def is_same_by_history(first):
    """The smallest jobs come to the same if states are one only if the histories of their books are equal. So no reader of a book
    was left out that matters."""
    for number in range(first, first + BATCH):
        script = small_job(f"history {number}", tasks=2, units=2, requests=3, controls=2, waits=1)
        for turn in TURNS:
            by_history = every_order(script, turn, MOST_HISTORIES, by_history=True)
            if by_history:
                require(every_order(script, turn)[:2] == by_history[:2], f"by their histories, units come to other posts; of\n{script}")


def states_of(last):
    """How many states a search had, by its last line."""
    return int(re.search(r"(\d+) states?\b", last)[1])


def is_same_without_reductions(setup, first):
    """Small jobs from this one on have the same outcomes, whole outputs and media if no order is left out, and then more states."""
    done = more = 0
    for number in range(first, first + BATCH):
        script = small_job(f"reductions {number}", tasks=2, units=2, requests=3, controls=2, waits=1)
        words = "--all", "--seeds", "0"
        every = *words, "--no-reductions", "--most-states", str(MOST_UNREDUCED), "--turn", "1"
        told, outputs, last = told_by(setup, script, "--whole", *every)
        if last.startswith("not all"):
            continue
        require("(turns of 1 command, no reductions, " in last, f"the last line is {last!r}")
        *usual, reduced = told_by(setup, script, "--whole", *words)
        require(sets_of(told, outputs) == sets_of(*usual), f"without reductions there are other outcomes; of\n{script}")
        more += states_of(last) - states_of(reduced)
        media = media_by(setup, script, *every)[0]
        require(media == media_by(setup, script, *words)[0], f"without reductions there are other media; of\n{script}")
        done += 1
    require(done * 2 >= BATCH, f"only {done} searches without reductions come to their ends")
    require(more > 0, f"without reductions there are {more} states more: orders are left out")


def sets_of(told, outputs):
    """Outcomes by their requests, and whole outputs, in no order."""
    return {name: set(posts) for name, posts in told.items()}, {tuple(sorted(it.items())) for it in outputs}


def is_cut():
    """A search that ends early says so."""
    require(every_order(TAPES, USUAL_TURN, most=20) is None, "a search of 20 states comes to its end")


def is_complete(setup, script, words=()):
    """Every order of a job is tried, and comes to the same. Its options may have the turn."""
    turn = int(words[1]) if words[:1] == ("--turn",) else USUAL_TURN
    require(is_equal(setup, script, turn), "it is not finished")


def cases(setup):
    for name, (script, words, _) in BY_HAND.items():
        yield Case(f"by hand, {name}", lambda s=script, w=words: is_complete(setup, s, w), ORIGIN)
    for name, (script, _) in MEDIA.items():
        yield Case(f"media, {name}", lambda s=script: is_complete(setup, s), ORIGIN)
    for name, (words, _, _) in SELDOM.items():
        file = f"tests/cases/outcomes/{name}.script"
        yield Case(file, lambda f=file, w=words: is_complete(setup, read(f"{TOP}/{f}"), w), ORIGIN)
    yield Case("three of four outputs", lambda: is_complete(setup, TAPES), ORIGIN)
    yield Case("a search that is cut", is_cut, ORIGIN)
    jobs, histories = (JOBS_LONG, HISTORIES_LONG) if setup.is_long else (JOBS, HISTORIES)
    yield Case("two units and a task that waits", lambda: have_waits(jobs), ORIGIN)
    for first in range(0, jobs, BATCH):
        yield Case(f"small jobs from {first}", lambda f=first: are_equal(setup, f), ORIGIN)
    for first in range(0, UNREDUCED_LONG if setup.is_long else UNREDUCED, BATCH):
        yield Case(f"without reductions from {first}", lambda f=first: is_same_without_reductions(setup, f), ORIGIN)
    for first in range(0, histories, BATCH):
        yield Case(f"histories from {first}", lambda f=first: is_same_by_history(f), ORIGIN)
