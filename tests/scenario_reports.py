"""The JSON of a scenario (docs/REPORT.md), judged by what `step --trace` prints of it: the order of all entries, what each task
did, and the posts.
"""

import commands
import places
import reports
from harness import require

# The first words of the lines before the first event.
SET_UP = "tasks", "disk", "tape", "printer", "rec", "block", "mark", "fault", "open", "area", "room"


def openings(script):
    """How many DCBs the set-up opens at each unit."""
    counts = {}
    for words in map(str.split, script.splitlines()):
        if words and not words[0].startswith("#"):
            if words[0] not in SET_UP:
                break
            if words[0] == "open":
                counts[int(words[1])] = counts.get(int(words[1]), 0) + 1
    return counts


def answers_of(text):
    """What `step --trace` prints, by its lines: the words of an event, its answer, and the entries that it made, each with its
    unit."""
    answers = []
    for line in text.splitlines():
        if line.startswith("# trace "):
            unit, entry = line.removeprefix("# trace ").split(": ", 1)
            answers[-1][2].append((int(unit), entry))
        else:
            words, answer = line.split(": ", 1)
            answers.append((words.split(), answer, []))
    return answers


def trace_line(unit, event):
    """The line of an event in `step --trace`, if it is no turn."""
    what = event["what"]
    name = f"{event['task']} {unit} {event['request']}" if "request" in event else ""
    if what == "opened":
        return f"Opened {event['dcb']} {event['way'].removesuffix('put')}"
    if what == "purge":
        scope = f"dcb {event['dcb_purged']}" if "dcb_purged" in event else f"task {event['task_purged']}"
        return f"Purge {scope} {event['mode']}"
    if what == "posted":
        return f"post {name} {event['code']} {event['address']} {event['status']} {event['residual']} {event['sense']} -"
    words = {"arrived": "Arrive", "started": "Start", "halted": "Halted", "closed": "Close", "reset": "Reset"}
    return f"{words[what]} {name or event['dcb']}"


def check_turns(unit, event, lines):
    """Turns that are one event of the JSON have its commands."""
    head = f"Ran {event['task']} {unit} {event['request']} "
    require(all(line.startswith(head) for line in lines), f"unit {unit}, entry {event['entry']}: other turns than {lines}")
    commands = sum(int(line.removeprefix(head)) for line in lines)
    require(commands == event["commands"], f"unit {unit}, entry {event['entry']}: {event['commands']} of {commands} commands")


def check_order(run, script, answers):
    """Each event has the place of its entry, and is the entry at that place."""
    made = [it for _, _, entries in answers for it in entries]
    opened, seen = openings(script), []
    for unit in run["units"]:
        number = unit["unit"]
        places = [0] * opened.get(number, 0) + [at for at, (of, _) in enumerate(made, 1) if of == number]
        require(len(places) == unit["entries"], f"unit {number} has {unit['entries']} of {len(places)} entries")
        for event in unit["events"]:
            entry = event["entry"]
            at = places[entry - 1]
            require(event["at"] == at, f"unit {number}, entry {entry} is at {event['at']}, and was made at {at}")
            if at == 0:
                require(event["what"] == "opened", f"unit {number}, entry {entry} is from before the first event")
                continue
            seen.append(at)
            if event["what"] == "ran":
                turns = [made[it - 1][1] for it in places[entry - 1 : entry - 1 + event["turns"]]]
                check_turns(number, event, turns)
            else:
                due = trace_line(number, event)
                require(made[at - 1][1] == due, f"unit {number}, entry {entry} is '{due}', and '{made[at - 1][1]}' was made")
    require(run["order"] == "run", f"the order is {run['order']}")
    require(len(seen) == len(set(seen)), "two entries are at one place")


def task_events_due(run, script, answers):
    """What each task did, by the answers."""
    due = [[] for _ in range(run["tasks"])]
    counts = openings(script)
    for words, answer, entries in answers:
        task = int(words[1]) if len(words) > 1 else None
        if words[0] == "excp" and answer.startswith("Accepted "):
            due[task].append({"what": "issued", "unit": int(words[2]), "request": int(answer.split()[3])})
        elif words[0] == "collect" and answer != "Quiet":
            due[task].append({"what": "collected", "unit": int(answer.split()[2]), "request": int(answer.split()[3])})
        elif words[0] in ("purge", "purgetask", "purgetaskat", "close", "reset"):
            for unit in dict.fromkeys(of for of, _ in entries):
                due[task].append({"what": "controlled", "unit": unit, "entry": counts.get(unit, 0) + 1})
        for unit, _ in entries:
            counts[unit] = counts.get(unit, 0) + 1
    return due


def check_tasks(run, script, answers):
    """Each task did what the answers say, in that order."""
    due = task_events_due(run, script, answers)
    for task, events in enumerate(run["task_events"]):
        require(events == due[task], f"task {task} did {events}, and by the answers {due[task]}")


def check_posts(run, answers):
    """The posts are those that were printed."""
    due = sorted((answer for _, answer, _ in answers if answer.startswith("post ")),
                 key=lambda it: [int(n) for n in it.split()[1:4]])
    actual = reports.posts_of(run).splitlines()[:-1]
    require(actual == due, f"the posts are {actual}, and {due} were printed")


def requests_of(script, answers):
    """The requests that were accepted, by their names: of each the address of its IOB, and its area."""
    areas = reports.areas_of(script)
    accepted = [(words, answer.split()) for words, answer, _ in answers if answer.startswith("Accepted ")]
    return {tuple(map(int, name[1:])): (int(words[4], 16), areas[words[5]]) for words, name in accepted}


def check(run, script, text):
    """Fails if the JSON of a scenario has another form, its parts disagree, or `step --trace` prints something else of it."""
    answers = answers_of(text)
    reports.check_form(run, "run", reports.FORM)
    reports.check_lists(run)
    reports.check_parts(run)
    reports.check_columns(run)
    reports.check_media(run)
    reports.check_causes(run)
    check_order(run, script, answers)
    check_tasks(run, script, answers)
    check_posts(run, answers)
    reports.check_iobs(run, requests_of(script, answers))
    places.check(script, requests_of(script, answers), commands.of_json(run))
