"""The lanes of commands of a page (docs/REPORT.md), and the panes of programs in its panels, against what an independent reader
takes from the JSON alone."""

import collections
import json
import re

import pages
from harness import require

# A run with more requests has no lanes of commands, and one with fewer no tables.
MOST_PROGRAMS = 20
FEWEST_IN_TABLES = 10

# The texts of the cells of each lane of commands. A number after a group counts its rounds.
CELLS = """Object.fromEntries([...document.querySelectorAll('.program-lane')].map(lane => [lane.dataset.request,
  [...lane.querySelector('.cells').childNodes].map(it => it.className === 'group'
    ? [[...it.querySelectorAll('.cell')].map(cell => cell.textContent), it.lastChild.textContent] : it.textContent)]))"""

_CELL = re.compile("(✕ )?(\\S+?)(?: ×([0-9,]+))?")


def check_programs(run, found, has_tables):
    """Fails if a page lacks a lane of commands, a command in it, or the sign of one that failed; or has tables for few requests."""
    requests = list(pages.requests_of(run))
    require(has_tables == (len(requests) >= FEWEST_IN_TABLES), f"a page of {len(requests)} requests has tables: {has_tables}")
    if len(requests) > MOST_PROGRAMS:
        return require(not found, f"a page of {len(requests)} requests has lanes of commands")
    require(set(found) == {request[0] for request in requests}, f"there are lanes of commands of {sorted(found)}")
    for name, _, events, *_ in requests:
        check_lane(name, commands_of(run, events, mnemonics_of(run, name)), found[name])


def mnemonics_of(run, name):
    """The mnemonics of the CCWs in the program of a request, as the page has the script, by their addresses and bytes."""
    task, unit, number = map(int, name[1:].split("-"))
    issued = [(it["unit"], it["request"]) for it in run["task_events"][task] if it["what"] == "issued"]
    numbers = run["job"]["requests"][task] if run["job"] else []
    if len(issued) != len(numbers):
        return {}
    program = run["job"]["programs"][numbers[issued.index((unit, number))]]
    return {(ccw["at"], ccw["image"]): ccw["mnemonic"] for ccw in program if ccw["mnemonic"]}


def check_lane(name, commands, parts):
    """Fails if a lane has other commands. Of a long one it has the first and the last cells."""
    cut = next((place for place, part in enumerate(parts) if isinstance(part, str) and part.startswith("… ")), None)
    before, after = shown(parts[:cut]), shown(parts[cut + 1 :]) if cut is not None else []
    end = len(commands) - len(after)
    require(commands[end:] == after, f"the lane of {name} ends with {after[-9:]}, and not with {commands[-9:]}")
    at = next((at for at, (one, other) in enumerate(zip(before, commands)) if one != other), len(before))
    is_whole = at == len(before) and (cut is not None or len(before) == end)
    require(is_whole, f"the lane of {name} has {before[at : at + 9]} after {at} commands, and not {commands[at : at + 9]}")


def shown(parts):
    """The commands of the cells of a lane, one by one, each with whether it failed."""
    found = []
    for part in parts:
        if isinstance(part, list):
            cells, times = part
            found += int(times[1:].replace(",", "")) * shown(cells)
        elif not part.startswith("attempt"):
            cell = _CELL.fullmatch(part)
            if cell is not None:
                found += [(cell[2], False)] * (int((cell[3] or "1").replace(",", "")) - 1) + [(cell[2], bool(cell[1]))]
    return found


def commands_of(run, events, mnemonics):
    """The CCWs of a request, one by one, each with whether it failed. Of attempts in a row that differ in their faults alone, the
    first. A transfer back to the same command is not named. A CCW that was rejected has the mnemonic of the script."""
    found, last, attempt = [], None, []
    for event in [*events, {"what": "started"}]:
        if event["what"] == "ran":
            attempt.append(run["steps"][event["steps"]])
        elif event["what"] == "started" and attempt:
            key = re.sub(r'"fault": \d+', '"fault": 1', json.dumps(attempt))
            if key != last:
                found += commands_in([step for steps in attempt for step in steps], mnemonics)
            last, attempt = key, []
    return found


def commands_in(steps, mnemonics):
    found, before = [], None
    for step in (it for step in steps for _ in range(step.get("times", 1)) for it in step.get("loop", [step])):
        chain = [(ccw["at"], name_of(ccw), has_failed(step, ccw["at"])) for ccw in step["ccws"]]
        rule = step.get("rule")
        if rule and rule["at"] not in [at for at, *_ in chain]:
            name = operation(rule["image"]) if rule["image"] else rule["at"]
            chain.append((rule["at"], mnemonics.get((rule["at"], rule["image"]), name), True))
        is_again = before is not None and len(chain) == 1 and before[0] == chain[0][0]
        if before is not None and before[1] not in (None, chain[0][0]) and not is_again:
            found.append(("TIC", False))
        if is_again:
            chain = [(chain[0][0], found[-1][0], chain[0][2])]
            found[-1] = (found[-1][0], False)
        for place, (at, name, is_bad) in enumerate(chain):
            if 0 < place < len(step["ccws"]) and int(at, 16) != int(chain[place - 1][0], 16) + 8:
                found.append(("TIC", False))
            found.append((name, is_bad))
        before = chain[-1][0], step.get("next")
    return found


def name_of(ccw):
    return ccw["mnemonic"] or ("data" if ccw["name"] == "data" else operation(ccw["image"]))


def operation(image):
    return "TIC" if image[1] == "8" else f"X'{image[:2]}'"


def has_failed(step, at):
    """Whether a CCW broke a rule, or its step met a fault or has more than a normal end."""
    if "rule" in step:
        return step["rule"]["at"] == at
    return bool(int(step["status"], 16) & 0x03FF or step["fault"])


# The most rows of a pane.
MOST_CCWS = 200


def check_pane(run, request, rows):
    """Fails if a pane has other counts of hits than the steps of its request."""
    name, _, events, *_ = request
    wanted = hits_of(run, events)
    found = {at: int(hits.replace(",", "")) for at, hits in rows if hits != "·"}
    require(len(rows) == MOST_CCWS or found == wanted, f"the pane of {name} has the hits {found}, and not {dict(wanted)}")
    require([at for at, _ in rows] == sorted(at for at, _ in rows), f"the pane of {name} is not in order")


def hits_of(run, events):
    """How often each CCW of a request was hit, transfers and the CCW that broke a rule too, by addresses."""
    hits, goes_on = collections.Counter(), None
    for event in events:
        if event["what"] == "started":
            goes_on = None
        for step in run["steps"][event["steps"]] if event["what"] == "ran" else ():
            for it in step.get("times", 1) * step.get("loop", [step]):
                chain = [ccw["at"] for ccw in it["ccws"]]
                rule = [it["rule"]["at"]] if "rule" in it and it["rule"]["at"] not in chain else []
                nexts = [goes_on, *(f"{int(at, 16) + 8:06X}" for at in chain[:-1])]
                hits.update(due for due, at in zip(nexts, chain or rule) if due not in (None, at))
                hits.update(chain + rule)
                goes_on = it.get("next")
    return hits
