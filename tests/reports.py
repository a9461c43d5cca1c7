"""The JSON of a run (docs/REPORT.md), judged without the program: its form, what its parts say of one another, and the text
report that it comes to.
"""

import copy
import json
import re

import commands
import places
from harness import TOP, Failed, read, require

DOCUMENT = f"{TOP}/docs/REPORT.md"

# Texts of hexadecimal digits, with their number of digits if it is always the same.
HEXADECIMAL = {"address": 6, "status": 4, "residual": 4, "sense": 4, "iob_at": 6, "iob": 80, "image": 16, "id": 10,
               "shown": None, "key": None, "data": None, "code": 2, "seek": 16, "start": 6}

# The kinds of media and of places, each by a member that only it has.
MEDIA = {"cylinders": "disk", "count": "tape in part", "items": "tape", "lines": "printer"}
PLACES = "passed", "record", "item", "page"

# The most bytes of keys and data, or of blocks, of a medium that is whole.
WHOLE_BYTES = 1 << 20


# --- the form


def kind_of(value, path):
    """The kind of an object: its path, and what tells it from others at the same path."""
    told = [str(value[key]) for key in ("what", "kind") if key in value]
    path = {"loop": "steps", "last_place": "place"}.get(path, path)
    if path == "steps":
        told.append("loop" if "loop" in value else "rule" if "rule" in value else "command")
    elif path == "medium" or value.get("what") == "medium":
        told.append(next(kind for key, kind in MEDIA.items() if key in value))
    elif path == "place":
        told.append(next(key for key in PLACES if key in value))
    return " ".join([path, *told])


def name_of(value):
    """The type of a value."""
    return "list" if isinstance(value, list) else "object" if isinstance(value, dict) else type(value).__name__


def add_form(value, path, forms):
    """Adds to the forms what a value says of its kind: the types of its members, and which members all of the kind have."""
    if isinstance(value, list):
        for item in value:
            forms.setdefault(f"items of {path}", set()).add(name_of(item))
            add_form(item, path, forms)
    elif isinstance(value, dict):
        kind = kind_of(value, path)
        members = forms.setdefault(kind, {})
        needed = forms.setdefault(f"needed {kind}", set(value))
        needed &= set(value)
        for key, member in value.items():
            members.setdefault(key, set()).add(name_of(member))
            add_form(member, key, forms)


def form():
    """The form that the example of the document shows."""
    text = re.search(r"^```json\n(.*?)^```$", read(DOCUMENT), re.M | re.S)[1]
    forms = {}
    add_form(json.loads(text), "run", forms)
    return forms


FORM = form()


def form_of_lines():
    """The form of the lines of a record that the document shows. Places, rules and what they list are as in the JSON."""
    lines = lines_of(re.search(r"^```jsonl\n(.*?)^```$", read(DOCUMENT), re.M | re.S)[1])
    is_shared = re.compile("(needed )?(place .*|rule)|items of (ids|keys|active|from|to)").fullmatch
    forms = {kind: copy.copy(members) for kind, members in FORM.items() if is_shared(kind)}
    add_form(lines, "line", forms)
    return forms


def lines_of(text):
    """The lines of a record as objects, without the place of an event among those of all units, which each event has or none."""
    lines = [json.loads(line) for line in text.splitlines()]
    return [{key: value for key, value in line.items() if key != "at"} for line in lines]


def check_form(value, path, forms):
    """Fails if a value is of no kind that the forms have, or lacks a member, or has another one or another type."""
    if isinstance(value, list):
        for item in value:
            if name_of(item) not in forms.get(f"items of {path}", ()):
                raise Failed(f"{path} has an item {json.dumps(item)[:80]}")
            check_form(item, path, forms)
    elif isinstance(value, dict):
        kind = kind_of(value, path)
        require(kind in forms, f"docs/REPORT.md has no object '{kind}'")
        missing = forms[f"needed {kind}"] - set(value)
        require(not missing, f"an object '{kind}' lacks {', '.join(sorted(missing))}")
        for key, member in value.items():
            if name_of(member) not in forms[kind].get(key, ()):
                raise Failed(f"'{key}' of '{kind}' is {json.dumps(member)[:80]}")
            if key in HEXADECIMAL and isinstance(member, str) and not (key == "address" and "moved" in value and not member):
                digits = HEXADECIMAL[key]
                if not re.fullmatch(r"([0-9A-F]{2})*", member) or digits not in (None, len(member)):
                    raise Failed(f"'{key}' of '{kind}' is {member[:80]}")
            check_form(member, key, forms)


# --- what the parts say of one another


def posts_of(run):
    """The lines of `run`."""
    keys = "task", "unit", "request", "code", "address", "status", "residual", "sense"
    lines = ["post " + " ".join(str(post[key]) for key in keys) + f" {post['shown'] or '-'}" for post in run["posts"]]
    return "".join(f"{line}\n" for line in [*lines, f"end {len(lines)}"])


def steps_of(run, event):
    """The steps of an event."""
    return run["steps"][event["steps"]] if event["what"] == "ran" else []


def at_time(step, time, times):
    """A step at one of the times that a loop comes. Its place is known of the first and the last time."""
    found = {key: it for key, it in step.items() if key not in ("place", "last_place")}
    if "place" in step:
        last = step.get("last_place", step["place"])
        found["place"] = step["place"] if time == 0 else last if time == times - 1 else None
    return found


def unfolded(steps):
    """Steps without loops."""
    for step in steps:
        if "loop" in step:
            for time in range(step["times"]):
                yield from (at_time(it, time, step["times"]) for it in step["loop"])
        else:
            yield step


def each(steps):
    """Each step, once even if it repeats."""
    for step in steps:
        yield from step.get("loop", [step])


def check_lists(run):
    """Each list of steps is there once, in the order in which events first have them."""
    numbers = [event["steps"] for unit in run["units"] for event in unit["events"] if event["what"] == "ran"]
    require(list(dict.fromkeys(numbers)) == list(range(len(run["steps"]))), f"of {len(run['steps'])} lists events have {numbers}")
    texts = {json.dumps(it, sort_keys=True) for it in run["steps"]}
    require(len(texts) == len(run["steps"]), f"of {len(run['steps'])} lists of steps {len(texts)} differ")


def check_columns(run):
    """Each event has its column, or its place in the order of the run. Columns keep the order of each unit, and what each task did
    one after another: what it issued or controlled comes after the posts that it collected before, and after what it controlled
    before."""
    columns, taken = {}, []
    for unit in run["units"]:
        number, last, is_set_up = unit["unit"], 0, True
        for event in unit["events"]:
            require(("at" in event, "column" in event) == (run["order"] == "run", run["order"] == "units"),
                    f"no such order: {event}")
            if run["order"] == "run":
                continue
            is_set_up = is_set_up and event["what"] == "opened"
            column = event["column"]
            right = column == 0 if is_set_up else column > last
            require(right, f"unit {number}, entry {event['entry']} has column {column} after {last}")
            last = column
            taken += [column] if column else []
            columns[number, event["entry"]] = column
            if event["what"] in ("arrived", "posted"):
                columns[event["what"], number, event["task"], event["request"]] = column
    require(sorted(taken) == list(range(1, len(taken) + 1)), f"the columns are {sorted(taken)}")
    for task, events in enumerate(run["task_events"] if columns else []):
        latest = 0
        for event in events:
            what, unit = event["what"], event.get("unit")
            if what == "collected":
                latest = max(latest, columns["posted", unit, task, event["request"]])
            elif what in ("issued", "controlled"):
                key = ("arrived", unit, task, event["request"]) if what == "issued" else (unit, event["entry"])
                require(columns[key] > latest, f"{key} has column {columns[key]}, and its task waited for {latest}")
                latest = columns[key] if what == "controlled" else latest


def size_of(medium):
    """How many bytes of keys and data, or of blocks, a medium shows."""
    parts = [it["key"] + it["data"] for it in medium.get("records", ())] + [it or "" for it in medium.get("items", ())]
    return sum(len(it) for it in parts) // 2


def check_media(run):
    """A medium is whole up to its bound. Of another one the tracks or items are there that steps name, as far as these are
    known."""
    for unit in run["units"]:
        medium, named = unit["medium"], []
        size = size_of(medium)
        require(not medium["whole"] or size <= WHOLE_BYTES, f"unit {unit['unit']} has {size} bytes, and is whole")
        if medium["whole"]:
            continue
        for event in unit["events"]:
            for step in each(steps_of(run, event)):
                named += [step[key] for key in ("place", "last_place") if key in step]
        if unit["kind"] == "disk":
            named = {(it["cylinder"], it["head"]) for it in named if "record" in it}
            there = {(it["cylinder"], it["head"]) for it in medium["records"]}
        else:
            require(len(medium["items"]) == len(medium["numbers"]), f"unit {unit['unit']}: items without a number")
            named = {it["item"] for it in named if it["item"] <= medium["count"]}
            there = set(medium["numbers"])
        require(named <= there, f"unit {unit['unit']}: steps were at {named}, and {there} are there")


def causes(unit):
    """Of each post of a unit why it was posted, by which entry, and whether it sets the error flag, by the rules of
    docs/SPECIFICATION.md: from its events, one after another, with all that waits."""
    dcbs, waiting, active, halting, found = {}, [], None, None, {}
    last = None

    def doomed(request):
        dcb = dcbs.get(request["dcb"], {"closed": None, "flag": None, "opened": False})
        if not dcb["opened"] or dcb["closed"]:
            return ("its DCB is not open" if request["came"] else "its DCB was closed"), dcb["closed"]
        if request["related"] and dcb["flag"]:
            return "a related request ended in error", dcb["flag"]
        return None

    for event in unit["events"]:
        what, entry = event["what"], event["entry"]
        name = event.get("task"), event.get("request")
        for request in waiting:
            request["came"] = False
        if what == "opened":
            dcbs[event["dcb"]] = {"opened": True, "closed": None, "flag": None}
        elif what == "arrived":
            request = {"name": name, "dcb": event["dcb"], "related": event["related"], "purged": None, "came": True}
            request["doom"] = doomed(request)
            waiting.append(request)
        elif what == "started":
            if active is None or active["name"] != name:
                active = next(it for it in waiting if it["name"] == name)
                waiting.remove(active)
            halting, active["halted"] = None, False
        elif what == "halted":
            active["halted"] = True
        elif what == "purge":
            covers = lambda it: it["dcb"] == event["dcb_purged"] if "dcb_purged" in event else it["name"][0] == event["task_purged"]
            for request in waiting:
                if covers(request):
                    request["doom"] = "purged", entry
            if active and covers(active) and event["mode"] == "halt" and halting is None:
                halting = entry
        elif what == "closed":
            dcbs[event["dcb"]]["closed"] = entry
            for request in waiting:
                if request["dcb"] == event["dcb"]:
                    request["doom"] = "its DCB was closed", entry
        elif what == "reset":
            dcbs[event["dcb"]]["flag"] = None
        elif what == "posted":
            if active and active["name"] == name:
                request, active = active, None
                by_purge = "halted" if request["halted"] else "not tried again"
                found[entry] = (by_purge, halting) if event["code"] == "48" else (None, None)
            else:
                request = next(it for it in waiting if it["name"] == name)
                waiting.remove(request)
                outside = "its disk address is outside the extents", None
                found[entry] = outside if event["code"] == "42" else request["doom"]
            sets_flag = event["code"] in ("41", "42") and request["related"]
            found[entry] = *found[entry], sets_flag
            if sets_flag:
                dcb = dcbs[request["dcb"]]
                dcb["flag"] = dcb["flag"] or entry
                for it in waiting:
                    if it["dcb"] == request["dcb"] and it["related"]:
                        it["doom"] = it.get("doom") or ("a related request ended in error", entry)
    return found


def check_causes(run):
    for unit in run["units"]:
        due = causes(unit)
        for event in unit["events"]:
            if event["what"] == "posted":
                actual, wanted = (event["why"], event["doomed_by"], "sets_flag" in event), due[event["entry"]]
                require(actual == wanted, f"unit {unit['unit']}, entry {event['entry']}: {actual}, and by the rules {wanted}")


def check_parts(run):
    """Posts, entries, controls and commands agree with one another."""
    posts = {(it["task"], it["unit"], it["request"]): it for it in run["posts"]}
    controls = {}
    for task, events in enumerate(run["task_events"]):
        for event in events:
            if event["what"] == "controlled":
                controls[event["unit"], event["entry"]] = task
    seen = 0
    for unit in run["units"]:
        number, entries = unit["unit"], 0
        for event in unit["events"]:
            require(event["entry"] == entries + 1, f"unit {number}: entry {event['entry']} follows {entries}")
            entries += event.get("turns", 1)
            if event["what"] == "posted" and (event["task"], number, event["request"]) in posts:
                post = posts[event["task"], number, event["request"]]
                same = all(post[key] == event[key] for key in ("code", "address", "status", "residual", "sense"))
                require(same, f"unit {number}, entry {event['entry']}: another post than that of the task")
                seen += 1
            elif event["what"] == "posted":
                # a scenario may end before a task has its post
                require(run["order"] == "run", f"unit {number}, entry {event['entry']}: no task has this post")
            if event["what"] in ("purge", "closed", "reset"):
                by = controls.pop((number, event["entry"]), None)
                require(event["by"] == by, f"unit {number}, entry {event['entry']} is by {event['by']}, and task {by} made it")
            if event["what"] == "ran" and "left_out" not in event:
                steps = sum(len(step["loop"]) * step["times"] if "loop" in step else 1 for step in steps_of(run, event))
                require(steps == event["commands"],
                        f"unit {number}, entry {event['entry']}: {steps} of {event['commands']} commands")
        require(entries == unit["entries"], f"unit {number} has {entries} of {unit['entries']} entries")
    require(seen == len(posts), f"{seen} of {len(posts)} posts are in the histories")
    require(not controls, f"no entry is of these controls: {controls}")


def check_tasks(run, script):
    """Each task issued, waited and controlled in the order of its commands, and collected each post once, after it issued."""
    commands = {task: [] for task in range(run["tasks"])}
    for words in map(str.split, script.splitlines()):
        if words and words[0] in ("excp", "wait", "purge", "purgetask", "close", "reset"):
            commands[int(words[1])].append(words)
    entries = {(it["unit"], event["entry"]): event["what"] for it in run["units"] for event in it["events"]}
    for task, events in enumerate(run["task_events"]):
        own = [it for it in events if it["what"] != "collected"]
        for words in commands[task]:
            units = range(len(run["units"])) if words[0] == "purgetask" else [int(words[2])] if len(words) > 2 else []
            for unit in units or [None]:
                due = {"excp": "issued", "wait": "waited"}.get(words[0], "controlled")
                what = {"purge": "purge", "purgetask": "purge", "close": "closed", "reset": "reset"}.get(words[0])
                is_own = own and own[0]["what"] == due and own[0].get("unit") == unit
                if is_own and (what is None or entries[unit, own[0]["entry"]] == what):
                    own.pop(0)
                else:
                    # a DCB that was closed before is not closed or reset again
                    require(words[0] in ("close", "reset"), f"task {task} did not do '{' '.join(words)}', but {own[:1]}")
        require(not own, f"task {task} did {own[:1]}, which is none of its commands")
        issued = set()
        for event in events:
            name = event.get("unit"), event.get("request")
            if event["what"] == "issued":
                issued.add(name)
            elif event["what"] == "collected":
                require(name in issued, f"task {task} collected {name}, which it had not issued")
                issued.remove(name)
        require(not issued, f"task {task} did not collect {sorted(issued)[:3]}")


def areas_of(script):
    """The areas of a script: of each the first address, and the bytes."""
    words = [line.split() for line in script.splitlines() if line.startswith("area ")]
    return {it[1]: (int(it[2], 16), bytes.fromhex("".join(it[3:]).replace("-", ""))) for it in words}


def requests_of(script):
    """The requests of a script by their names: of each the address of its IOB, and its area."""
    areas, numbers, requests = areas_of(script), {}, {}
    for words in map(str.split, script.splitlines()):
        if words and words[0] == "excp":
            key = int(words[1]), int(words[2])
            numbers[key] = numbers.get(key, 0) + 1
            requests[*key, numbers[key]] = int(words[4], 16), areas[words[5]]
    return requests


def check_iobs(run, due):
    """Each IOB is as its request has it, with what a post writes into it, unless its program stored bytes there."""
    stored = {}
    for unit in run["units"]:
        for event in unit["events"]:
            for step in each(steps_of(run, event)):
                if step.get("way", "from") != "from":
                    key = event["task"], unit["unit"], event["request"]
                    stored.setdefault(key, set()).add((int(step["address"], 16), step["moved"]))
    for post in run["posts"]:
        at, (base, area) = due[post["task"], post["unit"], post["request"]]
        key = post["task"], post["unit"], post["request"]
        if any(address - moved < at + 40 and at < address + moved for address, moved in stored.get(key, ())):
            continue
        image = bytearray(area[at - base : at - base + 40])
        image[0] = image[0] & ~0x04 | (0 if post["code"] == "7F" else 0x04)
        image[2:5] = bytes.fromhex(post["sense"] + post["code"])
        image[9:16] = bytes.fromhex(post["address"] + post["status"] + post["residual"])
        require((post["iob_at"], post["iob"]) == (f"{at:06X}", image.hex().upper()), f"the IOB of {key} is {post['iob']}")


def check(run, script):
    """Fails if the JSON of a run has another form, or its parts disagree."""
    check_form(run, "run", FORM)
    check_lists(run)
    check_parts(run)
    check_columns(run)
    check_media(run)
    check_causes(run)
    check_tasks(run, script)
    requests = requests_of(script)
    check_iobs(run, requests)
    places.check(script, requests, commands.of_json(run))


# --- the text report of it


def count(number, one, several=None):
    return f"{number} {one if number == 1 else several or one + 's'}"


def told(event):
    """The line of an event, without the number of its entry."""
    what = event["what"]
    request = f"task {event['task']} request {event['request']}" if "request" in event else ""
    if what == "opened":
        extents = f", {count(len(event['extents']), 'extent')}" if event["extents"] else ""
        return f"DCB {event['dcb']} opened for {event['way']}{extents}"
    if what == "arrived":
        return f"{request} arrived for DCB {event['dcb']}{', related' if event['related'] else ''}"
    if what == "started":
        return f"{request} started" + (f" again, attempt {event['attempt']}" if event["attempt"] > 1 else "")
    if what == "ran":
        return f"{request} ran {count(event['commands'], 'command')}" + (f" in {event['turns']} turns" if event["turns"] > 1
                                                                         else "")
    if what == "halted":
        return f"{request} halted"
    if what == "purge":
        scope = f"DCB {event['dcb_purged']}" if "dcb_purged" in event else f"task {event['task_purged']}"
        active = "task {} request {}".format(*event["active"]) if event["active"] else "nothing"
        return f"purge of {scope} with {event['mode']}, {active} active"
    if what == "posted":
        end = f"posted {event['code']}, CSW {event['address']} {event['status']} {event['residual']}, sense {event['sense']}"
        words = (names(int(event["status"], 16), STATUS) + names(int(event["sense"], 16), SENSE)).removeprefix(", ")
        started = {None: "", "halted": ", halted", "not tried again": ", not tried again: purged"}
        return f"{request} {end}" + (f": {words}" if words else "") + started.get(event["why"], f", not started: {event['why']}")
    return f"DCB {event['dcb']} {what}"


STATUS = {0x4000: "status modifier", 0x0200: "unit check", 0x0100: "unit exception", 0x0040: "incorrect length",
          0x0020: "program check", 0x0008: "channel data check", 0x0004: "channel control check", 0x0002: "interface control check"}
SENSE = {0x8000: "command reject", 0x4000: "intervention required", 0x2000: "bus-out check", 0x1000: "equipment check",
         0x0800: "data check", 0x0400: "overrun", 0x0040: "invalid track format", 0x0020: "end of cylinder",
         0x0008: "no record found", 0x0004: "file protected"}


def names(bits, table):
    return "".join(f", {name}" for bit, name in table.items() if bits & bit)


def seen(byte):
    """A byte in code page 037, with a dot for what cannot be seen."""
    text = bytes([byte]).decode("cp037")
    return "." if text < " " or "\x7f" <= text <= "\xa0" or text == "\xad" else text


def characters(digits):
    """Bytes as text."""
    return "".join(map(seen, bytes.fromhex(digits)))


def beside(digits):
    """The text beside digits: none if it has only dots."""
    text = characters(digits)
    return f"  |{text}|" if set(text) - {"."} else ""


def rows(name, digits):
    """The rows of text after the line of a record or a block."""
    text = characters(digits)
    for at in range(0, len(text), 80):
        if set(text[at : at + 80]) != {"."}:
            yield f"# {name + (f'+{at}' if at else ''):<10} |{text[at : at + 80]}|"


# The line of a step's place, and what stands for it if the place is not known: between the first and the last time of a loop.
PLACE = re.compile(r"#           (cylinder \d.*|no record found .*|item \d+|page \d+ line \d+)")
UNKNOWN = "#           a place"


def is_text(actual, due):
    """Whether a text is that which is due, but for the places that are not known."""
    lines, others = actual.splitlines(), due.splitlines()
    known = (one == other or one == UNKNOWN and PLACE.fullmatch(other) for one, other in zip(lines, others))
    return len(lines) == len(others) and all(known)


def step_lines(step):
    """The lines of a command."""
    for ccw in step["ccws"]:
        yield f"#         {ccw['at']}  {ccw['image']}  {' '.join([ccw['name'], *ccw['flags']])}"
    if "rule" in step:
        rule = step["rule"]
        is_written = any(ccw["at"] == rule["at"] for ccw in step["ccws"])
        image = f"  {rule['image']}" if rule["image"] and not is_written else ""
        yield f"#           program check at {rule['at']}{image}: {rule['text']}"
        return
    if "moved" in step:
        digits = step["bytes"]
        groups = "-" if not digits else digits if digits == "skipped" else " ".join(re.findall(".{1,8}", digits)) + beside(digits)
        if step["more"]:
            groups = f"... {groups}" if step["way"] == "down from" else f"{groups} ..."
        yield f"#           {count(step['moved'], 'byte')} {step['way']} {step['address']}: {groups}"
    if "place" in step:
        yield f"#           {place_of(step['place'])}" if step["place"] else UNKNOWN
    status = int(step["status"], 16)
    end = f"#           status {step['status']} residual {step['residual']}{names(status, STATUS)}"
    if step["next"]:
        end += f", on to {step['next']}"
    elif step["sense"] != "0000":
        end += f", sense {step['sense']}{names(int(step['sense'], 16), SENSE)}"
    yield end + (f", fault {step['fault']} of the unit" if step["fault"] else "")


def place_of(place):
    """The line of a place, with the text of its key."""
    line = places.line_of(place)
    return line.replace(f", key {place['key']}", f", key {place['key']}{beside(place['key'])}") if "key" in place else line


def folded_lines(step):
    """The lines of a command, or of a loop: those of its first round, and one of all others."""
    if "loop" not in step:
        yield from step_lines(step)
        return
    loop = step["loop"]
    for it in loop:
        yield from step_lines(it)
    found = [it.get("last_place", it.get("place")) for it in loop]
    last = [{key: value for key, value in it.items() if key not in ("key", "equal")} for it in found if it]
    what = "command" if len(loop) == 1 else f"{len(loop)} commands"
    end = f", up to {places.line_of(last[-1])}" if last else ""
    yield f"#         ... the same {what} {count(step['times'] - 1, 'more time')}{end}"


def medium_lines(unit):
    """The lines of a medium."""
    number, medium = unit["unit"], unit["medium"]
    if unit["kind"] == "disk":
        yield f"disk {number} {unit['isc']} {medium['cylinders']} {medium['heads']} {medium['bytes']}"
        for it in medium["records"]:
            key, data = it["key"] or "-", it["data"] or "-"
            if "id" in it or it["record"] == 0:
                whole = it.get("id", f"{it['cylinder']:04X}{it['head']:04X}{it['record']:02X}")
                yield f"# no line declares, on track {it['cylinder']} {it['head']}: CCHHR {whole}, key {key}, data {data}"
            else:
                yield f"rec {number} {it['cylinder']} {it['head']} {it['record']} {key} {data}"
            yield from [*rows("key", it["key"]), *rows("data", it["data"])]
    elif unit["kind"] == "tape":
        yield f"tape {number} {unit['isc']} {medium['bytes']}"
        items = medium["items"]
        for place in range(len(items) + 1):
            if place == medium["place"]:
                yield f"# the tape stands here, behind {place} of {len(items)} items"
            if place < len(items):
                yield f"mark {number}" if items[place] is None else f"block {number} {items[place]}"
                yield from rows("data", items[place] or "")
    else:
        yield f"printer {number} {unit['isc']} {medium['lines']} {medium['pages']}"
        for it in medium["printed"]:
            yield f"# page {it['page']:5} line {it['line']:2} |{it['text']}"
        yield f"# the paper stands at page {medium['page']}, line {medium['line']}"


def text_of(run, form=None):
    """The text report of a run: without steps, with `steps`, or with `all-steps`, in which the places of loops are unknown."""
    lines = []
    for unit in run["units"]:
        lines.append(f"# unit {unit['unit']}: {unit['kind']}, {count(unit['entries'], 'entry', 'entries')}")
        for event in unit["events"]:
            lines.append(f"# {event['entry']:5} {told(event)}")
            steps = steps_of(run, event) if form else []
            for step in unfolded(steps) if form == "all-steps" else steps:
                lines += folded_lines(step)
        lines += medium_lines(unit)
    return posts_of(run) + "".join(f"{line}\n" for line in lines)
