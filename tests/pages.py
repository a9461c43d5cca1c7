"""The page of a run (docs/REPORT.md). Without a browser: that it runs nothing but its own script, loads nothing, and holds the JSON
and the posts of the run. With a browser: what it shows, against what an independent reader takes from the JSON alone.
"""

import base64
import collections
import hashlib
import json
import re
from html.parser import HTMLParser

from harness import require

# What a page has before its script runs.
ELEMENTS = set("html head meta title style body header h1 noscript p main section script h2 code pre footer".split())

POLICY = "default-src 'none'; base-uri 'none'; form-action 'none'; style-src '{}'; script-src '{}'"

# How many steps of an attempt, starts of a request, and requests that something ended, a panel shows.
FIRST_STEPS = 120
STARTS = 4
NAMED = 40

SENSE = {0x8000: "command reject", 0x4000: "intervention required", 0x2000: "bus-out check", 0x1000: "equipment check",
         0x0800: "data check", 0x0400: "overrun", 0x0040: "invalid track format", 0x0020: "end of cylinder",
         0x0008: "no record found", 0x0004: "file protected"}

# The most DCBs of a unit that have strips.
STRIPS = 6


class Page(HTMLParser):
    """The elements of a page with their attributes, and the text of each by its name."""

    def __init__(self, text):
        super().__init__(convert_charrefs=True)
        self.elements, self.texts, self.open = [], {}, []
        self.feed(text)
        self.close()

    def handle_starttag(self, tag, attributes):
        self.elements.append((tag, dict(attributes)))
        if tag != "meta":
            self.open.append((tag, dict(attributes).get("id", tag), []))

    def handle_endtag(self, tag):
        require(self.open and self.open[-1][0] == tag, f"</{tag}> ends no element")
        _, name, parts = self.open.pop()
        self.texts[name] = "".join(parts)

    def handle_data(self, data):
        for _, _, parts in self.open:
            parts.append(data)

    def run(self):
        """The run, of both parts of its JSON, as `--json` has it."""
        return {name: value for name, value in self.members().items() if name != "further_r0"}

    def members(self):
        return {**json.loads(self.texts["front"]), **json.loads(self.texts["rest"])}

    def facts(self):
        """The run, and what a page alone has: as `job` what the script says, and as `further_r0` of each medium the tracks whose
        first record in the JSON is a further record 0."""
        facts = {**self.members(), "job": json.loads(self.texts["job"])}
        for unit, tracks in zip(facts["units"], facts["further_r0"], strict=True):
            unit["medium"]["further_r0"] = tracks
        return facts


def has_r0(medium, track, records):
    """Whether the first one of the records of a track in the JSON is its R0."""
    return bool(records) and records[0]["record"] == 0 and list(track) not in medium["further_r0"]


def digest(text):
    return f"sha256-{base64.b64encode(hashlib.sha256(text.encode()).digest()).decode()}"


def check(text):
    """The page, if it can run and load nothing but its own style and script, and its JSON cannot end an element."""
    page = Page(text)
    require(text.startswith("<!DOCTYPE html>\n") and not page.open, "the page is not whole")
    scripts = [named for tag, named in page.elements if tag == "script"]
    data = [{"type": "application/json", "id": name} for name in ("front", "rest", "job", "states")]
    require(scripts == [data[0], {}, *data[1:]], f"the script elements are {scripts}")
    policies = [named["content"] for tag, named in page.elements if tag == "meta" and "http-equiv" in named]
    require(policies == [POLICY.format(digest(page.texts["style"]), digest(page.texts["script"]))], f"the policy is {policies}")
    for tag, named in page.elements:
        require(tag in ELEMENTS, f"there is an element <{tag}>")
        require(set(named) <= {"lang", "charset", "name", "content", "http-equiv", "id", "aria-label", "type", "class", "tabindex"},
                f"<{tag}> has {named}")
    require("<" not in page.texts["front"] + page.texts["rest"] + page.texts["job"] + page.texts["states"], "the JSON has a <")
    for words in page.texts["style"], page.texts["script"]:
        require(not re.search(r"https?:(?!//www\.w3\.org/2000/svg\b)|@import|\binnerHTML\b|\beval\b|url\((?!#)", words),
                "the page names a place")
    return page


def posts_of(run):
    """The lines that `run` prints of the posts of a run."""
    names = "task", "unit", "request", "code", "address", "status", "residual", "sense"
    lines = [" ".join(["post", *(str(post[it]) for it in names), post["shown"] or "-"]) for post in run["posts"]]
    return "".join(f"{line}\n" for line in [*lines, f"end {len(lines)}"])


# --- what a page shows, from the JSON alone


def lanes_of(run):
    """Of each lane how many bars, marks, strips and waits it has; the requests that something else ended; the codes."""
    lanes = [f"task{task}" for task in range(run["tasks"])] + [f"unit{unit['unit']}" for unit in run["units"]]
    counts = {what: collections.Counter() for what in ("bars", "marks", "strips", "waits", "collects")}
    dooms, codes = [], collections.Counter()
    for unit in run["units"]:
        number = unit["unit"]
        counts["strips"][f"unit{number}"] = strips_of(unit)
        for event in unit["events"]:
            what, column = event["what"], event.get("column", event.get("at"))
            if what == "arrived":
                counts["bars"].update([f"unit{number}", f"task{event['task']}"])
            elif what in ("purge", "closed", "reset", "opened") and column:
                counts["marks"].update([f"unit{number}", *([f"task{event['by']}"] if event.get("by") is not None else [])])
            elif what == "posted":
                codes[event["code"]] += 1
                dooms += [f"q{event['task']}-{number}-{event['request']}"] if event["doomed_by"] else []
    for task, events in enumerate(run["task_events"]):
        kinds = [event["what"] for event in events]
        counts["collects"][f"task{task}"] = kinds.count("collected")
        # a wait after which nothing is collected has no length
        counts["waits"][f"task{task}"] = len(re.findall("w(?=c)",
                                                        "".join(kind[0] if kind != "controlled" else "x" for kind in kinds)))
    return {**{what: {lane: count[lane] for lane in lanes} for what, count in counts.items()}, "dooms": sorted(dooms),
            "codes": dict(codes)}


def strips_of(unit):
    """How many times DCBs of a unit are in error or closed, of its first six that ever are."""
    state, found, owner = {}, collections.Counter(), {}
    for event in unit["events"]:
        if event["what"] == "arrived":
            owner[event["task"], event["request"]] = event["dcb"]
        dcb = event.get("dcb") if event["what"] != "posted" else owner.get((event["task"], event["request"]))
        if event["what"] == "closed" and state.get(dcb) != "closed":
            state[dcb] = "closed"
            found[dcb] += 1
        elif event.get("sets_flag") and dcb not in state:
            state[dcb] = "flagged"
            found[dcb] += 1
        elif event["what"] == "reset" and state.get(dcb) == "flagged":
            del state[dcb]
    return sum(found[dcb] for dcb in sorted(found)[:STRIPS])


def numbers_of(run):
    """The number that the page has for each event, by its unit and entry: its place on the axis, or nothing if it is of the
    set-up."""
    places = {(unit["unit"], it["entry"]): it.get("column", it.get("at")) for unit in run["units"] for it in unit["events"]}
    numbers = {event: f"{number:,}" for number, event in enumerate(sorted(filter(places.get, places), key=places.get), 1)}
    return collections.defaultdict(str, numbers)


def requests_of(run):
    """Of each request its name on the page, its events, its post if it was collected, and the name of what ended it."""
    collected = {(it["task"], it["unit"], it["request"]): it for it in run["posts"]}
    numbers = numbers_of(run)
    for unit in run["units"]:
        entries = {event["entry"]: event for event in unit["events"]}
        of = {}
        for event in unit["events"]:
            if "request" in event:
                numbered = {**event, "number": numbers[unit["unit"], event["entry"]]}
                of.setdefault((event["task"], event["request"]), []).append(numbered)
        for (task, number), events in of.items():
            end = next((event for event in events if event["what"] == "posted"), None)
            by = entries.get(end["doomed_by"]) if end else None
            cause = by and (f"q{by['task']}-{unit['unit']}-{by['request']}" if by["what"] == "posted"
                            else f"m{unit['unit']}-{by['entry']}")
            yield f"q{task}-{unit['unit']}-{number}", unit, events, end, collected.get((task, unit["unit"], number)), cause


def sense_names(sense):
    """The names of the bits of sense bytes that are on."""
    return [name for bit, name in SENSE.items() if int(sense, 16) & bit]


def grouped(image):
    return " ".join(image[at : at + 8] for at in range(0, len(image), 8))


def seek_in_words(seek):
    """The track and the record of MBBCCHHR as a panel has them."""
    return f"seeks cylinder {int(seek[6:10], 16)}, head {int(seek[10:14], 16)}, R{int(seek[14:], 16)}"


def place_in_words(place):
    """The place of a step as a panel has it."""
    if "item" in place:
        return f"item {place['item']:,} of the tape"
    if "page" in place:
        return f"page {place['page']:,}, line {place['line']}"
    track = f"track {place['cylinder']} {place['head']}"
    if "passed" in place:
        return f"{track}, passed {place['passed']:,} record"
    name = f"ID {place['id']}" if "id" in place else f"R{place['record']}"
    return f"{track}, {name}" + (f", key {place['key']} |" if "key" in place else "")


def steps_in_words(steps):
    """What a panel has of some steps, in this order: of each step a row for each CCW, the first with what the step did."""
    for step in steps:
        for it in step.get("loop", [step]):
            for place, ccw in enumerate(it["ccws"]):
                yield ccw["at"]
                yield f"{ccw['mnemonic'] or ''} {ccw['name']}" if place == 0 else "…"
                yield grouped(ccw["image"]) + " ".join(ccw["flags"])
                if place == 0:
                    yield from what_it_did(it)
            if "rule" in it:
                yield f"program check at {it['rule']['at']}"
                yield it["rule"]["text"]
            if "passed" in it.get("place", {}):
                yield place_in_words(it["place"])
        if "loop" in step:
            yield f"× {step['times']:,}"


def what_it_did(step):
    if "moved" in step:
        yield f"{step['way']} {step['address']}"
    yield from (place_in_words(step[it]) for it in ("place", "last_place") if it in step and "passed" not in step[it])
    if "status" in step:
        yield f"{step['status']} residual {step['residual']}"


def starts_in_words(events):
    """The starts that a panel has, each with the commands of its attempt, and what it says of those that it leaves out."""
    starts = []
    for event in events:
        if event["what"] == "started":
            again = f" again, attempt {event['attempt']}" if event["attempt"] > 1 else ""
            starts.append([f"{event['number']}started{again}", 0])
        elif event["what"] == "ran":
            starts[-1][1] += event["commands"]
    words = [start + (f"ran {commands:,} command" if commands else "") for start, commands in starts]
    if len(words) > STARTS:
        words[STARTS - 1 : -1] = [f"{len(words) - STARTS} more start"]
    return words


def check_panel(run, request, panel):
    """Fails if the panel of a request lacks its code, an entry, its CSW, its IOB, a step, or a link to what ended it."""
    name, unit, events, end, post, cause = request
    title, text, links, places, _ = panel
    require(title.startswith(end["code"] if end else "–"), f"{name} has the title {title}")
    arrival = events[0]
    due = [f"{arrival['number']}arrived for DCB {arrival['dcb']}", f"program at {arrival['start']}",
           *([seek_in_words(arrival["seek"])] if unit["kind"] == "disk" else []), *starts_in_words(events)]
    if end:
        due.append(f"{end['number']}posted {end['code']}")
        due += [f"CCW address{end['address']}", f"unit status{end['status'][:2]}", f"subchannel{end['status'][2:]}",
                f"residual{end['residual']}", f"sense{end['sense']}{', '.join(sense_names(end['sense']))}"]
    if post:
        iob = post["iob"]
        due.append(f"{post['iob_at']}{iob[:2]} {iob[2:4]} {iob[4:8]} {iob[8:10]} {iob[10:16]}")
    for words in due:
        require(words in text, f"the panel of {name} lacks {words!r}")
    require(cause is None or cause in links, f"the panel of {name} does not lead to {cause}")
    all_steps = (step for event in events if event["what"] == "ran" for step in run["steps"][event["steps"]])
    right = {target for step in all_steps for found in places_in(step) for target in place_on(unit, *found)}
    for target in places:
        require(target in right, f"the panel of {name} leads to {target}, which no step of it has")
    at = max(0, text.find("AddressCommandFlags"))
    for steps in shown_steps(run, events):
        for words in steps_in_words(steps):
            found = text.find(words, at)
            require(found >= 0, f"the panel of {name} lacks {words!r} in its steps")
            at = found + len(words)
        for it, place in (found for step in steps for found in places_in(step)):
            for target in place_on(unit, it, place):
                require(target in places, f"the panel of {name} does not lead to {target} after {place}")
                del places[: places.index(target) + 1]


def shown_steps(run, events):
    """The steps that a panel has of each attempt, but for attempts with joined loops and long ones. Attempts in a row with equal
    steps are once in it."""
    last, attempt = None, []
    for event in [*events, {"what": "started"}]:
        if event["what"] == "ran":
            attempt += [event["steps"]]
        elif event["what"] == "started" and attempt:
            steps = [step for number in attempt for step in run["steps"][number]]
            key = re.sub(r'"fault": \d+', '"fault": 1', json.dumps(steps))
            is_joined = len(attempt) > 1 and any("loop" in run["steps"][number][0] for number in attempt[1:]
                                                 if run["steps"][number])
            if key != last and not is_joined and len(steps) <= FIRST_STEPS:
                yield steps
            last, attempt = key, []


def places_in(step):
    """The places of a step, or of those of a loop, which lead to a medium, each with its step."""
    for it in step.get("loop", [step]):
        yield from ((it, place) for place in (it.get("place"), it.get("last_place")) if place and "passed" not in place)


def places_of(run):
    """The places of all steps that the media still have: the name on the page, and words that its drawing has."""
    found = {}
    for _, unit, events, *_ in requests_of(run):
        for step in (step for event in events if event["what"] == "ran" for step in run["steps"][event["steps"]]):
            for it, place in places_in(step):
                found.update(place_on(unit, it, place))
    return found


def place_on(unit, step, place):
    """The place of a step as `places_of` has it, if the medium still has what was there."""
    number, medium = unit["unit"], unit["medium"]
    if "item" in place:
        items = dict(zip(medium.get("numbers", range(1, len(medium["items"]) + 1)), medium["items"], strict=True))
        is_begin = step.get("way") in ("from", "to") and not any("SKIP" in ccw["flags"] for ccw in step["ccws"])
        begin = step["bytes"].replace("skipped", "") if is_begin else ""
        is_there = place["item"] in items and (items[place["item"]] or "").startswith(begin)
        return {f"i{number}-{place['item']}": f"item {place['item']}:"} if is_there else {}
    if "page" in place:
        page, line = place["page"], place["line"]
        lines = [it["line"] for it in medium["printed"] if it["page"] == page] + [medium["line"]] * (medium["page"] == page)
        drawn = (66 if max(lines) > 54 else -(-max(lines) // 3) * 3) if lines else 0
        text = "".join(it["text"] for it in medium["printed"] if (it["page"], it["line"]) == (page, line))
        return {f"l{number}-{page}-{line}": text} if line <= drawn else {}
    where = place["cylinder"], place["head"]
    track = [it for it in medium["records"] if (it["cylinder"], it["head"]) == where]
    first = 0 if has_r0(medium, where, track) else 1
    record = next(iter(track[place["nth"] - first :]), None) if place["nth"] >= first else {"record": 0, "key": "",
                                                                                            "data": "00" * 8}
    if not record or any(record.get(what, other) != place.get(what, other)
                         for what, other in (("record", 0), ("id", None), ("key", ""))):
        return {}
    return {f"r{number}-{where[0]}-{where[1]}-{place['nth']}": f"R{record['record']}, bytes"}
