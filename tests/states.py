"""The states of a run that the debugger computes (python/excp/debugging), against the record of it, by excp_tools or by the
library: the bytes that each step shows, the IOB, the ECB and the shown bytes of each post, and the medium at the end. Going back
gives each state again.
"""

import json
import os
import subprocess

from harness import LIBRARY, SECONDS, require

from excp.checking.scenario import ScenarioCheck
from excp.debugging.job import Job
from excp.debugging.media import DiskState, TapeState
from excp.debugging.recording import read_recording
from excp.debugging.walk import Walk
from excp.programs.library_choice import PLACE
from excp.reporting.record import Part, Record
from excp.script.reading import Text
from excp.stepping import schedule
from excp.stepping.record_lines import record_lines
from excp.stepping.scenario import Scenario, Wanted
from excp.symbols import Assembled

# The flag of a CCW whose address is that of a list of addresses.
INDIRECT = 0x04


def record_of(setup, script):
    """The lines of the record of a script, with all steps, as threads run it."""
    ran = subprocess.run([setup.tools, "report", "form=steps"], input=script.encode(), capture_output=True, timeout=SECONDS,
                         check=True)
    return ran.stdout.decode().splitlines(True)


def record_by_seed(script, seed, most=None):
    """The lines of the record of a script by the schedule of a seed, with all steps or the first ones of each unit."""
    os.environ[PLACE] = LIBRARY
    run = schedule.Schedule(schedule.Job(script.encode()), seed, {}, keeps_lines=False)
    run.run()
    return list(record_lines(run.stage, Part.STEPS, most))


def record_of_scenario(text, most=None):
    """The lines of the record of a scenario, with all steps or the first ones of each unit."""
    os.environ[PLACE] = LIBRARY
    run = Scenario(ScenarioCheck({}), Wanted(record=True), lambda set_up: None, lambda: {})
    for number, line in enumerate(text.splitlines(), 1):
        run.read(number, Text(line))
    run.end()
    return list(record_lines(run.stage, Part.STEPS, most))


def state_of(walk):
    """All of a state, as a value."""
    medium = walk.medium
    content = medium.tracks if isinstance(medium, DiskState) else medium.items if isinstance(medium, TapeState) else medium.lines
    storage = walk.storage
    data = storage.bytes_at(storage.base, storage.end - storage.base)
    return walk.at, walk.step, data, medium.place(), json.dumps(content, default=bytes.hex)


def media_in(lines):
    """What is on each medium of a record, in the form of `media_of`."""
    found, kinds = [], {"record": [], "item": [], "line": []}
    for line in map(json.loads, lines):
        if line["what"] == "unit":
            kinds = {"record": [], "item": [], "line": []}
            found.append([line["kind"], kinds, None])
        elif line["what"] == "medium":
            found[-1][2] = line
        elif line["what"] in kinds and found:
            kinds[line["what"]].append(line)
    return [_listed(*it) for it in found]


def _listed(kind, lines, medium):
    if kind == "disk":
        return [(it["cylinder"], it["head"], it["nth"], it["id"], it["key"], it["data"]) for it in lines["record"]]
    if kind == "tape":
        return [it["block"] for it in lines["item"]], medium["place"]
    return [(it["page"], it["line"], it["bytes"]) for it in lines["line"]], (medium["page"], medium["line"])


def medium_of(medium):
    """A medium as a record lists it: R0 as it is mounted is left out."""
    if isinstance(medium, TapeState):
        return [it if it is None else it.hex().upper() for it in medium.items], medium.before
    if not isinstance(medium, DiskState):
        return [(it.page, it.line, it.data.hex().upper()) for it in medium.lines], medium.at
    found = []
    for number, track in enumerate(medium.tracks):
        cylinder, head = divmod(number, medium.heads)
        for nth, it in enumerate(track):
            is_mounted = nth == 0 and not it.key and it.data == bytes(8) and it.id.hex().upper() == f"{cylinder:04X}{head:04X}00"
            if not is_mounted:
                found.append((cylinder, head, nth, it.id.hex().upper(), it.key.hex().upper(), it.data.hex().upper()))
    return found


def check_step(walk):
    """The last step has set the bytes that its line shows, if all went through one area."""
    step = walk.last()
    if step is None or step.get("way") not in ("to", "down from") or step["bytes"] == "skipped":
        return
    if len(step["ccws"]) > 1 or int(step["ccws"][0]["image"][8:10], 16) & INDIRECT:
        return
    shown, first = bytes.fromhex(step["bytes"]), int(step["address"], 16)
    address = first - len(shown) + 1 if step["way"] == "down from" else first
    now = walk.storage.bytes_at(address, len(shown))
    require(now == shown, f"step {walk.step} of {walk.request.name} has set {shown.hex()}, and storage has {now.hex()}")


def check_post(walk, shows):
    """Storage after the post has the IOB, the ECB and the bytes shown of the post."""
    post = walk.recording.post(walk.request)
    iob = bytes.fromhex(post["iob"])
    at, ecb = int(post["iob_at"], 16), int.from_bytes(iob[5:8], "big")
    require(walk.storage.bytes_at(at, 40) == iob, f"{walk.request.name}: another IOB")
    require(walk.storage.bytes_at(ecb, 4).hex().upper() == f"{post['code']}000000", f"{walk.request.name}: another ECB")
    show, length = shows[walk.request.name]
    require(walk.storage.bytes_at(show, length).hex().upper() == post["shown"], f"{walk.request.name}: other bytes are shown")


def shows_of(script):
    """Where each request of a plain script shows bytes, and how many, by task, unit and number."""
    found, counts = {}, {}
    for words in (line.split() for line in script.split("\n")):
        if words[:1] == ["excp"]:
            task, unit = int(words[1]), int(words[2])
            counts[task, unit] = counts.get((task, unit), 0) + 1
            found[task, unit, counts[task, unit]] = int(words[6], 16), int(words[7])
    return found


def check_states(script, lines):
    """Judges each state of a plain script's run with this record, forward and back. Returns how many there are."""
    recording, shows = read_recording(Record(lines)), shows_of(script)
    if not len(recording):
        return 0
    walk = Walk(recording, Job(Assembled(script.encode("latin-1")), {}))
    media, states = media_in(lines), []
    while True:
        states.append(state_of(walk))
        while walk.forward():
            check_step(walk)
            states.append(state_of(walk))
        require(walk.is_posted, f"{walk.request.name} is not posted at its end")
        check_post(walk, shows)
        is_last = walk.at + 1 == len(recording) or recording.request(walk.at + 1).unit != walk.request.unit
        if is_last:
            unit = walk.request.unit
            require(medium_of(walk.medium) == media[unit],
                    f"unit {unit} has another medium: {medium_of(walk.medium)}, not {media[unit]}")
        if not walk.next_request():
            break
    for state in reversed(states):
        require(state_of(walk) == state, f"going back gives another state: {state_of(walk)}, not {state}")
        if not walk.back() and walk.previous_request():
            while walk.forward():
                pass
    return len(states)
