"""The commands of a report, as its text with steps or its JSON shows them. tests/places.py judges them."""

import re
from dataclasses import dataclass, field


@dataclass
class Command:
    """A command as a report shows it: its CCWs, the first of the bytes that it moved, and its end. `place` is its line or its
    member, None if it has none. `is_placed` says whether the report has the place of this time of a loop."""

    ccws: list = field(default_factory=list)
    way: str = ""
    shown: bytes = b""
    status: int = 0
    sense: int = 0
    fault: bool = False
    is_rule: bool = False
    place: object = None
    is_placed: bool = True

    def spans(self, base):
        """Of each CCW where its bytes are in an area, and how many; None for where if the CCW has indirect addresses."""
        for image in self.ccws:
            at, length = int.from_bytes(image[1:4], "big") - base, int.from_bytes(image[6:8], "big")
            yield None if image[4] & 0x04 else at - length + 1 if self.way == "down from" else at, length

    def given(self, base, storage):
        """The bytes that it gives to the device, if it is a write."""
        found = []
        for at, length in self.spans(base):
            found += [None] * length if at is None else storage[at : at + length]
        found[: len(self.shown)] = self.shown
        return found

    def store(self, base, storage):
        """What it stores makes bytes of an area unknown."""
        for at, length in self.spans(base) if self.way in ("to", "down from") else ():
            start, length = (0, len(storage)) if at is None else (at, length)
            storage[start : start + length] = [None] * length


def of_text(text):
    """The events of each unit for `check`, from the text of `report --all-steps`."""
    units, unit, before = {}, [], ""
    for line in text.splitlines():
        if found := re.match(r"# unit (\d+): ", line):
            unit = units.setdefault(int(found[1]), [])
        elif found := re.match(r"# +\d+ task (\d+) request (\d+) started", line):
            unit.append((int(found[1]), int(found[2])))
        is_ccw, is_check = re.match(r"# {9}[0-9A-F]{6}  ([0-9A-F]{16})", line), line.startswith("#           program check at ")
        if (is_ccw or is_check) and not re.match(r"# {9}[0-9A-F]", before):
            unit.append(Command())
        before, words = line, line[12:] if line.startswith("#           ") else ""
        if is_ccw:
            unit[-1].ccws.append(bytes.fromhex(is_ccw[1]))
        elif is_check:
            unit[-1].is_rule = True
        elif found := re.match(r"\d+ bytes? (from|to|down from) [0-9A-F]{6}(?: \S+)?: ((?:[0-9A-F]{2,8} ?)*)", words):
            unit[-1].way, unit[-1].shown = found[1], bytes.fromhex(found[2])
        elif found := re.match(r"status ([0-9A-F]{4})(?:.*, sense ([0-9A-F]{4}))?", words):
            unit[-1].status, unit[-1].sense, unit[-1].fault = int(found[1], 16), int(found[2] or "0", 16), ", fault " in words
        elif words:
            unit[-1].place = re.sub(r"(, key [0-9A-F]+)  \|.*\|(?=: (?:not )?equal$)", r"\1", words)
    return units


def of_json(run):
    """These facts, from the JSON of a run."""
    units = {it["unit"]: [] for it in run["units"]}
    for number, event in ((it["unit"], event) for it in run["units"] for event in it["events"]):
        if event["what"] == "started":
            units[number].append((event["task"], event["request"]))
        for step in run["steps"][event["steps"]] if event["what"] == "ran" else []:
            last = step.get("times", 1) - 1
            for time, it in ((time, it) for time in range(last + 1) for it in step.get("loop", [step])):
                command = Command([bytes.fromhex(ccw["image"]) for ccw in it["ccws"]], it.get("way", ""))
                command.shown = bytes.fromhex(it.get("bytes", "").replace("skipped", ""))
                command.status, command.sense = int(it.get("status", "0"), 16), int(it.get("sense") or "0", 16)
                command.fault, command.is_rule, command.is_placed = it.get("fault") is not None, "rule" in it, time in (0, last)
                command.place = it.get("last_place" if time == last and "last_place" in it else "place")
                units[number].append(command)
    return units
