"""What a page says that a run changed on its media (docs/REPORT.md), against what an independent reader takes from the lines of the
script and from the JSON."""

from harness import require
from pages import has_r0

# The most changes of a unit that a page lists at once, and the bytes of each that it shows.
LISTED = 60
SHOWN = 64
# What the page has in place of the bytes of a record or item that is not there.
NONE = "none"

# Of each change its name on the page and its marked bytes, before and after, or `none`; and the units that are drawn twice.
CHANGES = """(() => {
  for (const it of document.querySelectorAll('section.unit')) it.build();
  const marks = (cell) => cell.querySelector('.dim')?.textContent === 'none' ? 'none'
    : [...cell.querySelectorAll('mark')].map(it => it.textContent).join('');
  const change = it => [it.dataset.change, ...[1, 2].map(nth => marks(it.children[nth]))];
const changed = [...document.querySelectorAll('.change')].map(change);
  const isBefore = it => it.textContent === 'Before the run';
const units = [...document.querySelectorAll('section.unit')].filter(it => [...it.querySelectorAll('h4')].some(isBefore));
  return [changed, units.map(it => it.id), [...document.querySelectorAll('.changed')].map(it => it.id)];
})()"""


def check_changes(script, run, found):
    """Fails if a page lists other changes, or draws a medium twice that did not change."""
    changed, twice, outlined = found
    wanted = []
    for unit in run["units"]:
        if unit["kind"] != "printer" and unit["medium"]["whole"]:
            differences = differences_of(things_before(script, unit["unit"]), things_after(unit))
            wanted += differences[:LISTED]
    changed, wanted = (sorted(changes, key=lambda change: change[0]) for changes in (changed, wanted))
    require(changed == wanted, f"the page lists the changes {changed}, and not {wanted}")
    units = sorted({name.split("-")[0][1:] for name, *_ in wanted}, key=int)
    require(twice == [f"unit{unit}" for unit in units], f"the page has {twice} before and after, and not the units {units}")
    require({name for name, _, now in wanted if now != NONE} <= {*outlined}, f"only {outlined} are marked")


def things_before(script, unit):
    """What the lines of a script put on a unit: of each record or item its name on the page, what it is, and its bytes."""
    things, counts = {}, {}
    for words in (line.split() for line in script.split("\n")):
        if words[:1] not in (["rec"], ["block"], ["mark"]) or int(words[1]) != unit:
            continue
        if words[0] == "rec":
            cylinder, head, number = map(int, words[2:5])
            nth = counts[cylinder, head] = counts.get((cylinder, head), 0) + 1
            areas = [area.replace("-", "").upper() for area in words[5:7]]
            things[f"r{unit}-{cylinder}-{head}-{nth}"] = f"{cylinder:04X}{head:04X}{number:02X}", areas
        else:
            item = counts[unit] = counts.get(unit, 0) + 1
            things[f"i{unit}-{item}"] = words[0], [words[2].upper()] if words[0] == "block" else []
    return things


def things_after(unit):
    """The same of the medium of a unit at the end."""
    things, counts = {}, {}
    for record in unit["medium"].get("records", ()):
        track = record["cylinder"], record["head"]
        nth = counts[track] = counts[track] + 1 if track in counts else int(not has_r0(unit["medium"], track, [record]))
        identifier = record.get("id", f"{track[0]:04X}{track[1]:04X}{record['record']:02X}")
        things[f"r{unit['unit']}-{track[0]}-{track[1]}-{nth}"] = identifier, [record["key"], record["data"]]
    for number, item in enumerate(unit["medium"].get("items", ()), 1):
        things[f"i{unit['unit']}-{number}"] = ("mark", []) if item is None else ("block", [item])
    return things


def differences_of(before, after):
    """The bytes that differ at each place, before and after, as far as the page shows them. What is something else, by its name or
    its kind, is listed after what it replaced."""
    found = []
    for name in [*before, *(name for name in after if name not in before)]:
        old, now = before.get(name), after.get(name)
        if old and now and old[0] == now[0]:
            found += [[name, marked(old, now), marked(now, old)]] if old != now else []
        else:
            found += [[name, marked(old, None), NONE]] if old else []
            found += [[name, NONE, marked(now, None)]] if now else []
    return found


def marked(thing, other):
    others = [*(other[1] if other else []), "", ""]
    return "".join(marked_in(area, others[nth]) for nth, area in enumerate(thing[1]))


def marked_in(area, other):
    """The bytes that differ, from the line of the first one on."""
    pairs = [(area[at : at + 2], other[at : at + 2]) for at in range(0, len(area), 2)]
    first = next((at for at, (one, two) in enumerate(pairs) if one != two), 0) // 16 * 16
    return "".join(one for one, two in pairs[first : first + SHOWN] if one != two)
