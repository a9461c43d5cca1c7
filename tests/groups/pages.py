"""Reports as a page for a browser (docs/REPORT.md): of every sample, every script of tests/cases that runs, every stored history
and every scenario.

Without a browser: the page is safe and whole, its JSON and its posts are those of the run, and its memory does not grow with equal
requests. In headless Chromium (Debian's package `chromium`; without it these cases are skipped), wide and light, and narrow and
dark: what the page shows is what tests/pages.py takes from the JSON alone. Bytes and names that look like HTML stay text.
"""

import json
import os
import re
import shutil
import struct
import subprocess
import sys
import tempfile

import browser
import changes
import pages
import programs
from groups.costs import STARTER
from groups.reports import as_json, stored
from groups.scenarios import scenarios
from harness import LIBRARY, SAMPLES, TOP, Case, Failed, expect_text, read, require, run

VIEWER = f"{TOP}/python/excp/viewer"

# How many pages one browser opens.
SHEAF = 25

# The windows: their pixels, and whether the room is dark. The lanes are as high as they need.
WINDOWS = (1280, False), (400, True)
HEIGHT = 9000

ORIGIN = "docs/REPORT.md and docs/MANUAL.md"

# Texts that HTML could take for something else, in pieces of 64 characters.
HOSTILE = """<script>alert(1)</script> "'><img src=x onerror=alert(2)> &lt; &# </pre></section>\
<b id=hostile onclick='alert(3)'>bold</b>
--> ]]> <!-- <style>*{display:none}</style> <a href='javascript:x'> ${1} `x` </title></svg><svg onload=alert(4)>
<meta http-equiv=refresh content=0><base href=//x> \x00\x01\x07\x1b[31m\x7f\t <input autofocus onfocus=alert(5)>"""

# The characters that HTML gives a meaning, and what stands in their place where a text is to be harmless.
MEANINGS = str.maketrans("<>&\"'", "abcde")

# An IOB at 001000 whose channel program is at 001030.
IOB = "42000000" "00001028" "0000000000000000" "00001030" "00000001" + "00" * 16

# The IOBs and programs of GONE.
GONE_AREA = ("42000000000010A00000000000000000000010A8000000010000000000000000000000000000000042000000000010A00000000000000000"
             "000010C8000000010000000000000000000000000000000042000000000010A00000000000000000000010E0000000010000000000000000"
             "000000000000000042000000000010A00000000000000000000010F800000001000000000000000000000000000000000000000000000000"
             "3100112D40000005080010A800000000060011434000000206001143000000023100112840000005080010C8000000001D0011370000000C"
             "3100113240000005080010E00000000006001143000000020200114340000004020011434000000402001143400000042700000040000001"
             "270000004000000101001137000000060000000002000000000300000000040000000007000004E6E7E8E90000000000000000")

# Reads records 3 and 4 of a track, and the blocks 1 to 3 of a tape. Then record 7 comes after record 2, and block 2 is written
# anew.
GONE = f"""tasks 1
disk 0 0 1 1 200
rec 0 0 0 1 - C1C1
rec 0 0 0 2 - C2C2
rec 0 0 0 3 - C3C3
rec 0 0 0 4 - C4C4
tape 1 0 200
block 1 C1C1C1C1
block 1 C2C2C2C2
block 1 C3C3C3C3
open 0 out 18000000000000000000000000000001
open 1 out
area 0 001000 {GONE_AREA}
excp 0 0 1 001000 0 001143 2
wait 0
excp 0 0 1 001028 0 001143 2
excp 0 1 1 001078 0 001143 4
wait 0
"""

# The most bytes of a page of 20,000 requests, by the kind of its requests.
SIZES = {"small": 19_000_000, "different": 25_000_000}

# The most memory that each process of a run and its page takes, in MiB: the package's process is the larger one.
MEMORY = {"small": 28, "different": 34}


def page_of(setup, *words, script):
    """The text of the page that a run writes."""
    ran = setup.run(*words, script=script)
    require((ran.status, ran.err) == (0, ""), "the report fails", ran)
    return ran.out


def posts_in(text):
    """The lines of `run` in a stored text."""
    return "".join(line for line in text.splitlines(keepends=True) if line.startswith(("post ", "end ")))


def is_right(setup, script, texts):
    """The page of a script is safe and whole, and has one of some stored posts."""
    page = pages.check(page_of(setup, "report", "--html", script=script))
    foot(page, "threads")
    actual = page.texts["post-lines"]
    expect_text("other posts than the JSON", None, pages.posts_of(page.run()), actual)
    if texts and actual not in map(posts_in, texts):
        expect_text("other posts", None, posts_in(texts[0]), actual)


def has_its_json(setup, script):
    """The page of a scenario is safe and whole, and has the JSON of the same scenario."""
    page = pages.check(page_of(setup, "step", "--html", script=script))
    expected = as_json(setup.run("step", "--json", script=script))
    foot(page, "its events", of_library())
    require(page.run() == expected, "the page has another JSON")
    expect_text("other posts than the JSON", None, pages.posts_of(expected), page.texts["post-lines"])


def of_library():
    """Whether the library is proved that carries scenarios and seeds out: tools/library.py says so beside it."""
    return "proved" if os.path.exists(f"{LIBRARY}.proved") else "not proved"


def foot(page, how, state="not proved"):
    """The foot of a page names the script, the version of the program, whether it is proved, and by what the run went."""
    version = re.search('VERSION: &str = "(.*)"', read(f"{TOP}/crates/run_options/src/lib.rt"))[1]
    expected = f"{page.texts['h1']}: excp {version}, {state}; run by {how}. One file, no network."
    expect_text("another foot", None, expected, page.texts["foot"])


def has_its_foot(setup):
    """The foot has the seed; and it says `proved` of a program whose record of a proof is beside it, as long as it is that file."""
    script = read(f"{SAMPLES}/read.script")
    foot(pages.check(page_of(setup, "report", "--html", "--seed", "7", script=script)), "seed 7", of_library())
    with tempfile.TemporaryDirectory() as folder:
        file = shutil.copy2(setup.tools, folder)
        for change, state in (0, "proved"), (1, "not proved"):
            found = os.stat(file)
            with open(f"{file}.proof", "w", encoding="utf-8") as record:
                record.write(f"version 1.1\nfile {found.st_size + change} {found.st_mtime_ns}\n")
            ran = run([sys.executable, f"{TOP}/tests/package.py", file, "report", "--html"], script)
            require((ran.status, ran.err) == (0, ""), "the report fails", ran)
            foot(pages.check(ran.out), "threads", state)


def has_its_script(setup):
    """A scenario of a file has its programs and its media in the page; one whose lines come one by one has neither."""
    file = f"{SAMPLES}/scenarios/a-related-error.scenario"
    job = json.loads(pages.check(page_of(setup, "step", "--html", file, script="")).texts["job"])
    ccws = [(ccw["at"], ccw["mnemonic"]) for ccw in job["programs"][0]]
    require(ccws == [("001030", "SIDE"), ("001038", "TIC"), ("001040", "RD")], f"the first program is {ccws}")
    issued = sum(line.startswith("excp ") for line in read(file).split("\n"))
    require([len(numbers) for numbers in job["requests"]] == [issued], f"the requests have the programs {job['requests']}")
    require(job["content"] and not job["loaded"], f"the media have {job['content']}")
    job = pages.check(page_of(setup, "step", "--html", script=read(file))).texts["job"]
    require(job == "null", f"lines one by one have the job {job}")


def viewer_is_whole():
    """Pages have each file of the viewer. No text of a script has several lines, which are stripped, or could end the element."""
    from excp.outcomes import page as outcomes_page
    from excp.reporting import page

    styles = {*page.STYLES, *outcomes_page.STYLES}
    files = {f"{name}.css" for name in styles} | {f"{name}.js" for name in page.SCRIPTS} | {"page.html"}
    require(files == set(os.listdir(VIEWER)), f"not in both: {sorted(files ^ set(os.listdir(VIEWER)))}")
    for name in files:
        text = read(f"{VIEWER}/{name}")
        if name.endswith(".js"):
            require(not any(line.count("`") % 2 for line in text.split("\n")), f"a text of {name} has several lines")
        require(name == "page.html" or not re.search("</|<!--", text), f"{name} could end an element")


def with_bytes(data):
    """A script with these bytes, which it shows and prints, on a disk and on a tape: as one record or block, and piece by piece."""
    whole, pieces = data.hex().upper(), [data[at : at + 64].hex().upper() for at in range(0, len(data), 64)]
    ccws = "".join(f"09{0x1100 + 64 * place:06X}{0x40 if piece is not pieces[-1] else 0:02X}00{len(piece) // 2:04X}"
                   for place, piece in enumerate(pieces))
    gap = "00" * (0x1100 - 0x1030 - len(ccws) // 2)
    lines = ["tasks 1", "printer 0 0 40 2", "disk 1 1 1 1 4000", f"rec 1 0 0 1 {pieces[0]} {whole}", "tape 2 2 4096",
             f"block 2 {whole}"]
    lines += [line for piece in pieces for line in (f"block 2 {piece}", "mark 2")]
    lines += [f"rec 1 0 0 {2 + place} - {piece}" for place, piece in enumerate(pieces)]
    lines += ["open 0 out", f"area 0 001000 {IOB}{'00' * 8}{ccws}{gap}{whole}", f"excp 0 0 1 001000 0 001100 {len(data)}", "wait 0"]
    return "\n".join([*lines, ""])


def keeps_its_shape(setup, code):
    """Bytes that look like HTML make no other element, and stay the same text."""
    for text in HOSTILE.replace("\n", " ").translate(MEANINGS), HOSTILE.replace("\n", " "):
        page = pages.check(page_of(setup, "report", "--html", script=with_bytes(text.encode(code, "replace"))))
        require(text.encode(code, "replace").hex().upper() in json.dumps(page.run()), "the bytes are not in the JSON")


def hostile_name(setup, folder):
    """The name of a script that looks like HTML, and its page."""
    name = f"{folder}/\"'><b>&amp;\x01\u00e9<!--<script>.script"
    with open(name, "w", encoding="ascii") as it:
        it.write(read(f"{SAMPLES}/read.script"))
    ran = run(setup.command("report", "--html", name))
    require((ran.status, ran.err) == (0, ""), "the report fails", ran)
    return name.replace("\x01", "\ufffd"), ran.out


def escapes_the_title(setup):
    """The name of a script is text."""
    with tempfile.TemporaryDirectory() as folder:
        name, text = hostile_name(setup, folder)
    page = pages.check(text)
    require((page.texts["h1"], page.texts["title"]) == (name, f"{name}: a run of excp_job"), f"the heading is {page.texts['h1']!r}")
    require(page.run()["title"].replace("\x01", "\ufffd") == name, "the JSON has another title")


def memory(setup, script, *words):
    """The most memory of a run, in MiB, and how many bytes it prints."""
    with tempfile.TemporaryFile() as out:
        words = [sys.executable, "-S", "-E", "-c", STARTER, *setup.command("report", *words)]
        ran = subprocess.run(words, input=script.encode(), stdout=out, stderr=subprocess.PIPE, check=True)
        status, _, most = ran.stderr.split()[-3:]
        require(status == b"0", f"the report ends with {status}")
        return int(most) / 1024, out.seek(0, os.SEEK_END)


def fits(setup, kind):
    """A page of 20,000 requests is at most this large, and takes at most this much memory: of equal lists of steps it keeps one."""
    most, size = memory(setup, many(20_000, kind == "different"), "--html")
    text = f"{kind}: {size / 1e6:.1f} MB, at most {SIZES[kind] / 1e6:.0f}; {most:.1f} MiB of memory, at most {MEMORY[kind]}"
    with open(setup.tools, "rb") as it:
        is_sanitized = b"AddressSanitizer" in it.read()
    require(size <= SIZES[kind] and (most <= MEMORY[kind] or is_sanitized), text)
    return text


def many(count, is_different):
    """A script of so many requests. They read one record of a disk, 99 of 100 well; or each reads another block of a tape and is
    posted 41, so that no two have equal steps."""
    areas = [IOB + "00" * 8 + (f"02001060000000{length:02X}" if is_different else
                               f"3100105040000005" "0800103000000000" f"06001060000000{length:02X}0000000000000000").ljust(64, "0")
             + "0000000001000000" + "00" * 24 for length in (4, 8)]
    if is_different:
        lines = ["tasks 1", "tape 0 0 1000000", *(f"block 0 {number:08X}" for number in range(count)), "open 0 in"]
    else:
        lines = ["tasks 1", "disk 0 0 1 1 40", "rec 0 0 0 1 - C1C2C3C4", "open 0 out 18000000000000000000000000000001"]
    lines += [f"area {number} 001000 {area}" for number, area in enumerate(areas)]
    for number in range(count):
        lines.append(f"excp 0 0 1 001000 {int(is_different or number % 100 == 99)} 001060 4")
        if number % 1000 == 999:
            lines.append("wait 0")
    return "\n".join([*lines, "wait 0", ""])


# --- with a browser

# What the lanes, the filter and the posts of a page show, with the whole run in view.
SHOWN = """(async () => {
  document.querySelector('.zooms button').click();
  await new Promise(done => requestAnimationFrame(() => requestAnimationFrame(done)));
  const lanes = [...document.querySelectorAll('.drawing .lane')];
  const count = (selector) => Object.fromEntries(lanes.map(lane => [lane.dataset.lane, lane.querySelectorAll(selector).length]));
  const chips = [...document.querySelectorAll('.filters .chip')];
  return {
    bars: count('.bar'), marks: count('.mark'), strips: count('.strip'), waits: count('.pause'), collects: count('.collect'),
    deep: lanes.filter(lane => lane.querySelector('.flight')).map(lane => lane.dataset.lane),
    dooms: [...document.querySelectorAll('.doom[data-doom]')].map(line => line.dataset.doom).sort(),
    codes: Object.fromEntries(chips.map(chip => [chip.textContent, parseInt(chip.nextSibling.data.replace(/,/g, ''))])),
    posts: document.getElementById('post-lines').textContent,
    wide: document.documentElement.scrollWidth,
    others: document.querySelectorAll('script:not([type]), img, iframe, object, embed, link, base').length,
  };
})()"""

# Goes to parts of the page by their names. Gives of each panel its title, its text, and where its links and its steps lead.
PANELS = """%s.map(id => {
  history.replaceState(null, '', '#' + id);
  dispatchEvent(new HashChangeEvent('hashchange'));
  const panel = document.querySelector('aside.panel');
  return [panel.querySelector('h3').textContent, panel.querySelector('.content').textContent.replace(/\\u00a0/g, ' '),
    [...panel.querySelectorAll('section p a')].map(a => a.hash.slice(1)),
    [...panel.querySelectorAll('.place a')].map(a => a.hash.slice(1)),
    [...panel.querySelectorAll('.pane tbody tr')].map(row => [row.dataset.at, row.cells[0].textContent])];
})"""

# The same of records, blocks and lines: what is lit, and what it says.
PLACES = """%s.map(id => {
  history.replaceState(null, '', '#' + id);
  dispatchEvent(new HashChangeEvent('hashchange'));
  const it = document.querySelector('.lit');
  return it && it.id === id ? (it.dataset.tip || it.querySelector('.over').textContent) : null;
})"""

# All folds open, and what is in the page then.
SHAPE = """(async () => {
  for (const it of document.querySelectorAll('section.unit')) it.build();
  for (const it of document.querySelectorAll('details')) it.open = true;
  await new Promise(done => setTimeout(done, 50));
  const tags = [...document.querySelectorAll('body *')].filter(it => it.namespaceURI.endsWith('xhtml')).map(it => it.localName);
  return {tags: tags.sort().join(' '), text: document.body.textContent, h1: document.querySelector('h1').textContent};
})()"""


def written(folder, text):
    with open(f"{folder}/page.html", "w", encoding="utf-8", errors="surrogateescape") as page:
        page.write(text)
    return f"{folder}/page.html"


def opened(setup, sheets):
    """Pages show what their JSON says, each of which is named."""
    with tempfile.TemporaryDirectory() as folder, browser.Browser() as it:
        for name, words, script in sheets:
            text = page_of(setup, *words, script=script)
            try:
                run_of_page = pages.Page(text).facts()
                shows_its_facts(it, written(folder, text), run_of_page)
                if "endarea" not in script:
                    changes.check_changes(script, run_of_page, it.value(changes.CHANGES))
            except Failed as error:
                raise Failed(f"{name}: {error}", error.ran, error.expected, error.actual) from error


def shows_its_facts(it, file, run_of_page):
    """The lanes in both windows, each panel and each place of a step show what the JSON says, and nothing is on the console."""
    wanted = {**pages.lanes_of(run_of_page), "posts": pages.posts_of(run_of_page), "others": 1}
    it.open(file, width=WINDOWS[0][0], height=HEIGHT)
    for width, is_dark in WINDOWS:
        it.look(width, HEIGHT, is_dark)
        actual = it.value(SHOWN)
        if actual.pop("deep"):  # a deep lane has no line from one request to another
            del actual["dooms"]
        wide = actual.pop("wide")
        require(wide <= width, f"the page is {wide} pixels wide in a window of {width}")
        for what, value in actual.items():
            require(value == wanted[what], f"{what} at {width} pixels: {value}, and not {wanted[what]}")
    programs.check_programs(run_of_page, it.value(programs.CELLS), it.value("document.querySelector('.ends, .share') !== null"))
    requests = list(pages.requests_of(run_of_page))
    for request, panel in zip(requests, it.value(PANELS % json.dumps([request[0] for request in requests])), strict=True):
        pages.check_panel(run_of_page, request, panel)
        programs.check_pane(run_of_page, request, panel[4])
    causes = {}
    for name, *_, cause in requests:
        if cause:
            causes.setdefault(cause, []).append(name)
    for (cause, ended), (_, _, links, *_) in zip(causes.items(), it.value(PANELS % json.dumps(list(causes))), strict=True):
        require(set(ended[: pages.NAMED]) <= set(links), f"the panel of {cause} does not lead to {ended}")
    places = pages.places_of(run_of_page)
    for (place, words), text in zip(places.items(), it.value(PLACES % json.dumps(list(places))), strict=True):
        require(text is not None and text.startswith(words), f"the place {place} has {text!r}, and not {words!r}")
    require(not it.said, f"on the console: {it.said[:3]}")


# How many dots of collected posts are in no wait.
OUTSIDE = """[...document.querySelectorAll('.lane.task')].reduce((sum, lane) => {
  const middleOf = (box) => (box.left + box.right) / 2;
  const waits = [...lane.querySelectorAll('.pause')].map(it => it.getBoundingClientRect());
  const dots = [...lane.querySelectorAll('.collect')].map(it => middleOf(it.getBoundingClientRect()));
  return sum + dots.filter(x => !waits.some(({left, right}) => x > left - 1 && x < right + 1)).length;
}, 0)"""


# A search for a key with blanks, which fails the first time, and another request that it dooms.
BLANKS = """tasks 1
disk 0 0 1 1 200
rec 0 0 0 1 key C'A   B' data C'FOUND'
open 0 in all
area 0 001000
IOB: IOB ecb=ECB start=CP dcb=1 seek=0,0,1 related
ECB: ECB
CP: SKE KEY,L'KEY,CC
 TIC CP
 RD DATA,5
KEY: DC C'A   B'
DATA: DS 5
LOST: IOB ecb=ECB start=LOOK dcb=1 seek=0,0,1 related
LOOK: SKE OTHER,L'OTHER,CC
 TIC LOOK
OTHER: DC C'A  BB'
endarea
excp 0 0 1 IOB 0 DATA 5
excp 0 0 1 LOST 0 DATA 5
excp 0 0 1 IOB 0 DATA 5
wait 0
"""

# What is left of a hint after each way to move what it is of: points at a bar, or goes to one by a key, and moves.
HINTS = """(async () => {
  const frame = () => new Promise(done => requestAnimationFrame(() => requestAnimationFrame(done)));
  const tip = document.querySelector('.tip');
  const move = () => new PointerEvent('pointermove', {bubbles: true, clientX: 300, clientY: 300});
  const point = () => document.querySelector('.drawing .bar .run').dispatchEvent(move());
  const lanes = document.querySelector('.scroller');
  const key = (name) => lanes.dispatchEvent(new KeyboardEvent('keydown', {key: name, bubbles: true}));
  const moves = {
    wheel: () => lanes.dispatchEvent(new WheelEvent('wheel', {bubbles: true})),
    scroll: () => scrollBy(0, 50),
    zoom: () => key('+'),
    leave: () => document.documentElement.dispatchEvent(new PointerEvent('pointerleave')),
    blur: () => { lanes.focus(); lanes.blur(); },
  };
  const left = [];
  for (const [name, move] of Object.entries(moves)) {
    for (const show of [point, () => { lanes.focus(); key('Home'); }]) {
      show();
      await frame();
      if (tip.hidden) left.push(`${name}: no hint`);
      move();
      await frame();
      if (!tip.hidden) left.push(name);
      lanes.blur();
    }
  }
  return left;
})()"""

# Closes the panel, and waits until the lanes are drawn anew.
CLOSED = """new Promise(done => {
  document.querySelector('[aria-label^=Close]').click();
  requestAnimationFrame(() => requestAnimationFrame(done));
})"""

# The colours of waits, and of bars.
COLOURS = """['.drawing .wait', '.legend .wait', '.drawing .run'].map(name => [...new Set(
  [...document.querySelectorAll(name)].map(it => name.endsWith('wait')
    ? getComputedStyle(it).stroke : it.closest('.bar').className.baseVal))])"""


def keeps_blanks_and_hides_hints(setup):
    """Keys keep their blanks, a wait has one colour whatever its code, and no hint stays where what it is of is no more."""
    with tempfile.TemporaryDirectory() as folder, browser.Browser() as it:
        it.open(written(folder, page_of(setup, "report", "--html", script=BLANKS)), "#q0-0-1", height=500)
        texts = [it.value("document.querySelector('aside.panel').innerText")]
        it.value(PANELS % '["q0-0-2"]')
        texts.append(it.value("document.querySelector('aside.panel').innerText"))
        for text, words in zip(texts, ("key C1404040C2 |A   B|", "|A  BB| on track"), strict=True):
            require(words in text.replace("\u00a0", " "), f"a panel has no {words!r}: {text}")
        it.value(CLOSED)
        waits, legend, bars = it.value(COLOURS)
        require(len(waits) == 1 and waits == legend and len(bars) > 1, f"waits have {waits} and {legend}, bars are {bars}")
        left = it.value(HINTS)
        require(not left and not it.said, f"hints stay after {left}; on the console: {it.said[:3]}")


# Where the panel and the lanes are, the headings of the steps, and whether a table of them is wider than its place.
DOCKED = """(() => {
  const panel = document.querySelector('aside.panel');
  const lanes = document.querySelector('.scroller').getBoundingClientRect();
  const {left, right, top, bottom} = panel.getBoundingClientRect();
  return {
    left, right, top, bottom, lanes: lanes.right, wide: document.documentElement.scrollWidth,
    heads: [...panel.querySelectorAll('.steps th')].map(it => it.checkVisibility() && it.textContent),
    isCut: [...panel.querySelectorAll('.wide-table')].some(it => it.scrollWidth > it.clientWidth),
  };
})()"""


def docks_its_panel(setup):
    """A panel has the steps as a table. In a wide window it is beside the lanes, in a narrow one over the bottom of the page."""
    with tempfile.TemporaryDirectory() as folder, browser.Browser() as it:
        file = written(folder, page_of(setup, "report", "--html", script=read(f"{SAMPLES}/how-programs-end.script")))
        it.open(file, "#q0-0-5", width=1280, height=900)
        wide = it.value(DOCKED)
        heads = "Address", "Command", "Flags", "Data", "Place", "Status"
        require(wide["heads"][:6] == list(heads) and not wide["isCut"], f"the steps have the columns {wide['heads']}, or are cut")
        box = wide["left"] >= wide["lanes"], wide["right"], wide["top"], wide["bottom"]
        require(box == (True, 1280, 0, 900), f"at 1280 pixels the panel is at {wide}")
        it.open(file, "#q0-0-5", width=400, height=900)
        narrow = it.value(DOCKED)
        box = narrow["left"], narrow["right"], narrow["bottom"], narrow["wide"]
        require(box == (0, 400, 900, 400) and narrow["top"] > 300 and not narrow["isCut"],
                f"at 400 pixels the panel is at {narrow}")


# Of each lane whether all of it is in the window, and the height of its first bar; and how many lanes have a label.
LANES = """[[...document.querySelectorAll('.drawing .lane')].map(lane => {
  const {top, bottom} = lane.querySelector('.ground').getBoundingClientRect();
  return [top >= 0 && bottom <= innerHeight, lane.querySelector('.run').getBoundingClientRect().height];
}), [...document.querySelectorAll('.label')].filter(it => it.textContent).length]"""


def many_lanes():
    """A script of 64 tasks, each of which prints a line at another one of 64 units."""
    area = f"{IOB}{'00' * 8}0900104020000004{'00' * 8}C1C2C3C4"
    lines = ["tasks 64", *(f"printer {unit} {unit % 8} 40 2" for unit in range(64)), *(f"open {unit} out" for unit in range(64))]
    lines += [f"area 0 001000 {area}", *(f"excp {task} {task * 7 % 64} 1 001000 0 001040 4" for task in range(64))]
    return "\n".join([*lines, ""])


def shows_all_lanes(setup):
    """The first screen has all lanes of 64 tasks and 64 units. On demand they are as high as others."""
    with tempfile.TemporaryDirectory() as folder, browser.Browser() as it:
        it.open(written(folder, page_of(setup, "report", "--html", script=many_lanes())), width=1280, height=900)
        lanes, labels = it.value(LANES)
        require(len(lanes) == 128 and all(is_seen and high >= 2 for is_seen, high in lanes),
                f"the first screen has the lanes {lanes}")
        require(labels >= 32, f"only {labels} lanes have labels")
        it.value("document.querySelector('button[aria-pressed=false]:not(.filters *)').click()")
        lanes, labels = it.value(f"new Promise(done => setTimeout(() => done({LANES}), 100))")
        require(labels == 128 and len(lanes) < 128 and lanes[0][1] == 16,
                f"tall lanes have {labels} labels, and bars as in {lanes[:3]}")
        require(not it.said, f"on the console: {it.said[:3]}")


# A job in symbols, whose program has a statement that looks like HTML. It ends there, and so misses what its flags chain.
SOURCE = """tasks 1
disk 0 0 1 1 60
rec 0 0 0 1 - C1C2C3C4
open 0 in all
area 0 001000
IOB: IOB ecb=ECB start=CP dcb=1 seek=0,0,1
ECB: ECB
CP: SIDE ID,L'ID,CC
 TIC CP
 RD BUFFER,4,CC
MORE: DC C'</script'
ID: CCHHR 0,0,1
BUFFER: DS 4
endarea
excp 0 0 1 IOB 0 BUFFER 4
"""
SOURCE_ROWS = [["2", "001030", "CP", "SIDE ID,L'ID,CC", "8"], ["1", "001038", "", "TIC CP", "9"],
               ["1", "001040", "", "RD BUFFER,4,CC", "10"], ["1", "001048", "MORE", "DC C'</script'", "11"],
               ["·", "001050", "ID", "CCHHR 0,0,1", "12"]]

# The cells of the pane; the first label and operand in the steps; and what is lit after the pointer is at a step, and at a row of
# the pane.
PANE = """(() => {
  const at = (place) => place.dispatchEvent(new PointerEvent('pointerover', {bubbles: true}));
  const lit = (names) => [...document.querySelectorAll(names)].filter(it => it.matches('.pointed')).map(it => it.dataset.at);
  const rows = [...document.querySelectorAll('.pane tbody tr')];
  const step = document.querySelector('.steps tr[data-at]');
  at(step.cells[1]);
  const byStep = lit('.pane tr');
  at(rows[2]);
  const texts = rows.map(row => [...row.cells].map(it => it.textContent));
  return [texts, step.cells[0].textContent, step.cells[3].textContent, byStep, lit('.steps tr')];
})()"""


def shows_its_source(setup):
    """The panel of a request has its program as the job has it; a step lights its statement, and a statement its steps. A statement
    that looks like HTML ends no element."""
    with tempfile.TemporaryDirectory() as folder, browser.Browser() as it:
        text = page_of(setup, "report", "--html", script=SOURCE)
        pages.check(text)
        it.open(written(folder, text), "#q0-0-1", height=900)
        rows, label, data, by_step, by_row = it.value(PANE)
        require(rows == SOURCE_ROWS, f"the pane has {rows}")
        require(label == "001030CP" and data.startswith("5 bytes from 001050 ID"), f"a step has {label} and {data}")
        require((by_step, by_row) == (["001030"], ["001040"]), f"a pointer lights {by_step} and {by_row}")
        require(not it.said, f"on the console: {it.said[:3]}")


# Searches that find no record: for keys that are longer than what a step shows, one of one CCW and one of a data chain; and for an
# ID with the skip flag, which counts for no search.
SEARCHES = """tasks 1
disk 0 0 1 1 1000
rec 0 0 0 1 key C'SYS1.PROCLIB.OLD' fill 44 data C'F1'
rec 0 0 0 2 key C'SYS1.LINKLIB' fill 44 data C'F1'
open 0 in all
area 0
A:     IOB ecb=ECB start=LONG dcb=1
B:     IOB ecb=ECB start=CHAIN dcb=1
C:     IOB ecb=ECB start=NONE dcb=1
ECB:   ECB
LONG:  SKE KEY,44,CC
       TIC LONG
       RD BUFFER,2
CHAIN: SKE KEY,1,CD
       CCW 0,KEY+1,43,CC
       TIC CHAIN
       RD BUFFER,2
NONE:  SIDE ID,5,SKIP CC
       TIC NONE
       RD BUFFER,2
KEY:   DC C'SYS1.LINKLIB.NEW' fill 44
ID:    CCHHR 0,0,9
BUFFER: DS 2
endarea
excp 0 0 1 A 0 BUFFER 2
excp 0 0 1 B 0 BUFFER 2
excp 0 0 1 C 0 BUFFER 2
"""

# What a search looked for, the marked bytes of each record, and how many pixels of the panel are cut off.
COMPARED = """(() => {
  const panel = document.querySelector('aside.panel');
  const {right} = panel.querySelector('.content').getBoundingClientRect();
  const rights = [...panel.querySelectorAll('.content *')].map(it => it.getBoundingClientRect().right);
  const wide = [panel, ...panel.querySelectorAll('.wide-table, .compare')].map(it => it.scrollWidth - it.clientWidth);
  const marked = row => [...row.querySelectorAll('mark')].map(it => it.textContent).join('');
  const marks = [...panel.querySelectorAll('.compare tr')].map(marked);
  return [panel.querySelector('.compare p').textContent, marks,
    Math.round(Math.max(0, ...wide, ...rights.map(it => it - right)))];
})()"""


def compares_what_it_knows(setup):
    """The panel of a search that found no record says whether the JSON has all that it looked for, and marks no byte beyond that.
    Long keys are whole in it."""
    old, wanted = ("SYS1.PROCLIB.OLD".encode("cp037"), "SYS1.LINKLIB.NEW".encode("cp037"))
    blanks = "SYS1.LINKLIB".encode("cp037").ljust(16, b"\x40")
    differing = ["".join(f"{one:02X}" for one, other in zip(key, wanted) if one != other) for key in (old, blanks)]
    key = f"Looked for key {pages.grouped(wanted.hex().upper())} |SYS1.LINKLIB.NEW| … on track 0 0, passed 4 records, found none."
    by_id = "Looked for ID 00000000 09 on track 0 0, passed 6 records, found none."
    expected = [(key, differing), (key, differing), (by_id, ["00", "01", "02"])]
    with tempfile.TemporaryDirectory() as folder, browser.Browser() as it:
        file = written(folder, page_of(setup, "report", "--html", script=SEARCHES))
        for number, (words, marks) in enumerate(expected, 1):
            for width in 1280, 1010, 400:
                it.open(file, f"#q0-0-{number}", width=width)
                said, marked, cut = it.value(COMPARED)
                require(said.startswith(words) and marked == marks, f"request {number} says {said!r} and marks {marked}")
                require(cut == 0, f"at {width} pixels the panel of request {number} lacks {cut} pixels")


# Requests that find no record, each after a reset of their DCB.
FLAGS = "\n".join(["""tasks 1
disk 0 0 1 1 200
open 0 in all
area 0
IOB: IOB ecb=ECB start=CP dcb=1 related
ECB: ECB
CP:  SIDE ID,5,CC
     TIC CP
     RD BUFFER,2
ID:  CCHHR 0,0,9
BUFFER: DS 2
endarea""", *(6 * ["excp 0 0 1 IOB 0 BUFFER 2", "wait 0", "reset 0 0 1"]), ""])

# The strips of a lane, and their labels: from where to where each of them is.
STRIPS = """['.body', '.plate'].map(name => [...document.querySelectorAll(`.drawing .strip ${name}`)].map(it => {
  const {left, right} = it.getBoundingClientRect();
  return [left, right];
}))"""


def labels_its_strips(setup):
    """No label of a strip is over another label, or over another strip of its row."""
    with tempfile.TemporaryDirectory() as folder, browser.Browser() as it:
        file = written(folder, page_of(setup, "report", "--html", script=FLAGS))
        for width in 400, 1280:
            it.open(file, width=width)
            strips, labels = it.value(STRIPS)
            require(len(strips) == 6 and labels, f"there are the strips {strips} with the labels {labels}")
            require(len(labels) == 6 or width < 1280, f"at {width} pixels only {labels} have a label")
            for place, (left, right) in enumerate(labels):
                over = [other for other in [*labels[:place], *strips] if left < other[1] and other[0] < right]
                require(len(over) <= 1, f"at {width} pixels the label from {left} to {right} is over {over}")


# A read whose bytes are skipped, two no-operations with faults, a read without a count, and a purge. Nothing is written.
WORDS = """tasks 2
disk 0 0 1 1 200
rec 0 0 0 1 key C'K' data C'ABCDEFGHIJKLMNOPQRSTUVWX'
rec 0 0 0 2 data C'A'
fault 0 4 0E 00 0200
fault 0 5 0E 00 2420
open 0 in all
area 0
SKIPS: IOB ecb=ECB start=CP dcb=1
FAILS: IOB ecb=ECB start=CP2 dcb=1
ZERO:  IOB ecb=ECB start=CP3 dcb=1
ECB:   ECB
CP:    SIDE ID,5,CC
       TIC CP
       RD BUFFER,24,SKIP
CP2:   NOP
CP3:   RD BUFFER,0
ID:    CCHHR 0,0,1
BUFFER: DS 24
endarea
excp 0 0 1 SKIPS 0 BUFFER 24
wait 0
excp 0 0 1 FAILS 0 BUFFER 24
wait 0
excp 0 0 1 FAILS 0 BUFFER 24
wait 0
excp 0 0 1 ZERO 0 BUFFER 24
wait 0
purgetask 0 0 halt
"""

# The text of an element, with one blank for each space and end of a line; and the rows of the bytes that a panel shows.
TEXT = "document.querySelector(%s).textContent.replace(/\\s+/g, ' ')"
ROWS_SHOWN = "[...document.querySelectorAll('aside.panel .content > section:last-child .hex > div')].map(it => it.textContent)"

# Whether the button for all panels is seen: of the whole run, and of a task that issued nothing.
OFFERED = """['', '1'].map(task => {
  const select = document.querySelector('.filters select');
  select.value = task;
  select.dispatchEvent(new Event('change'));
  return document.querySelector('#requests .all').checkVisibility();
})"""


def says_it_well(setup):
    """The sentences of a page are whole, and each part of it says what is known."""
    expected = {
        "#unit0 p": ["2 records, and record 0 of each track. ", "key data. The run left it as it was."],
        ".drawing .task": ["purge of task 0 with halt, on unit 0"],
        ".note": ["A dot is where a task can first have collected the post."],
        '[data-request="q0-0-4"] .cells': ["✕ RD"],
    }
    panels = {1: ["24 bytes to 0010AD BUFFER: skipped …"], 2: ["unit check, sense 0200, fault 1"],
              3: ["unit check, sense 2420 bus-out check, overrun, end of cylinder, fault 2"],
              4: ["program check at 0010A0 RD 060010AD 00000000: the count is zero"]}
    with tempfile.TemporaryDirectory() as folder, browser.Browser() as it:
        file = written(folder, page_of(setup, "report", "--html", script=WORDS))
        it.open(file, "#unit0")
        found = {selector: it.value(TEXT % json.dumps(selector)) for selector in expected}
        for number, words in panels.items():
            it.open(file, f"#q0-0-{number}")
            expected[number], found[number] = words, it.value(TEXT % "'aside.panel'")
            rows = it.value(ROWS_SHOWN)
            require(rows == ["00000000 00000000  ........"] * 3, f"the bytes shown of request {number} are {rows}")
        for selector, words in expected.items():
            for text in words:
                require(text in found[selector], f"{selector} lacks {text!r}: {found[selector]}")
        require(it.value(OFFERED) == [True, False], "panels of no request are offered")


# The lanes of commands that the filter leaves, after its button of a code.
FILTERED = """(() => {
  [...document.querySelectorAll('.filters button')].find(it => it.textContent.startsWith('41')).click();
  return [...document.querySelectorAll('.program-lane')].filter(it => it.checkVisibility()).map(it => it.dataset.request);
})()"""


def filters_its_programs(setup):
    """The filter leaves lanes of commands as it leaves bars."""
    text = page_of(setup, "report", "--html", script=read(f"{SAMPLES}/how-programs-end.script"))
    wanted = [f"q{it['task']}-{it['unit']}-{it['request']}" for it in pages.Page(text).run()["posts"] if it["code"] == "41"]
    with tempfile.TemporaryDirectory() as folder, browser.Browser() as it:
        it.open(written(folder, text))
        found = it.value(FILTERED)
        require(sorted(found) == sorted(wanted), f"the filter leaves {found}, and not {wanted}")


def leads_to_what_was_there(setup):
    """No link leads to a record or block that came later to the place of another one. Each dot is in its wait."""
    with tempfile.TemporaryDirectory() as folder, browser.Browser() as it:
        text = page_of(setup, "report", "--html", script=GONE)
        run_of_page = pages.Page(text).facts()
        shows_its_facts(it, written(folder, text), run_of_page)
        require(it.value(OUTSIDE) == 0, "a dot is in no wait")
        changes.check_changes(GONE, run_of_page, it.value(changes.CHANGES))


# A further record 0 after the R0 of a track, in a job that reads it. The R0 of the other track changes.
FURTHER_R0 = """tasks 1
disk 0 0 1 2 300
rec 0 0 0 1 - C1C2C3C4
rec 0 0 1 1 - C1C2C3C4
open 0 out all
area 0
A:     IOB ecb=ECB start=CP dcb=1
B:     IOB ecb=ECB start=CP2 dcb=1 seek=0,1,0
ECB:   ECB
CP:    SIDE ID,5,CC
       TIC CP
       WCKD ZERO,12,CC
       WCKD FIVE,12,CC
       RD BUFFER,4,SLI
CP2:   SIDE ID2,5,CC
       TIC CP2
       WD ZERO,8
ID:    CCHHR 0,0,0
ID2:   CCHHR 0,1,0
ZERO:  COUNT 0,0,0,0,4
       DC C'ZERO'
FIVE:  COUNT 0,0,5,0,4
       DC C'FIVE'
BUFFER: DS 4
endarea
excp 0 0 1 A 0 BUFFER 4
excp 0 0 1 B 0 BUFFER 4
"""


def tells_record_0_apart(setup):
    """A further record 0 is not drawn as the R0 that the JSON leaves out; one that changed is."""
    plain = setup.run("assemble", script=FURTHER_R0)
    require(plain.status == 0, "the job is not assembled", plain)
    with tempfile.TemporaryDirectory() as folder, browser.Browser() as it:
        text = page_of(setup, "report", "--html", script=plain.out)
        run_of_page = pages.Page(text).facts()
        require(run_of_page["further_r0"] == [[[0, 0]]], f"further records 0 are at {run_of_page['further_r0']}")
        shows_its_facts(it, written(folder, text), run_of_page)
        changes.check_changes(plain.out, run_of_page, it.value(changes.CHANGES))
        tracks = it.value("[...document.querySelectorAll('.track')].map(it => it.getAttribute('aria-label'))")
        drawn = [track.split(",")[0] for track in tracks[-2:]]
        require(drawn == ["Track 0 0: 3 records", "Track 0 1: 2 records"], f"the tracks are {tracks}")


def notices(setup):
    """The reader of facts notices a broken address of a program check."""
    text = page_of(setup, "report", "--html", script=read(f"{SAMPLES}/how-programs-end.script"))
    run_of_page = pages.Page(text).facts()
    rule = next(step["rule"] for steps in run_of_page["steps"] for step in steps if "rule" in step)
    with tempfile.TemporaryDirectory() as folder, browser.Browser() as it:
        file = written(folder, text)
        shows_its_facts(it, file, run_of_page)
        rule["at"] = f"{int(rule['at'], 16) ^ 8:06X}"
        try:
            shows_its_facts(it, file, run_of_page)
        except Failed as error:
            return require("program check at" in str(error), f"another failure: {error}")
    raise Failed("a broken address of a program check is not noticed")


def stays_text(setup):
    """Bytes and names that look like HTML make no element. Without scripts the page has its posts."""
    with tempfile.TemporaryDirectory() as folder, browser.Browser() as it:
        for code in "cp037", "ascii":
            shapes = []
            for text in HOSTILE.replace("\n", " ").translate(MEANINGS), HOSTILE.replace("\n", " "):
                it.open(written(folder, page_of(setup, "report", "--html", script=with_bytes(text.encode(code, "replace")))),
                        "#q0-0-1")
                shapes.append(it.value(SHAPE))
                require(not it.said, f"on the console: {it.said[:3]}")
            require(shapes[0]["tags"] == shapes[1]["tags"], f"hostile bytes in {code} make other elements")
            require(code == "ascii" or "<script>alert(1)</script>" in shapes[1]["text"], "the paper does not show the text")
        name, text = hostile_name(setup, folder)
        it.open(written(folder, text))
        require(it.value(SHAPE)["h1"] == name and not it.said, "the name is not text")
        it.open(written(folder, text), has_scripts=False)
        # not `innerText`, which is empty as long as the browser has laid out only what is in the window
        is_shown, shown = it.value("(lines => [lines.checkVisibility(), lines.textContent])(document.getElementById('post-lines'))")
        require(is_shown, "without scripts the page hides its posts")
        expect_text("without scripts", None, pages.Page(text).texts["post-lines"].strip(), shown.strip())


def says_its_bound(setup):
    """The page of a tape over the bound of a page says so, and has the blocks that the run touched."""
    block, script = bytes(32_760), many(1, True).replace("tape 0 0 1000000", "tape 0 0 4000000").replace("block 0 00000000\n", "")
    with tempfile.TemporaryDirectory() as folder, browser.Browser() as it:
        with open(f"{folder}/tape.aws", "wb") as image:
            for number in range(40):
                image.write(struct.pack("<HHBB", len(block), len(block) if number else 0, 0xA0, 0) + block)
        text = page_of(setup, "report", "--html", "--load", f"0={folder}/tape.aws", script=script)
        run_of_page = pages.Page(text).facts()
        medium = run_of_page["units"][0]["medium"]
        require((medium["whole"], medium["count"], medium["numbers"]) == (False, 40, [1]), f"the medium has {medium['numbers']}")
        shows_its_facts(it, written(folder, text), run_of_page)
        shown = it.value("[document.querySelector('.partial').textContent, document.querySelectorAll('.block').length]")
        require("more than 1 MiB" in shown[0] and shown[1] == 1, f"the page says {shown}")


def sheets():
    """The pages that a browser opens: of each script that runs and each scenario."""
    for name, script, _ in stored():
        yield name, ("report", "--html"), script
    for file in scenarios():
        yield os.path.relpath(file, TOP), ("step", "--html"), read(file)


def cases(setup):
    yield Case("the files of the viewer", viewer_is_whole, "python/excp/reporting/page.py")
    for name, script, texts in stored():
        yield Case(f"page of {name}", lambda s=script, t=texts: is_right(setup, s, t), ORIGIN)
    for file in scenarios():
        yield Case(f"page of {os.path.relpath(file, TOP)}", lambda s=read(file): has_its_json(setup, s), ORIGIN)
    for code in "cp037", "ascii":
        yield Case(f"hostile bytes in {code}", lambda c=code: keeps_its_shape(setup, c), f"{ORIGIN}, and the HTML standard")
    yield Case("the script of a page", lambda: has_its_script(setup), ORIGIN)
    yield Case("the foot", lambda: has_its_foot(setup), ORIGIN)
    yield Case("a hostile name", lambda: escapes_the_title(setup), ORIGIN)
    for kind in SIZES:
        yield Case(f"20,000 requests, {kind}", lambda k=kind: fits(setup, k), ORIGIN)
    all_sheets = list(sheets())
    for at in range(0, len(all_sheets), SHEAF):
        part = all_sheets[at : at + SHEAF]
        yield Case(f"in a browser, from {part[0][0]}", lambda p=part: opened(setup, p), f"{ORIGIN}, and Chromium")
    yield Case("in a browser, records that are gone", lambda: leads_to_what_was_there(setup), ORIGIN)
    yield Case("in a browser, a further record 0", lambda: tells_record_0_apart(setup), ORIGIN)
    yield Case("in a browser, blanks and hints", lambda: keeps_blanks_and_hides_hints(setup), ORIGIN)
    yield Case("in a browser, the filter of programs", lambda: filters_its_programs(setup), ORIGIN)
    yield Case("in a browser, a panel", lambda: docks_its_panel(setup), ORIGIN)
    yield Case("in a browser, searches that find nothing", lambda: compares_what_it_knows(setup), ORIGIN)
    yield Case("in a browser, labels of strips", lambda: labels_its_strips(setup), ORIGIN)
    yield Case("in a browser, words", lambda: says_it_well(setup), ORIGIN)
    yield Case("in a browser, a program of a job", lambda: shows_its_source(setup), ORIGIN)
    yield Case("in a browser, many lanes", lambda: shows_all_lanes(setup), ORIGIN)
    yield Case("in a browser, a broken address", lambda: notices(setup), ORIGIN)
    yield Case("in a browser, a tape over the bound", lambda: says_its_bound(setup), ORIGIN)
    yield Case("in a browser, hostile texts", lambda: stays_text(setup), f"{ORIGIN}, and the HTML standard")
