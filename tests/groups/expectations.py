"""`excp test`: which files are tests, how each ends and is printed, expectations that are written, JUnit XML.

Texts follow from docs/MANUAL.md, "Jobs as tests". Jobs are those of samples/, and small ones of this module.
"""

import contextlib
import os
import random
import re
import shutil
import subprocess
import tempfile
from xml.etree import ElementTree

from harness import SAMPLES, TOP, Case, Skipped, expect, expect_text, read, require

ORIGIN = "tests/groups/expectations.py, by docs/MANUAL.md and python/excp/help/test.txt"

READ, SYMBOLIC, POSTS = (read(f"{SAMPLES}/read.{it}") for it in ("script", "symbolic", "posts"))
HALT = read(f"{SAMPLES}/scenarios/halt-an-active-request.scenario")
ANSWERED = HALT.replace("expect Ended 0 0 1 48", "expect Ended 0 0 1 7F")
POST = POSTS.splitlines()[0]
OTHER = POSTS.replace("C1C2C3C4", "C1C2C3C5")

# What is printed of a job `a.script` with the posts OTHER.
DIFF = f"""FAILED a.script
  --- expected a.posts
  +++ got a.script
  @@ -1,2 +1,2 @@
  -{OTHER.splitlines()[0]}
  +{POST}
   end 1
"""
SUM = "{} passed, {} failed{}\n".format

# The elements of a report and their attributes, as junit-10.xsd of Jenkins has them, and what is in each element.
ATTRIBUTES = {
    "testsuites": {"name", "tests", "failures", "errors", "time"},
    "testsuite": {"name", "tests", "failures", "errors", "skipped", "time", "timestamp"},
    "testcase": {"classname", "name", "time"},
    "failure": {"message"},
    "skipped": {"message"},
}
CHILDREN = {"testsuites": {"testsuite"}, "testsuite": {"testcase"}, "testcase": {"failure", "skipped"}, "failure": (),
            "skipped": ()}


@contextlib.contextmanager
def folder_of(files):
    """A folder with these files, which is gone in the end."""
    with tempfile.TemporaryDirectory() as folder:
        for name, text in files.items():
            os.makedirs(os.path.dirname(f"{folder}/{name}"), exist_ok=True)
            with open(f"{folder}/{name}", "wb") as file:
                file.write(text if isinstance(text, bytes) else text.encode())
        yield folder


def tried(setup, files, *words, **how):
    """A run of `test` with these words in a folder with these files."""
    with folder_of(files) as folder:
        return setup.run("test", *words, cwd=folder, **how)


def all_pass(setup):
    files = {"a.script": READ, "a.symbolic": SYMBOLIC, "a.posts": POSTS, "b/halt.scenario": HALT}
    due = "ok a.script\nok a.symbolic\nok b/halt.scenario\n"
    expect(tried(setup, files, "."), (0, due + SUM(3, 0, "")))
    expect(tried(setup, files, "a.symbolic", "b"), (0, "ok a.symbolic\nok b/halt.scenario\n" + SUM(2, 0, "")))
    expect(tried(setup, files, "b", "a.script", "b/halt.scenario"), (0, "ok b/halt.scenario\nok a.script\n" + SUM(2, 0, "")))


def shows_a_diff(setup):
    """Other posts fail, with a diff."""
    files = {"a.script": READ, "a.posts": OTHER, "b.script": READ, "b.posts": POSTS}
    expect(tried(setup, files, "."), (1, f"{DIFF}ok b.script\n{SUM(1, 1, '')}"))
    expect(tried(setup, files, "--quiet", "."), (1, DIFF + SUM(1, 1, "")))
    expect(tried(setup, {**files, "a.posts": POSTS}, "-q", "."), (0, SUM(2, 0, "")))


def each_change_fails(setup):
    """A sample passes, and fails by each line of its posts that is changed, left out or doubled."""
    name = "related-requests"
    job, posts = read(f"{SAMPLES}/{name}.symbolic"), read(f"{SAMPLES}/{name}.posts").splitlines(True)
    expect(tried(setup, {"a.symbolic": job, "a.posts": "".join(posts)}, "a.symbolic"), (0, f"ok a.symbolic\n{SUM(1, 0, '')}"))
    for at, line in enumerate(posts):
        for others, due in ([f"{line[:-2]}?\n"], ["-", "+"]), ([], ["+"]), ([line, line], ["-"]):
            ran = tried(setup, {"a.symbolic": job, "a.posts": "".join([*posts[:at], *others, *posts[at + 1 :]])}, "a.symbolic")
            signs = [it[2] for it in ran.out.splitlines()[4:] if it[2:3] in ("-", "+")]
            require((ran.status, ran.err, signs) == (1, "", due), f"another diff of line {at + 1}", ran)


def takes_two_results(setup):
    """A job that races itself may have a second file of posts. Line ends count for nothing."""
    files = {"a.script": READ, "a.posts": OTHER, "a.or.posts": POSTS}
    expect(tried(setup, files, "."), (0, f"ok a.script\n{SUM(1, 0, '')}"))
    expect(tried(setup, {"a.script": READ, "a.or.posts": POSTS}, "."), (0, f"ok a.script\n{SUM(1, 0, '')}"))
    for text in POSTS.replace("\n", "\r\n"), POSTS.removesuffix("\n"):
        expect(tried(setup, {"a.script": READ, "a.posts": text}, "."), (0, f"ok a.script\n{SUM(1, 0, '')}"))
    ran = tried(setup, {**files, "a.or.posts": OTHER}, ".")
    expect(ran, (1, f"{DIFF}{SUM(0, 1, '')}"))


def lacks_expectations(setup):
    """A test without an expectation does not fail, unless none has one."""
    files = {"a.script": READ, "a.posts": POSTS, "b.script": READ, "c.scenario": re.sub("expect.*\n", "", HALT)}
    skipped = "skipped b.script: there is no b.posts\nskipped c.scenario: it has no line 'expect'\n"
    expect(tried(setup, files, "."), (0, f"ok a.script\n{skipped}{SUM(1, 0, ', 2 without an expectation')}"))
    said = "excp: no test has an expectation: test --accept writes those of jobs\n"
    expect(tried(setup, files, "b.script", "c.scenario"), (1, f"{skipped}{SUM(0, 0, ', 2 without an expectation')}", said))


def has_faults(setup):
    """A fault fails a test, and is printed as by `check`, without notes."""
    plain = READ.replace("excp 0 0 1 001000", "excp 0 0 1 001001")
    line = next(at for at, it in enumerate(plain.split("\n"), 1) if it.startswith("excp "))
    with folder_of({"a.script": plain}) as folder:
        found = setup.run("check", "a.script", cwd=folder).out
    require(found.startswith(f"a.script:{line}: Request: "), f"another fault: {found}")
    faults = "".join(f"  {it}\n" for it in found.splitlines() if ": note: " not in it)
    files = {"a.script": plain, "a.posts": POSTS}
    expect(tried(setup, files, "."), (1, f"FAILED a.script\n{faults}{SUM(0, 1, '')}"))
    # no posts expect a fault
    expect(tried(setup, {**files, "a.posts": found}, "."), (1, f"FAILED a.script\n{faults}{SUM(0, 1, '')}"))
    symbolic = SYMBOLIC.replace("IOB ", "IOBB ", 1)
    with folder_of({"a.symbolic": symbolic}) as folder:
        found = setup.run("check", "a.symbolic", cwd=folder).out
    faults = "".join(f"  {it}\n" for it in found.splitlines())
    expect(tried(setup, {"a.symbolic": symbolic, "a.posts": POSTS}, "."), (1, f"FAILED a.symbolic\n{faults}{SUM(0, 1, '')}"))


def runs_scenarios(setup):
    """A scenario fails by the line of an expectation that is not met, or by a fault."""
    line = next(at for at, it in enumerate(ANSWERED.split("\n"), 1) if it == "expect Ended 0 0 1 7F")
    said = f"a.scenario:{line}: expected: Ended 0 0 1 7F; answered: Ended 0 0 1 48"
    expect(tried(setup, {"a.scenario": ANSWERED}, "."), (1, f"FAILED a.scenario\n  {said}\n{SUM(0, 1, '')}"))
    ran = tried(setup, {"a.scenario": f"{HALT}tak 0\n"}, "a.scenario")
    last = len(HALT.splitlines()) + 1
    require(ran.status == 1 and ran.out.startswith(f"FAILED a.scenario\n  a.scenario:{last}: Words: "), "another fault", ran)
    expect(tried(setup, {"a.scenario": HALT}, "--accept", "."), (0, f"ok a.scenario\n{SUM(1, 0, '')}"))
    ran = tried(setup, {"a.scenario": ANSWERED}, "--accept", ".")
    expect(ran, (1, f"FAILED a.scenario\n  {said}\n{SUM(0, 1, '')}"))


def finds_files(setup):
    """Folders are searched in order, without hidden files and others; a file may have any name."""
    files = {"b/z.script": READ, "b/z.posts": POSTS, "a/y.symbolic": SYMBOLIC, "a/y.posts": POSTS, "a-b/x.script": READ,
             "a-b/x.posts": POSTS}
    files |= {"job": SYMBOLIC, "job.posts": POSTS, "b/read.report": "", "notes": "", ".hidden/a.script": READ, "b/.a.script": READ}
    names = ["a/y.symbolic", "a-b/x.script", "b/z.script", "job"]
    for path in ".", "./", "../" :
        with folder_of({f"top/{name}": text for name, text in files.items()}) as folder:
            os.mkfifo(f"{folder}/top/b/pipe.script")
            below = "".join(f"ok {'top/' if path == '../' else ''}{it}\n" for it in names)
            words = ["top"] if path == "../" else [path]
            ran = setup.run("test", *words, cwd=folder if path == "../" else f"{folder}/top")
            expect(ran, (0, below + SUM(4, 0, "")))
    expect(tried(setup, {"job.txt": SYMBOLIC, "job.posts": POSTS}, "job.txt"), (0, f"ok job.txt\n{SUM(1, 0, '')}"))
    ran = tried(setup, {"b.script/a.script": READ, "b.script/a.posts": POSTS}, "b.script")
    expect(ran, (0, f"ok b.script/a.script\n{SUM(1, 0, '')}"))


def misses_paths(setup):
    """A path that leads to no test is an error, before a test runs."""
    files = {"jobs/read-a-tape.symbolic": SYMBOLIC, "jobs/read-a-tape.posts": POSTS, "empty/text": ""}
    texts = {
        "jobs/raed-a-tape.symbolic": "there is no such file or folder; did you mean 'jobs/read-a-tape.symbolic'?",
        "job": "there is no such file or folder; did you mean 'jobs'?",
        "nothing-as-this": "there is no such file or folder",
        "none/job": "there is no such file or folder",
        "-": "there is no such file or folder",
        "empty": "the folder has no file .script, .symbolic, .scenario",
        "jobs/read-a-tape.posts": "it has what a job prints: name the file of the job",
    }
    for path, text in texts.items():
        expect(tried(setup, files, "jobs", path), (2, "", f"excp: {path}: {text}\n"))
    for words, text in {
        ("-k", "raed-a-tape", "jobs"): "no test has 'raed-a-tape' in its name; did you mean 'read-a-tape'?",
        ("-k", "disk", "-k", "printer", "jobs"): "no test has 'disk' or 'printer' in its name",
        ("--acept", "jobs"): "unrecognized arguments: --acept; did you mean '--accept'?",
        ("jobs", "--junt=x"): "unrecognized arguments: --junt=x; did you mean '--junit'?",
        ("jobs", "--update"): "unrecognized arguments: --update; excp test --help lists the options",
        ("jobs", "--force"): "--force needs --accept or --junit FILE, which write files; excp test --help lists the options",
        ("--junit",): "argument --junit: expected one argument; excp test --help lists the options",
        (): "the following arguments are required: PATH; excp test --help lists the options",
    }.items():
        expect(tried(setup, files, *words), (2, "", f"excp: test: {text}\n"))


def selects(setup):
    """-k selects by a part of the name, several by any of them; options and paths come in any order."""
    files = {f"{name}/{job}.{end}": text for name in ("disk", "tape") for job in ("one", "two")
             for end, text in (("script", READ), ("posts", POSTS))}
    for words, names in {
        ("-k", "one", "."): ["disk/one", "tape/one"],
        (".", "-k", "tape/"): ["tape/one", "tape/two"],
        ("disk", "-k", "e/one", "tape", "-k", "k/two"): ["disk/two", "tape/one"],
    }.items():
        expect(tried(setup, files, *words), (0, "".join(f"ok {it}.script\n" for it in names) + SUM(2, 0, "")))


def accepts(setup):
    """--accept writes what is not there or differs, says so, and nothing else. Then all passes."""
    files = {"a.script": READ, "a.posts": POSTS, "b.symbolic": SYMBOLIC, "c.script": READ, "c.posts": OTHER,
             "d.script": "nothing\n"}
    with folder_of(files) as folder:
        os.chmod(f"{folder}/c.posts", 0o640)
        kept = os.stat(f"{folder}/a.posts")
        ran = setup.run("test", "--accept", ".", cwd=folder)
        require(ran.out.startswith("ok a.script\nwrote b.posts\nwrote c.posts\nFAILED d.script\n"), "other lines", ran)
        require(ran.status == 1 and ran.out.endswith(SUM(1, 1, ", 2 written")) and not ran.err, "another outcome", ran)
        require(os.stat(f"{folder}/a.posts").st_ino == kept.st_ino, "it wrote a file that was right")
        require(sorted(os.listdir(folder)) == sorted([*files, "b.posts"]), f"other files: {os.listdir(folder)}")
        require(os.stat(f"{folder}/c.posts").st_mode & 0o777 == 0o640, "another mode")
        for name in "b", "c":
            expect_text("other posts", None, POSTS, read(f"{folder}/{name}.posts"))
        ran = setup.run("test", "--accept", "-q", "a.script", "b.symbolic", "c.script", cwd=folder)
        expect(ran, (0, SUM(3, 0, "")))
        os.remove(f"{folder}/b.posts")
        expect(setup.run("test", "--accept", "-q", "-k", "b.", ".", cwd=folder), (0, f"wrote b.posts\n{SUM(0, 0, ', 1 written')}"))


def notes_races(setup):
    """--accept says of a job that races itself that its next run may have other posts."""
    job = read(f"{SAMPLES}/outcomes/a-halt.symbolic")
    note = "  note: the order of tasks may decide posts: 'outcomes' looks for those that each request can have\n"
    expect(tried(setup, {"a.symbolic": job}, "--accept", "."), (0, f"wrote a.posts\n{note}{SUM(0, 0, ', 1 written')}"))


def accepts_no_others(setup):
    """A file of posts that may not be replaced stays, and the test fails. Two jobs do not overwrite each other's posts."""
    script = READ.replace("C1C2C3C4", "C1C2C3C5")
    ran = tried(setup, {"a.script": READ, "a.symbolic": script}, "--accept", ".")
    due = DIFF.replace("a.script", "a.symbolic").replace("C1C2C3C5", "X").replace("C1C2C3C4", "C1C2C3C5").replace("X", "C1C2C3C4")
    expect(ran, (1, f"wrote a.posts\n{due}{SUM(0, 1, ', 1 written')}"))
    image = b"\4\0\0\0\xa0\0data\0\0\4\0\x40\0"

    def is_kept(how, text, *words):
        with folder_of({"a.script": READ}) as folder:
            how(f"{folder}/a.posts")
            before = os.lstat(f"{folder}/a.posts")
            ran = setup.run("test", "--accept", *words, ".", cwd=folder)
            expect(ran, (1, f"FAILED a.script\n  a.posts: {text}\n{SUM(0, 1, '')}"))
            after = os.lstat(f"{folder}/a.posts")
            require((before.st_ino, before.st_size) == (after.st_ino, after.st_size), "the file has changed", ran)
            require(len(os.listdir(folder)) <= 3 and not any(it.endswith(".excp-new") for it in os.listdir(folder)),
                    "a new file is left")

    def holds(content, mode=0o644):
        def make(name):
            with open(name, "wb") as file:
                file.write(content)
            os.chmod(name, mode)
        return make

    is_kept(holds(image), "it holds a tape image, which the posts of a job replaces only with --force")
    is_kept(holds(b"old\n", 0o444), "this user may not write it: only --force replaces it")
    is_kept(lambda name: os.symlink("a.script", name), "this command reads or saves it: name another file")
    is_kept(lambda name: os.symlink("a.script", name), "this command reads or saves it: name another file", "--force")
    is_kept(os.mkdir, "it is a directory")
    is_kept(holds(b"a thesis\n"), "it holds text, which the posts of a job replaces only with --force")
    is_kept(os.mkfifo, "it is a pipe")
    for content, mode in (image, 0o644), (b"old\n", 0o444):
        with folder_of({"a.script": READ}) as folder:
            holds(content, mode)(f"{folder}/a.posts")
            expect(setup.run("test", "--accept", "--force", ".", cwd=folder), (0, f"wrote a.posts\n{SUM(0, 0, ', 1 written')}"))
            expect_text("other posts", None, POSTS, read(f"{folder}/a.posts"))


def element_by_element(top):
    """That each element of a report and each of its attributes is one that readers know."""
    for element in top.iter():
        require(set(element.keys()) <= ATTRIBUTES[element.tag], f"attributes {element.keys()} of {element.tag}")
        require({it.tag for it in element} <= set(CHILDREN[element.tag]), f"elements of {element.tag}")


def writes_junit(setup):
    """The report has each test with its time, and what is wrong with it."""
    files = {"a.script": READ, "a.posts": OTHER, "jobs/b.script": READ, "jobs/b.posts": POSTS, "c.script": READ}
    with folder_of(files) as folder:
        for _ in range(2):
            ran = setup.run("test", "--junit", "report.xml", ".", cwd=folder)
            require((ran.status, ran.err) == (1, ""), "another outcome", ran)
        top = ElementTree.parse(f"{folder}/report.xml").getroot()
    element_by_element(top)
    counts = {"name": "excp test", "tests": "3", "failures": "1", "errors": "0"}
    for element, extra in (top, {}), (top[0], {"skipped": "1"}):
        got = {name: text for name, text in element.items() if name not in ("time", "timestamp")}
        require(got == counts | extra, f"other counts: {got}")
    names = [(it.get("classname"), it.get("name"), [child.tag for child in it]) for it in top[0]]
    due = [(".", "a.script", ["failure"]), (".", "c.script", ["skipped"]), ("jobs", "b.script", [])]
    require(names == due, f"other tests: {names}")
    require(all(re.fullmatch(r"\d+\.\d{3}", it.get("time")) for it in top.iter("testcase")), "a test without its time")
    require(re.fullmatch(r"\d{4}-\d\d-\d\dT\d\d:\d\d:\d\d", top[0].get("timestamp")), "no time of the begin")
    said = top[0][0][0]
    require(said.get("message") == "other posts than expected", "another message")
    lines = [it.removeprefix("  ") for it in DIFF.splitlines()[1:]]
    expect_text("another diff", None, "\n".join(lines), said.text)
    require(top[0][1][0].get("message") == "there is no c.posts", "another reason")


def writes_legal_xml(setup):
    """A report is XML whatever names and expectations hold."""
    generator = random.Random(5)
    for _ in range(20):
        text = generator.randbytes(400)
        files = {"a&<b>\"'\x01\x7f\u00e9\ufffe.script": READ, "a&<b>\"'\x01\x7f\u00e9\ufffe.posts": text}
        with folder_of(files) as folder:
            os.rename(f"{folder}/{next(iter(files))}", os.fsencode(folder) + b"/\xff.script")
            os.rename(f"{folder}/{list(files)[1]}", os.fsencode(folder) + b"/\xff.posts")
            with open(f"{folder}/]]>.script", "w", encoding="ascii") as file:
                file.write("nothing ]]> \x02\n")
            with open(f"{folder}/]]>.posts", "w", encoding="ascii") as file:
                file.write("")
            ran = setup.run("test", "--junit", "x", ".", cwd=folder)
            require(ran.status == 1 and ran.out.endswith(SUM(0, 2, "")) and not ran.err, "another outcome", ran)
            top = ElementTree.parse(f"{folder}/x").getroot()
        require("\\xff.script" in [it.get("name") for it in top[0]], "another name of bytes that are no character")
        element_by_element(top)
        require(len(top[0]) == 2, "other tests")


def writes_no_junit(setup):
    """A report that cannot be written, or that would replace something else, is an error before a test runs."""
    other = '<?xml version="1.0"?><testsuites><testsuite name="pytest"/></testsuites>'
    files = {"a.script": READ, "a.posts": POSTS, "text": "text\n", "other.xml": other}
    for name, words, text in (
        ("text", [], "it holds text, which a JUnit report replaces only with --force"),
        ("other.xml", [], "it holds text, which a JUnit report replaces only with --force"),
        ("a.script", ["--force"], "this command reads or saves it: name another file"),
        ("a.posts", ["--force"], "this command reads or saves it: name another file"),
        ("none/x.xml", [], "there is no such directory"),
        (".", [], "it is a directory"),
    ):
        with folder_of(files) as folder:
            ran = setup.run("test", "--junit", name, *words, "a.script", cwd=folder)
            expect(ran, (1, "", f"excp: {name}: {text}\n"))
            require(sorted(os.listdir(folder)) == sorted(files), "other files", ran)
    with folder_of(files) as folder:
        expect(setup.run("test", "--junit", "text", "--force", "a.script", cwd=folder), (0, f"ok a.script\n{SUM(1, 0, '')}"))
        require(ElementTree.parse(f"{folder}/text").getroot().get("tests") == "1", "no report")


def without_files(setup):
    """A file that is no job fails with a sentence, and nothing ends in a traceback."""
    image = b"\4\0\0\0\xa0\0data\0\0\4\0\x40\0"
    files = {"image.script": image, "image.posts": POSTS, "long.script": "#" * 1_048_577, "long.posts": POSTS, "empty.script": "",
             "empty.posts": ""}
    with folder_of(files) as folder:
        for name in "gone.script", "gone.posts", "z.posts":
            os.symlink("nothing", f"{folder}/{name}")
        shutil.copy(f"{SAMPLES}/read.script", f"{folder}/z.script")
        ran = setup.run("test", ".", cwd=folder)
    begins = {
        "empty": "empty.script: Order: no line declares the tasks",
        "gone": "gone.script: there is no such file",
        "image": "image.script: this is an image of a tape, not a script",
        "long": "long.script: the script has more than 1,048,576 bytes",
        "z": "z.posts: there is no such file",
    }
    parts = ran.out.split("FAILED ")
    require(ran.status == 1 and not ran.err and len(parts) == len(begins) + 1, "another outcome", ran)
    for part, (name, text) in zip(parts[1:], begins.items()):
        require(part.startswith(f"{name}.script\n  {text}"), f"no such text: {text}", ran)


def without_reader(setup):
    """A reader that is gone changes no status, and the report is written."""
    files = {f"{name}.{end}": text for name in "abc"
             for end, text in (("script", READ), ("posts", OTHER if name == "c" else POSTS))}
    for words, status in (["."], 1), (["a.script", "b.script"], 0):
        with folder_of(files) as folder:
            reader, writer = os.pipe()
            os.close(reader)
            ran = setup.run("test", "--junit", "x.xml", *words, cwd=folder, stdout=writer)
            os.close(writer)
            expect(ran, (status, ""))
            require(len(ElementTree.parse(f"{folder}/x.xml").getroot()[0]) == (3 if status else 2), "a report without tests")
    with open("/dev/full", "wb") as full:
        ran = tried(setup, files, ".", stdout=full.fileno())
        expect(ran, (1, "", "excp: output not written\n"))


def fails_with_programs(setup):
    """A program that cannot run, or ends otherwise, fails the tests of jobs. A scenario needs none."""
    if not setup.tools.startswith("/"):
        raise Skipped("no absolute path")
    with folder_of({"a.script": READ, "a.posts": POSTS, "b.scenario": HALT,
                    "bin/excp_tools": "#!/bin/sh\necho no memory >&2\nexit 3\n"}) as folder:
        os.chmod(f"{folder}/bin/excp_tools", 0o755)
        shutil.copy(f"{folder}/bin/excp_tools", f"{folder}/bin/excp_job")
        words = [f"{TOP}/tests/package.py", f"{folder}/bin/excp_tools", "test", "."]
        ran = subprocess.run(["python3", *words], cwd=folder, capture_output=True, text=True, check=False)
        due = f"FAILED a.script\n  no memory\nok b.scenario\n{SUM(1, 1, '')}"
        require((ran.returncode, ran.stdout, ran.stderr) == (1, due, ""), f"another outcome: {ran}")
        os.remove(f"{folder}/bin/excp_job")
        os.mkdir(f"{folder}/bin/excp_job")
        ran = subprocess.run(["python3", *words], cwd=folder, capture_output=True, text=True, check=False)
        require(ran.returncode == 1 and ran.stdout.startswith("FAILED a.script\n  excp_job cannot be run: "),
                f"another outcome: {ran}")


def of_many_lines(setup):
    """A diff of many lines is cut, and takes no long."""
    head = "tasks 1\nprinter 0 0 100 5\nopen 0 out\n"
    area = next(line for line in read(f"{SAMPLES}/print-pages.script").splitlines() if line.startswith("area 0 "))
    issues = "".join(f"excp 0 0 1 {area.split()[2]} 0 {area.split()[2]} 0\n" for _ in range(20_000))
    with folder_of({"a.script": f"{head}{area}\n{issues}"}) as folder:
        ran = setup.run("test", "--accept", ".", cwd=folder)
        expect(ran, (0, f"wrote a.posts\n{SUM(0, 0, ', 1 written')}"))
        posts = read(f"{folder}/a.posts").splitlines(True)
        require(len(posts) == 20_001, f"{len(posts)} posts", ran)
        with open(f"{folder}/a.posts", "w", encoding="ascii") as file:
            file.writelines(it.replace("post 0", "post 1") if at > 10_000 else it for at, it in enumerate(posts))
        ran = setup.run("test", ".", cwd=folder)
    lines = ran.out.splitlines()
    require(ran.status == 1 and len(lines) == 103 and lines[1] == "  --- expected a.posts, from line 10000", "another diff", ran)
    require(lines[-2] == "  (no more lines are compared)", "it does not say that it was cut", ran)


def samples_pass(setup):
    """All samples pass, but for those that say nothing of their posts."""
    ran = setup.run("test", "samples", cwd=TOP)
    found = re.fullmatch(r"((?:ok .*\n)|(?:skipped .*\n))*(\d+) passed, 0 failed, 4 without an expectation\n", ran.out)
    require((ran.status, ran.err) == (0, "") and found and int(found[2]) > 30, "not all samples pass", ran)


JUDGES = {
    "tests that pass": all_pass,
    "a diff": shows_a_diff,
    "each change of posts": each_change_fails,
    "two results, and line ends": takes_two_results,
    "no expectation": lacks_expectations,
    "faults": has_faults,
    "scenarios": runs_scenarios,
    "files of folders": finds_files,
    "paths and options that are wrong": misses_paths,
    "selection by name": selects,
    "--accept": accepts,
    "--accept of a race": notes_races,
    "--accept of a file that stays": accepts_no_others,
    "--junit": writes_junit,
    "--junit of any bytes": writes_legal_xml,
    "--junit that is not written": writes_no_junit,
    "files that are no jobs": without_files,
    "a reader that is gone": without_reader,
    "programs that fail": fails_with_programs,
    "a diff of many lines": of_many_lines,
    "all samples": samples_pass,
}


def cases(setup):
    for name, judge in JUDGES.items():
        yield Case(name, lambda it=judge: it(setup), ORIGIN)
