"""The library for C: c/excp.h, c/excp.c and crates/excp_c say the same, and programs of C that use what tools/library.py builds.

The functions, structs and statuses of the header are compared with the exports, their structs and their statuses, by name and
type: both compilers lay a struct out by the order and the types of its fields. tests/c_blocks.py judges c/excp_blocks.h.
tests/cases/c/*.c are linked with each library and run; a program that finds a fault prints it and ends with status 1. layout.c
has the library fill each struct.
"""

import glob
import importlib
import os
import re
import shutil
import sys
import tempfile

import c_blocks
from harness import CASES, TOP, Case, Failed, Skipped, expect_text, read, require, run

HEADER = f"{TOP}/c/excp.h"
SOURCE = f"{TOP}/c/excp.c"
CRATE = f"{TOP}/crates/excp_c"
LIBRARY = f"{TOP}/out/library"

# The most seconds that the library may take to be built: a call on a proved one takes a second.
BUILD = 7200

# The types of the header, and those of the exports.
TYPES = {
    "uint8_t": "u8",
    "uint16_t": "u16",
    "uint32_t": "u32",
    "uint64_t": "u64",
    "size_t": "usize",
}

FUNCTION = re.compile(r"^excp_status (excp_\w+)\(([^)]*)\);", re.M)
PROTOTYPE = re.compile(r"^uint32_t excp_call_(\w+)\(([^;]*)\);", re.M)
EXPORT = re.compile(r'#\[unsafe\(no_mangle\)\]\s*pub extern "C" fn excp_call_(\w+)\(([^)]*)\) -> u32\b')
C_STRUCT = re.compile(r"^typedef struct excp_(\w+) \{\n(.*?)^\} excp_\1;", re.M | re.S)
C_FIELD = re.compile(r"^    (\w+) (\w+);", re.M)
STRUCT = re.compile(r"#\[repr\(C\)\]\s*(?:#\[derive\([^)]*\)\]\s*)?pub struct (\w+) \{\n(.*?)^\}", re.M | re.S)
FIELD = re.compile(r"^    pub (\w+): (\w+),", re.M)
STATUS = re.compile(r"^    EXCP_(\w+) = (\d+)", re.M)
REFUSAL = re.compile(r"^status_in_c refusals\.(\w+) = (\d+)$", re.M)

STEP_CALL = re.compile(r"^STEP\((\w+), \(([^)]*)\), (\w+), (\w+), (\w+)\)$", re.M)
STEP_RESET = re.compile(r"excp_call_step\(site, unit, (\w+), (\w+), (\w+), &none\)")
STEP_FORM = re.compile(r"(\d) => Some\((?:UnitStep|Control)::(\w+(?:\(Scope::\w+)?)")

# The functions that make a step of a unit: the form of the step, its number and its mode.
STEPS = {
    "start": ("Start", "0", "0"),
    "run": ("Run", "max_commands", "0"),
    "interrupt": ("Interrupt", "0", "0"),
    "purge": ("Purge(Scope::Dcb", "dcb", "mode"),
    "purge_task": ("Purge(Scope::Task", "task", "mode"),
    "close": ("Close", "dcb", "0"),
    "reset": ("Reset", "dcb", "0"),
}

# The statuses of the exports that no refusal of a site has.
OWN_STATUSES = {"OK": 0, "NULL_POINTER": 2, "NO_SITE": 3, "SITE_IN_USE": 4}


def sources(crate=CRATE):
    """The Rattle files of the exports, or of another crate, one after the other."""
    return "\n".join(read(name) for name in sorted(glob.glob(f"{crate}/src/**/*.rt", recursive=True)))


def snake(name):
    """BadNumber as BAD_NUMBER, UnitState as UNIT_STATE."""
    return re.sub(r"(?<=[a-z])(?=[A-Z])", "_", name).upper()


def of_c(parameters):
    """The types of a C parameter list, as an export has them: a pointer to bytes and its length are a slice."""
    parameters = parameters.replace("SITE", "excp_site *site")
    parameters = re.sub(r"SLICE\((\w+)\)", r"const uint8_t *\1, size_t length", parameters)
    parameters = re.sub(r"ROOM\((\w+)\)", r"uint8_t *\1, size_t room", parameters)
    types = []
    for parameter in re.split(r",\s*", parameters.strip()):
        kind, name = re.fullmatch(r"(?:const )?(\w+) (\*?\w+)", parameter).groups()
        is_constant = parameter.startswith("const ")
        if types and types[-1] in ("bytes", "buffer") and kind == "size_t":
            types[-1] = "&[u8]" if types[-1] == "bytes" else "&mut [u8]"
        elif name.startswith("*") and kind == "uint8_t":
            types.append("bytes" if is_constant else "buffer")
        elif name.startswith("*"):
            pointee = TYPES.get(kind) or kind.removeprefix("excp_").title().replace("_", "")
            types.append(f"&{'' if is_constant else 'mut '}{'Handle' if pointee == 'Site' else pointee}")
        else:
            types.append(TYPES[kind])
    return types


def of_export(parameters):
    """The types of the parameters of an export. An allocator takes no bytes, so C passes none."""
    types = [it.partition(":")[2].strip() for it in re.split(r",\s*", parameters.strip().rstrip(","))]
    return [it for it in types if it != "Global"]


def differing(one, other):
    """What two tables say of the names of which they do not say the same."""
    return {name: (one.get(name), other.get(name)) for name in sorted({*one, *other}) if one.get(name) != other.get(name)}


def functions_agree():
    """Each function of the header has a prototype in excp.c and an export with the same types, but for those that make a step of a
    unit: all of these call one export. There is no other."""
    header = {name.removeprefix("excp_"): of_c(parameters) for name, parameters in FUNCTION.findall(read(HEADER))}
    prototypes = {name: of_c(parameters) for name, parameters in PROTOTYPE.findall(read(SOURCE))}
    exports = {name: of_export(parameters) for name, parameters in EXPORT.findall(sources())}
    require(len(header) > 30, f"excp.h: {len(header)} functions")
    require(prototypes == exports, f"excp.c and crates/excp_c have other exports: {differing(prototypes, exports)}")
    own = {name: types for name, types in header.items() if name not in STEPS}
    exports.pop("step")
    require(own == exports, f"excp.h has other functions than there are exports: {differing(own, exports)}")


def steps_agree():
    """Each function of the header that makes a step of a unit passes its own parameters and the number of its kind, as the exports
    have it."""
    header, source, exports = dict(FUNCTION.findall(read(HEADER))), read(SOURCE), sources()
    kinds = {name: number for number, name in enumerate(re.search(r"^enum \{ ([A-Z_, ]+) \};", source, re.M)[1].split(", "))}
    numbers = {form: int(number) for number, form in STEP_FORM.findall(exports)}
    require(len(numbers) == len(STEPS), f"the exports have the steps {numbers}")
    calls = {name: (parameters, kind, number, mode) for name, parameters, kind, number, mode in STEP_CALL.findall(source)}
    calls["reset"] = ("SITE, uint16_t unit, uint16_t dcb", *STEP_RESET.search(source).groups())
    for name, (form, number, mode) in STEPS.items():
        parameters = header[f"excp_{name}"].replace("excp_site *site", "SITE")
        kind = next(it for it, at in kinds.items() if at == numbers[form])
        require(calls.get(name) == (parameters, kind, number, mode), f"excp_{name}: {calls.get(name)}, not {kind}, {number}, {mode}")


def structs_agree():
    """Each struct of the header has the fields of the struct with its name in the exports or the site, in one order and with the same
    types."""
    c_structs = {name: C_FIELD.findall(body) for name, body in C_STRUCT.findall(read(HEADER))}
    structs = {snake(name).lower(): FIELD.findall(body) for name, body in STRUCT.findall(sources() + sources(f"{TOP}/crates/excp_site"))}
    c_structs = {name: [(field, TYPES.get(kind, kind)) for kind, field in fields] for name, fields in c_structs.items()}
    require(len(c_structs) > 8, f"{len(c_structs)} structs")
    for name, fields in c_structs.items():
        if name != "site":
            require(structs.get(name) == fields, f"excp_{name}: {fields} in excp.h, {structs.get(name)} in the exports")


def statuses_agree():
    """The statuses of the header have the numbers that the exports give, and there is no other."""
    header = {name: int(number) for name, number in STATUS.findall(read(HEADER).partition("} excp_status;")[0])}
    exports = {snake(name): int(number) for name, number in REFUSAL.findall(read(f"{CRATE}/specs/Statuses.antt"))}
    require(header == {**exports, **OWN_STATUSES}, f"{header} in excp.h, {exports} and {OWN_STATUSES} in the exports")


def constants_agree():
    """The constants of excp_blocks.h are those of the package and of the crates, and there is no other."""
    header, package, crates = c_blocks.constants(), c_blocks.of_package(), c_blocks.of_crates()
    require(len(crates) > 10, f"{len(crates)} constants of the crates")
    shared = {key: crates[key] for key in crates if key in package}
    require(len(shared) > 8 and package == {**package, **shared}, f"the package and the crates differ: {differing(package, crates)}")
    require(header == {**package, **crates}, f"excp_blocks.h has others: {differing(header, {**package, **crates})}")


def blocks_agree(language, *words):
    """The functions of excp_blocks.h store the bytes that the package makes, in C and in C++."""
    found = compiler() if language == "c" else shutil.which("g++") or shutil.which("clang++")
    if not found:
        raise Skipped("no C++ compiler (g++ or clang++)")
    with tempfile.TemporaryDirectory() as folder:
        with open(f"{folder}/blocks.{language}", "w", encoding="ascii") as file:
            file.write(c_blocks.program())
        strict = [*words, "-Wall", "-Wextra", "-Werror", "-pedantic", f"-I{TOP}/c"]
        ran = run([found, *strict, f"{folder}/blocks.{language}", "-o", f"{folder}/blocks"])
        require(ran.status == 0, "it does not compile without a warning", ran)
        ran = run([f"{folder}/blocks"])
        expect_text("other bytes", ran, c_blocks.printed(), ran.out)


def compiler():
    """The C compiler; without one no case can be judged that needs it."""
    found = os.environ.get("CC") or shutil.which("cc") or shutil.which("gcc")
    if not found:
        raise Skipped("no C compiler (cc or gcc)")
    return found


def built():
    """Builds the library, or finds it built. Takes one that `tools/library.py --unproved` built if the exports are not proved."""
    compiler()
    if os.path.exists(f"{LIBRARY}/libexcp.so") and not os.path.exists(f"{CRATE}/out/libexcp_c.proof"):
        return
    ran = run([f"{TOP}/tools/library.py"], cwd=TOP, timeout=BUILD)
    require(ran.status == 0, "tools/library.py fails", ran)


def exports_alone():
    """The shared library exports the functions of the header, and nothing else."""
    built()
    tool = shutil.which("nm")
    if not tool:
        raise Skipped("no nm, so the names that libexcp.so exports are not read")
    ran = run([tool, "-D", "--defined-only", f"{LIBRARY}/libexcp.so"])
    names = {line.split()[-1] for line in ran.out.splitlines()}
    header = {name for name, _ in FUNCTION.findall(read(HEADER))} | {"excp_message", "excp_version", "excp_is_proved"}
    require(names == header, f"libexcp.so exports {sorted(names ^ header)} otherwise than excp.h", ran)


def runs(name, linked):
    """A program of tests/cases/c finds no fault, linked with one of the libraries."""
    built()
    version = re.search(r'^pub const VERSION: &str = "(.*)";$', read(f"{TOP}/crates/run_options/src/lib.rt"), re.M)[1]
    with tempfile.TemporaryDirectory() as folder:
        words = [compiler(), "-std=c11", "-Wall", "-Wextra", "-Werror", f'-DVERSION="{version}"', f"-I{LIBRARY}",
                 f"{CASES}/c/{name}.c"]
        words += ["-o", f"{folder}/{name}"]
        words += [f"{LIBRARY}/libexcp.a"] if linked == "static" else [f"-L{LIBRARY}", "-lexcp", f"-Wl,-rpath,{LIBRARY}"]
        ran = run(words)
        require(ran.status == 0, f"tests/cases/c/{name}.c cannot be compiled", ran)
        ran = run([f"{folder}/{name}"])
        if ran.status != 0 or ran.out or ran.err:
            raise Failed(f"tests/cases/c/{name}.c finds faults", ran, None, ran.text())


# What tools/library.py says of a C compiler that it cannot use, before it calls `rt`.
NO_COMPILERS = {
    "no-such-cc -m64": "there is no C compiler 'no-such-cc', which CC names",
    "false": "the C compiler 'false' compiles nothing:\n",
    "cc --no-such-option": "the C compiler 'cc --no-such-option' compiles nothing:\n",
}


def needs_a_compiler():
    """A C compiler that is missing or fails is noticed before anything is built."""
    compiler()
    with tempfile.TemporaryDirectory() as folder:
        with open(f"{folder}/rt", "w", encoding="ascii") as file:
            file.write(f"#!/bin/sh\ntouch {folder}/called\nexit 1\n")
        os.chmod(f"{folder}/rt", 0o755)
        for words in [], ["--unproved"]:
            for given, text in NO_COMPILERS.items():
                path = f"{folder}:{os.environ['PATH']}"
                ran = run(["env", f"CC={given}", f"PATH={path}", f"{TOP}/tools/library.py", *words])
                require(ran.status == 3 and ran.err.startswith(f"excp: {text}") and not ran.out, f"another text for CC={given}",
                        ran)
        require(not os.path.exists(f"{folder}/called"), "it called rt")
    ran = run([f"{TOP}/tools/library.py", "--unprooved"])
    require(ran.status == 2 and "tools/library.py --unproved" in ran.err, "no usage", ran)


def unproved_exports():
    """The module of tools/ that builds the exports with nothing proved."""
    if f"{TOP}/tools" not in sys.path:
        sys.path.append(f"{TOP}/tools")
    return importlib.import_module("unproved_exports")


# A module in text, as the kit's compiler is given it, and what is compiled for a library.
MODULE = """define i32 @main() #0 {
  %1 = call i32 @"excp_c::sites::excp_call_site_new"(ptr %0, i16 0, i32 0)
define internal noundef i32 @"excp_c::sites::excp_call_site_new"(ptr noundef %a0) #0 {
define internal void @"excp_c::sites::other"() #0 {
"""
EXPORTED = """define internal i32 @unproved_main() #0 {
  %1 = call i32 @excp_call_site_new(ptr %0, i16 0, i32 0)
define noundef i32 @excp_call_site_new(ptr noundef %a0) #0 {
define internal void @"excp_c::sites::other"() #0 {
"""


def unproved_call_each():
    """The program that the exports are compiled with calls each of them once, with as many values as it has parameters."""
    text = unproved_exports().main_of()
    calls = {name: values for name, values in re.findall(r"::excp_call_(\w+)\((.*)\);", text)}
    exports = {name: parameters for name, parameters in EXPORT.findall(sources())}
    require(calls.keys() == exports.keys() and text.count("::excp_call_") == len(exports),
            f"it calls others: {differing(calls, exports)}")
    count = lambda words: len([it for it in words.split(",") if it.strip()])
    wrong = [name for name in calls if count(calls[name]) != count(exports[name])]
    require(not wrong, f"another number of values for {wrong}")
    expect_text("another module", None, EXPORTED, unproved_exports().with_exports(MODULE))


def unproved_works():
    """A library with nothing proved says so, and a program of C finds no fault in it. The build takes minutes."""
    words, module = [compiler()], unproved_exports()
    require(module.build() == 0, "the exports are not built")
    library = importlib.import_module("library")
    with tempfile.TemporaryDirectory() as folder:
        require(library.link(words, folder, module.OBJECT, False), "they are not linked")
        flags = [f"-I{TOP}/c", f"{CASES}/c/layout.c", f"{folder}/libexcp.a", "-o", f"{folder}/layout"]
        require(run([*words, *flags]).status == 0, "layout.c is not compiled")
        ran = run([f"{folder}/layout"])
        require((ran.status, ran.out, ran.err) == (0, "", ""), "layout.c finds faults", ran)


def has_a_library():
    """Skips a case if out/library has no library, proved or not."""
    if not os.path.exists(f"{LIBRARY}/libexcp.so"):
        raise Skipped("no library in out/library: tools/library.py builds one")


def installs():
    """`make -C c install` installs the library, with which pkg-config and CMake build the example. A program finds it by its
    number."""
    compiler()
    has_a_library()
    with tempfile.TemporaryDirectory() as folder:
        for words in (["PREFIX=/opt/excp", f"DESTDIR={folder}/image"], [f"PREFIX={folder}/own"]):
            ran = run(["make", "-C", f"{TOP}/c", "install", *words])
            require(ran.status == 0, "it does not install", ran)
        names = [os.path.relpath(f"{at}/{it}", f"{folder}/image/opt/excp") for at, _, files in os.walk(f"{folder}/image")
                 for it in files]
        shared = next((it for it in names if re.fullmatch(r"lib/libexcp\.so\.\d+\.\d+", it)), "")
        number = shared.rpartition(".")[0]
        due = ["include/excp.h", "include/excp_blocks.h", "lib/libexcp.a", "lib/libexcp.so", number, shared, "lib/pkgconfig/excp.pc"]
        require(sorted(names) == sorted(due), f"it installs {sorted(names)}")
        require("prefix=/opt/excp\n" in read(f"{folder}/image/opt/excp/lib/pkgconfig/excp.pc"), "another prefix in excp.pc")
        builds_by(folder, number)


def builds_by(folder, number):
    """pkg-config and CMake build copy_tape with the library in own/ of a folder."""
    due, own = read(f"{TOP}/crates/example_print_tape/stdout"), {**os.environ, "PKG_CONFIG_PATH": f"{folder}/own/lib/pkgconfig"}
    lacks = [it for it in ("pkg-config", "cmake") if not shutil.which(it)]
    if lacks:
        raise Skipped(f"{' and '.join(lacks)} is not installed, so no program is built with the installed library")
    example = f"{TOP}/examples/c/copy_tape.c"
    ran = run(["sh", "-c", f"{compiler()} {example} -o {folder}/copy_tape $(pkg-config --cflags --libs excp)"], env=own)
    require(ran.status == 0, "pkg-config does not build it", ran)
    make = f"cmake -S {TOP}/examples/cmake -B {folder}/cmake && cmake --build {folder}/cmake"
    ran = run(["sh", "-c", make], env=own, timeout=300)
    require(ran.status == 0, "CMake does not build it", ran)
    for program in f"{folder}/copy_tape", f"{folder}/cmake/copy_tape":
        ran = run([program], env={**own, "LD_LIBRARY_PATH": f"{folder}/own/lib"})
        require((ran.status, ran.out, ran.err) == (0, due, ""), "another output", ran)
    ran = run([f"{folder}/copy_tape"], env={**own, "LD_LIBRARY_PATH": ""})
    require(os.path.basename(number) in ran.err, "it does not look for the library by its number", ran)


def says_what_it_is():
    """The library that is built says whether it is proved, in C and in Python, as tools/library.py said."""
    has_a_library()
    text = "import excp; print(excp.is_proved(), excp.version() == excp.__version__)"
    ran = run([sys.executable, "-B", "-c", text],
              env={**os.environ, "PYTHONPATH": f"{TOP}/python", "EXCP_LIBRARY": f"{LIBRARY}/libexcp.so"})
    require((ran.status, ran.err) == (0, "") and ran.out in ("True True\n", "False True\n"), "another text", ran)
    return f"the library in out/library is {'proved' if ran.out.startswith('True') else 'not proved'}"


def cases(setup):
    yield Case("the C compiler", needs_a_compiler, "tools/library.py")
    yield Case("exports with nothing proved", unproved_call_each, "tools/unproved_exports.py")
    yield Case("functions", functions_agree, "c/excp.h")
    yield Case("steps", steps_agree, "c/excp.h")
    yield Case("structs", structs_agree, "c/excp.h")
    yield Case("statuses", statuses_agree, "c/excp.h")
    yield Case("constants of blocks", constants_agree, "c/excp_blocks.h, by docs/SPECIFICATION.md")
    for language, words in ("c", ["-std=c99"]), ("cpp", ["-std=c++11"]):
        judge = lambda l=language, w=words: blocks_agree(l, *w)
        yield Case(f"bytes of blocks in {language}", judge, "c/excp_blocks.h, by docs/SPECIFICATION.md")
    yield Case("names of the shared library", exports_alone, "c/excp.h", "library")
    for name in sorted(it.removesuffix(".c") for it in os.listdir(f"{CASES}/c") if it.endswith(".c")):
        for linked in "static", "shared":
            judge = lambda n=name, how=linked: runs(n, how)
            yield Case(f"{name}, {linked}", judge, f"tests/cases/c/{name}.c, by c/excp.h and docs/SPECIFICATION.md", "library")
    yield Case("make install", installs, "docs/CLIENT.md", "library")
    yield Case("whether it is proved", says_what_it_is, "c/excp.h", "library")
    if setup.is_long:
        yield Case("a library with nothing proved", unproved_works, "tools/library.py --unproved")
