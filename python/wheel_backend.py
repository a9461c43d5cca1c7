"""Builds the wheel and the source archive with the standard library alone, so that pip needs no network (PEP 517 and PEP 660).

The wheel has the command `excp`, whose pages of help and whose viewer are files of the package, and libexcp.so: the one that
EXCP_LIBRARY names, the one beside the package, or that of out/library of the repository. Without one the build ends, and says how
to make it. An editable install finds the library when it runs, and a source archive has none.
"""

import ast
import base64
import hashlib
import io
import os
import re
import sys
import sysconfig
import tarfile
import zipfile
from typing import Any, Dict, List, Optional

HERE = os.path.dirname(os.path.realpath(__file__))
PACKAGE = "excp"
LIBRARY = "libexcp.so"

# The groups of entry points, and their tables of pyproject.toml.
ENTRY_POINTS = {"console_scripts": "project.scripts", "pytest11": "project.entry-points.pytest11"}

# The files of the package: its modules, its pages of help, and the viewer of pages.
KINDS = ".py", ".typed", ".txt", ".css", ".html", ".js"

# What a source archive has beside the package.
SOURCES = "pyproject.toml", "README.md", "wheel_backend.py"

NO_LIBRARY = """there is no {}, so the wheel would lack the library. Build it in the repository, and install again:

    tools/library.py --unproved    in minutes, with nothing proved
    tools/library.py               with proved exports

Or let EXCP_LIBRARY name a library that is built."""


def project(table: str = "project") -> Dict[str, str]:
    """The words of a table of pyproject.toml. Each is one string on one line."""
    words = text_of("pyproject.toml").partition(f"[{table}]\n")[2].partition("\n[")[0]
    return dict(re.findall(r'^([a-z-]+) = "(.*)"$', words, re.M))


def classifiers() -> List[str]:
    """The classifiers of pyproject.toml, which are one list on one line."""
    found = re.search(r"^classifiers = (\[.*\])$", text_of("pyproject.toml"), re.M)
    return list(ast.literal_eval(found[1])) if found else []


def text_of(name: str) -> str:
    with open(f"{HERE}/{name}", encoding="utf-8") as it:
        return it.read()


def places() -> List[str]:
    """Where the library may be."""
    given = os.environ.get("EXCP_LIBRARY")
    return [given] if given else [f"{HERE}/{PACKAGE}/{LIBRARY}", f"{os.path.dirname(HERE)}/out/library/{LIBRARY}"]


def built_library() -> Optional[str]:
    """The library, if it was built."""
    return next((it for it in places() if os.path.isfile(it)), None)


def needs_library() -> None:
    """Ends the build if there is no library."""
    if not built_library():
        sys.exit(f"excp: {NO_LIBRARY.format(' and no '.join(places()))}")


def tag() -> str:
    """A wheel with a library is for this platform alone."""
    platform = re.sub(r"[-.]", "_", sysconfig.get_platform()) if built_library() else "any"
    return f"py3-none-{platform}"


def full_name() -> str:
    return f"{PACKAGE}-{project()['version']}"


def dist_info() -> str:
    return f"{full_name()}.dist-info"


def description() -> str:
    """The metadata of the package, with its page as their body."""
    its = project()
    lines = ["Metadata-Version: 2.1", f"Name: {its['name']}", f"Version: {its['version']}", f"Summary: {its['description']}"]
    lines += [f"Requires-Python: {its['requires-python']}", *(f"Classifier: {it}" for it in classifiers())]
    lines += ["Description-Content-Type: text/markdown", "", text_of(its["readme"])]
    return "\n".join(lines)


def entry_points() -> str:
    tables = {group: project(table).items() for group, table in ENTRY_POINTS.items()}
    return "".join(f"[{group}]\n" + "".join(f"{name} = {call}\n" for name, call in table) for group, table in tables.items())


def metadata() -> Dict[str, bytes]:
    """The files of the metadata, by name."""
    purelib = "false" if built_library() else "true"
    wheel = f"Wheel-Version: 1.0\nGenerator: wheel_backend\nRoot-Is-Purelib: {purelib}\nTag: {tag()}\n"
    files = {"METADATA": description(), "WHEEL": wheel, "entry_points.txt": entry_points()}
    return {f"{dist_info()}/{name}": its.encode() for name, its in files.items()}


def read(file: str) -> bytes:
    with open(file, "rb") as it:
        return it.read()


def package() -> Dict[str, bytes]:
    """The files of the package, by name, without the library."""
    files = {}
    for place, folders, names in os.walk(f"{HERE}/{PACKAGE}"):
        folders.sort()
        for it in sorted(names):
            if it.endswith(KINDS):
                files[os.path.relpath(f"{place}/{it}", HERE)] = read(f"{place}/{it}")
    return files


def written(directory: str, files: Dict[str, bytes]) -> str:
    """Writes a wheel with these files, and returns its name."""
    name = f"{full_name()}-{tag()}.whl"
    files = {**files, **metadata()}
    hashes = {it: base64.urlsafe_b64encode(hashlib.sha256(files[it]).digest()).rstrip(b"=").decode() for it in files}
    record = [f"{it},sha256={hashes[it]},{len(files[it])}\n" for it in files] + [f"{dist_info()}/RECORD,,\n"]
    files[f"{dist_info()}/RECORD"] = "".join(record).encode()
    with zipfile.ZipFile(f"{directory}/{name}", "w", zipfile.ZIP_DEFLATED) as wheel:
        for it, content in files.items():
            info = zipfile.ZipInfo(it)
            info.external_attr, info.compress_type = 0o644 << 16, zipfile.ZIP_DEFLATED
            wheel.writestr(info, content)
    return name


def build_wheel(directory: str, config_settings: Any = None, metadata_directory: Any = None) -> str:
    needs_library()
    return written(directory, {**package(), f"{PACKAGE}/{LIBRARY}": read(str(built_library()))})


def build_editable(directory: str, config_settings: Any = None, metadata_directory: Any = None) -> str:
    return written(directory, {f"{PACKAGE}.pth": f"{HERE}\n".encode()})


def build_sdist(directory: str, config_settings: Any = None) -> str:
    """Writes an archive with the sources of the package, and returns its name."""
    name = f"{full_name()}.tar.gz"
    files = {**{it: read(f"{HERE}/{it}") for it in SOURCES}, **package(), "PKG-INFO": description().encode()}
    with tarfile.open(f"{directory}/{name}", "w:gz", format=tarfile.PAX_FORMAT) as archive:
        for it, content in files.items():
            info = tarfile.TarInfo(f"{full_name()}/{it}")
            info.size = len(content)
            archive.addfile(info, io.BytesIO(content))
    return name


def prepare_metadata_for_build_editable(directory: str, config_settings: Any = None) -> str:
    os.makedirs(f"{directory}/{dist_info()}", exist_ok=True)
    for name, content in metadata().items():
        with open(f"{directory}/{name}", "wb") as it:
            it.write(content)
    return dist_info()


def prepare_metadata_for_build_wheel(directory: str, config_settings: Any = None) -> str:
    needs_library()
    return prepare_metadata_for_build_editable(directory)


def get_requires_for_build_wheel(config_settings: Any = None) -> List[str]:
    return []


get_requires_for_build_editable = get_requires_for_build_sdist = get_requires_for_build_wheel
