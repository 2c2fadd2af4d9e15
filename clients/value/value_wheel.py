"""Makes the sdist and the wheels of ee_value, for pip and other front ends (PEP 517): the module, and the shared object that the script `build` made. It needs
Python alone, and no network.

A wheel is for x86-64, or for another processor that the setting `processor` names: --config-settings processor=aarch64. The same files give the same bytes; their time is
SOURCE_DATE_EPOCH, or 1980.
"""

from __future__ import annotations

import base64
import gzip
import hashlib
import io
import os
import pathlib
import re
import tarfile
import time
import typing
import zipfile

HERE = pathlib.Path(__file__).resolve().parent
MODULE = (
    "ee_value/__init__.py",
    "ee_value/__main__.py",
    "ee_value/command.py",
    "ee_value/py.typed",
)
SOURCES = (*MODULE, "examples/inventory.py", "pyproject.toml", "value_wheel.py", "README-python.md")
COMMANDS = "[console_scripts]\nee-value = ee_value.command:main\n"
#: Where `build` puts the library of a processor, and the number of that processor in an ELF file.
LIBRARIES = {"x86_64": ("out", 62), "aarch64": ("out/aarch64", 183)}
#: The least version of the C library of which an index knows a tag, by processor.
LEAST = {"x86_64": 5, "aarch64": 17}
#: The first moment that a zip file can name: 1980-01-01.
FIRST = 315532800

METADATA = """Metadata-Version: 2.1
Name: ee-value
Version: {version}
Summary: What paper Series EE savings bonds pay, to the cent
Keywords: savings bonds,Series EE,value
Classifier: Development Status :: 5 - Production/Stable
Classifier: Intended Audience :: Financial and Insurance Industry
Classifier: Operating System :: POSIX :: Linux
Classifier: Programming Language :: Python :: 3 :: Only
Classifier: Topic :: Office/Business :: Financial
Classifier: Typing :: Typed
Requires-Python: >=3.8
Description-Content-Type: text/markdown

"""

Settings = typing.Optional[typing.Dict[str, str]]


def version() -> str:
    """Returns the version as its three parts, by the number in the module."""
    found = re.search(
        r"^VERSION = ([0-9]+)$", (HERE / "ee_value" / "__init__.py").read_text(), re.M
    )
    assert found is not None
    number = int(found[1])
    return f"{number // 10000}.{number // 100 % 100}.{number % 100}"


def metadata() -> bytes:
    """Returns the metadata, with README-python.md as its description."""
    return (METADATA.format(version=version()) + (HERE / "README-python.md").read_text()).encode()


def moment() -> int:
    """Returns the time of all files, in seconds."""
    return max(int(os.environ.get("SOURCE_DATE_EPOCH", FIRST)), FIRST)


def library_of(processor: str) -> bytes:
    """Returns the shared object of a processor. One sentence says what is missing."""
    if processor not in LIBRARIES:
        raise SystemExit(
            f"there is no library for {processor}: the setting processor is one of {', '.join(LIBRARIES)}"
        )
    folder, machine = LIBRARIES[processor]
    shared = HERE / folder / "libee_value.so.1"
    if not shared.exists():
        words = "" if processor == "x86_64" else f" {processor}"
        raise SystemExit(
            f"the library is missing: there is no {shared}; `clients/value/build{words}` of the repository proves and builds it"
        )
    data = shared.read_bytes()
    if data[:4] != b"\x7fELF" or int.from_bytes(data[18:20], "little") != machine:
        raise SystemExit(f"{shared} is no library for {processor}")
    return data


def tag_of(data: bytes, processor: str) -> str:
    """Returns the tag of a wheel with this library: for every Linux whose C library has the versions of symbols that it names, and no earlier one than an index knows."""
    needed = max(
        [int(minor) for minor in re.findall(rb"GLIBC_2\.([0-9]+)", data)] + [LEAST[processor]]
    )
    legacy = {("x86_64", 5): ".manylinux1_x86_64", ("aarch64", 17): ".manylinux2014_aarch64"}.get(
        (processor, needed), ""
    )
    return f"py3-none-manylinux_2_{needed}_{processor}{legacy}"


def build_wheel(
    wheel_directory: str,
    config_settings: Settings = None,
    metadata_directory: typing.Optional[str] = None,
) -> str:
    """Makes a wheel, and returns its name."""
    processor = (config_settings or {}).get("processor", "x86_64")
    library = library_of(processor)
    name, tag = f"ee_value-{version()}", tag_of(library, processor)
    tags = "".join(f"Tag: py3-none-{platform}\n" for platform in tag.split("-")[2].split("."))
    files = {
        **{path: (HERE / path).read_bytes() for path in MODULE},
        "ee_value/libee_value.so.1": library,
        f"{name}.dist-info/METADATA": metadata(),
        f"{name}.dist-info/entry_points.txt": COMMANDS.encode(),
        f"{name}.dist-info/WHEEL": f"Wheel-Version: 1.0\nGenerator: value_wheel\nRoot-Is-Purelib: false\n{tags}".encode(),
    }
    record = "".join(f"{path},sha256={digest(data)},{len(data)}\n" for path, data in files.items())
    files[f"{name}.dist-info/RECORD"] = (record + f"{name}.dist-info/RECORD,,\n").encode()
    wheel = f"{name}-{tag}.whl"
    with zipfile.ZipFile(
        pathlib.Path(wheel_directory) / wheel, "w", zipfile.ZIP_DEFLATED
    ) as archive:
        for path, data in files.items():
            entry = zipfile.ZipInfo(path, time.gmtime(moment())[:6])
            entry.compress_type, entry.external_attr, entry.create_system = (
                zipfile.ZIP_DEFLATED,
                0o100644 << 16,
                3,
            )
            archive.writestr(entry, data)
    return wheel


def build_sdist(sdist_directory: str, config_settings: Settings = None) -> str:
    """Makes an sdist, and returns its name. It has the module and what makes a wheel of it, and not the library: that one is proved and built by the toolchain."""
    name = f"ee_value-{version()}"
    files = {path: (HERE / path).read_bytes() for path in SOURCES}
    files["PKG-INFO"] = metadata()
    text = io.BytesIO()
    with tarfile.open(fileobj=text, mode="w", format=tarfile.PAX_FORMAT) as archive:
        for path, data in sorted(files.items()):
            entry = tarfile.TarInfo(f"{name}/{path}")
            entry.size, entry.mtime, entry.mode = len(data), moment(), 0o644
            archive.addfile(entry, io.BytesIO(data))
    with open(pathlib.Path(sdist_directory) / f"{name}.tar.gz", "wb") as file, gzip.GzipFile(
        "", "wb", 9, file, moment()
    ) as packed:
        packed.write(text.getvalue())
    return f"{name}.tar.gz"


def digest(data: bytes) -> str:
    """Returns a checksum as a wheel's RECORD has it."""
    return base64.urlsafe_b64encode(hashlib.sha256(data).digest()).rstrip(b"=").decode()
