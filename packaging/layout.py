"""Lays out the source package that debhelper packs: what the repository has, with the paths of the packages in place of /opt/counter."""
from __future__ import annotations

import hashlib
import os
import re
import shutil
import subprocess
from pathlib import Path

from sources import LIBRARY_FILES, TOP, Unfit

#: Folders and files of the repository that packages take from.
TAKEN = ("README.md", "CHANGELOG.md", "clients", "docs", "include", "samples")
#: Where the files of the samples lie in the packages. The first that fits counts.
PATHS = (
    ("/opt/counter/restore/call_somebody", "/etc/counter/call_somebody"),
    ("/opt/counter/restore/", "/usr/share/ladwenpik/restore/"),
    ("/opt/counter/snapshot_copy", "/usr/share/ladwenpik/snapshots/snapshot_copy"),
    ("/opt/counter/wait_until_served", "/usr/share/ladwenpik/systemd/wait_until_served"),
    ("/opt/counter/teller/", "/usr/share/ladwenpik/teller/"),
    ("/opt/counter/ee_cli", "/usr/bin/ee_cli"),
    ("/opt/counter/", "/usr/share/ladwenpik/"),
    ("/usr/bin/env python3", "/usr/bin/python3"),
)
#: Files that packages have under another name.
NAMED = (("samples/systemd/counter.sysusers", "debian/ladwenpik.sysusers"),)
#: Joins the modules of the tellers' page to one file. The bank's own file stays one of its own.
JOINED = "page.js"
JOIN = f"esbuild main.js --bundle --minify --format=esm --charset=utf8 --external:./bank.js --outfile={JOINED} --log-level=warning"
#: A module that the page preloads.
PRELOADED = r'<link rel="modulepreload" href="(?!bank\.js)[a-z_]+\.js">\n'
#: Pages say what the repository has, and keep its paths.
PAGES = (".md", ".json", ".png", ".pdf", ".a", ".1")


def lay_out(tree: Path, program: Path, library: Path, version: str, epoch: int) -> None:
    """Writes the source package into a folder that isn't there yet."""
    tree.mkdir()
    for name in TAKEN:
        copy(TOP / name, tree / name)
    for name in ("debian", "completion", "man", "client"):
        copy(TOP / "packaging" / name, tree / name)
    (tree / "verify").mkdir()
    shutil.copy(TOP / "packaging" / "verify", tree / "verify" / "ladwenpik-verify")
    (tree / "program").mkdir()
    shutil.copy(program, tree / "program" / "ee_cli")
    for name in LIBRARY_FILES:
        shutil.copy(Path(library) / name, tree / "program" / name)
    for old, new in NAMED:
        (tree / old).rename(tree / new)
    write_pkgconfig(tree / "program" / "ee_value.pc", version.rsplit("-", 1)[0])
    for path in files(tree):
        put_paths(path)
    join_page(tree / "clients" / "teller")
    name_page(tree / "clients" / "teller")
    settle(tree, epoch)


def copy(old: Path, new: Path) -> None:
    ignored = shutil.ignore_patterns("out", "__pycache__")
    shutil.copytree(old, new, ignore=ignored) if old.is_dir() else shutil.copy(old, new)


def files(tree: Path) -> list[Path]:
    return sorted(path for path in tree.rglob("*") if path.is_file())


def join_page(folder: Path) -> None:
    """Has the tellers' page load one file in place of its modules: a browser asks for six files at once. The modules stay, for people."""
    ran = subprocess.run(JOIN.split(), cwd=folder, stderr=subprocess.PIPE, text=True)
    if ran.returncode != 0 or ran.stderr:
        raise Unfit(f"esbuild: {ran.stderr}")
    index = folder / "index.html"
    text, link = index.read_text(), f'<link rel="modulepreload" href="{JOINED}">\n'
    begin = text.index('<link rel="modulepreload"')
    index.write_text(text[:begin] + link + re.sub(PRELOADED, "", text[begin:]))


def name_page(folder: Path) -> None:
    """Gives the tellers' page a second path, whose name is the digest of its files, so that browsers may keep them: nginx lets them keep nothing else. The scripts that start the page keep their path, so
    that an upgrade in the middle of a load is noticed."""
    kept = sorted(path for path in folder.iterdir() if path.name not in ("index.html", "bank.js"))
    digest = hashlib.sha256(
        b"".join(b"%s\0%s" % (path.name.encode(), path.read_bytes()) for path in kept)
    )
    name, index = digest.hexdigest()[:16], folder / "index.html"
    files = r'(<(?:link|script) [^>]*?(?:href|src)=")(?!start\.js|old\.js)(?=[a-z_]+\.[a-z]+")'
    index.write_text(re.sub(files, rf"\g<1>{name}/", index.read_text()))
    (folder / name).symlink_to(".")


def write_pkgconfig(path: Path, version: str) -> None:
    path.write_text(
        "prefix=/usr\n"
        "includedir=${prefix}/include\n"
        "libdir=${prefix}/lib/x86_64-linux-gnu\n\n"
        "Name: ee_value\n"
        "Description: value of paper Series EE savings bonds, to the cent\n"
        f"Version: {version}\n"
        "Cflags: -I${includedir}\n"
        "Libs: -L${libdir} -lee_value\n"
    )


def put_paths(path: Path) -> None:
    """Puts the packages' paths into a file of samples or clients."""
    if path.suffix in PAGES or path.parent.name in ("program", "debian", "man"):
        return
    text = path.read_text()
    for old, new in PATHS:
        text = text.replace(old, new)
    path.write_text(text)


def settle(tree: Path, epoch: int) -> None:
    """Gives every file the rights that its executable bit says, and the one time, whatever this checkout has."""
    for path in [tree, *tree.rglob("*")]:
        if not path.is_symlink():
            path.chmod(0o755 if path.is_dir() or path.stat().st_mode & 0o100 else 0o644)
        os.utime(path, (epoch, epoch), follow_symlinks=False)
