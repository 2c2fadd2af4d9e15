"""Reads a document, runs its commands (`$ `) in one bash and its sessions of Python (`>>> `) as they
are written, and compares what they print; `...` stands for any lines. A comment `<!-- not run: REASON
-->`, `<!-- quoted from FILE -->` or `<!-- goes on from FILE -->` before a block does as it says."""

import contextlib
import functools
import os
import re
import select
import shutil
import signal
import subprocess
import sys
import tempfile
import time
from dataclasses import dataclass
from pathlib import Path
from typing import Any

from tests.conftest import TOP, is_listening, until
from tests.shared.counter_calls import PIPE, piped, run

LEFT_OUT_OF_COPIES = shutil.ignore_patterns(".git", "crates", "ee_cli", "__pycache__", ".*_cache")
SECONDS, COLUMNS = 600, 100
MARK = "these were the lines of a command"
COMMENT = re.compile(r"<!-- (not run: |quoted from |goes on from )(.*\S) *-->")
NAMED = re.compile(r"`((?:docs|tests|samples|clients|benchmarks|include|crates|\.ci)/[\w./-]*\w)`")
LINK = re.compile(r"\[[^\]]*\]\(([^)\s]+)\)")
PRINTS = re.compile(r"`(\./ee_cli [^`]*)` prints `([^`]*)`")
#: What comes at any moment: what a shell says of a job, and that a server listens.
NOTICE = re.compile(r"\S+: line \d+: +\d+ (Killed|Terminated) |listening on port ")
UNMARKED = re.compile(
    r"(\./ee_cli|curl|sqlite3|rt|cc|cobc|pip|apt-get|install|mkdir|mkfs\.\w+|systemctl|gluster) "
    r"|(clients|tests|benchmarks|/opt)/",
    re.M,
)
LIBRARY = Path(os.environ.get("EE_VALUE_LIBRARY", TOP / "clients/value/out/libee_value.so.1"))


@dataclass
class Block:
    """What stands between two lines of three backticks, and the comment before it."""

    line: int
    lines: list[str]
    kind: str
    words: str

    def begins(self, mark: str) -> bool:
        return any(line.startswith(mark) for line in self.lines)

    def commands(self) -> list[tuple[int, str, list[str]]]:
        found: list[tuple[int, list[str], list[str]]] = []
        for number, line in enumerate(self.lines, self.line + 1):
            if line.startswith("$ "):
                found.append((number, [line[2:]], []))
                continue
            assert found, f"line {number} stands before the first command of its block"
            if not found[-1][2] and (found[-1][1][-1].endswith("\\") or line.startswith("> ")):
                found[-1][1].append(line.removeprefix("> "))
            else:
                found[-1][2].append(line)
        return [(number, "\n".join(command), prints) for number, command, prints in found]


def blocks_of(text: str) -> list[Block]:
    found: list[Block] = []
    block, margin, kind, words = None, "", "", ""
    for number, line in enumerate(text.split("\n"), 1):
        if line.lstrip().startswith("```") and block is None:
            margin = line[: len(line) - len(line.lstrip())]
            block = Block(number, [], kind, words)
        elif line.lstrip().startswith("```") and block is not None:
            found.append(block)
            block, kind, words = None, "", ""
        elif block is not None:
            block.lines.append(line.removeprefix(margin))
        elif line.strip():
            comment = COMMENT.fullmatch(line.strip())
            kind, words = (comment[1].strip(), comment[2]) if comment else ("", "")
    assert block is None, f"the block of line {block and block.line} has no end"
    return found


def prose_of(text: str) -> str:
    return re.sub(r"^ *```.*?^ *```", "", text, flags=re.S | re.M)


def check_prose(path: Path, text: str) -> None:
    """Links, their headings and named files are there. Prose is wrapped; tables and comments aren't."""
    prose = prose_of(text)
    for target in LINK.findall(prose):
        name, _, place = target.partition("#")
        file = path.parent / name if name else path
        if re.match(r"\w+:", target):
            continue
        assert file.exists(), f"the link to {target}: there is no such file"
        headings = re.findall(r"^#+ *(.*?) *$", prose_of(file.read_text()) if place else "", re.M)
        known = [re.sub(r"[^\w\- ]", "", one.lower()).replace(" ", "-") for one in headings]
        assert place in ("", *known), f"the link to {target}: there is no such heading"
    for name in NAMED.findall(prose):
        assert "/out" in name or "NAME" in name or (TOP / name).exists(), f"there is no {name}"
    for line in prose.split("\n"):
        wide = 0 if line.startswith(("|", "<!--")) else len(line)
        assert wide <= COLUMNS, f"a line has {wide} columns: {line}"


@functools.cache
def has_networks() -> bool:
    """Whether this user may make a network, and has `ip` for it."""
    words = ["unshare", "--net", "ip", "link", "set", "lo", "up"]
    return all(map(shutil.which, ("unshare", "ip"))) and run(*words).returncode == 0


class Shell:
    """A bash in a folder for one command after another, in a network of its own if that can be had."""

    def __init__(self, folder: Path) -> None:
        words = ["bash", "--noprofile", "--norc"]
        if has_networks():
            words = ["unshare", "--net", "sh", "-c", 'ip link set lo up && exec "$@"', "sh", *words]
        pipes: dict[str, Any] = {"stdin": PIPE, "stdout": PIPE, "stderr": subprocess.STDOUT}
        self.process = subprocess.Popen(words, cwd=folder, start_new_session=True, **pipes)
        self.stdin, self.stdout = piped(self.process.stdin), piped(self.process.stdout)

    def run(self, command: str) -> str:
        port = int((re.search(r"--port (\d+)", command) or ["", "0"])[1])
        listens = functools.partial(is_listening, port, self.process.pid)
        assert not port or not listens(), f"something listens on port {port} already"
        with tempfile.NamedTemporaryFile("w", suffix=".sh") as script:
            script.write(command + "\n")
            script.flush()
            self.stdin.write(f"source {script.name} < /dev/null; echo; echo '{MARK}'\n".encode())
            self.stdin.flush()
            text = self.read()
        if port and "&" in command:
            until(listens, f"nothing listens on port {port}", SECONDS)
        return text

    def read(self) -> str:
        text, end = b"", time.time() + SECONDS
        while f"\n{MARK}\n".encode() not in text:
            ready = select.select([self.stdout], [], [], max(0, end - time.time()))[0]
            more = os.read(self.stdout.fileno(), 65536) if ready else b""
            assert more, f"it ends the shell, or doesn't end; it printed: {text.decode()}"
            text += more
        return text.replace(f"\n{MARK}\n".encode(), b"\n").decode(errors="replace")

    def close(self) -> None:
        with contextlib.suppress(ProcessLookupError):
            os.killpg(self.process.pid, signal.SIGKILL)
        self.process.communicate()


def lines_of(text: str) -> list[str]:
    lines = [line.rstrip() for line in text.split("\n") if not NOTICE.match(line)]
    return "\n".join(lines).rstrip("\n").split("\n")


def agrees(found: list[str], said: list[str]) -> bool:
    """Whether these are the lines that are said, where three points are any lines."""
    if not said:
        return not found
    if said[0] == "...":
        return any(agrees(found[count:], said[1:]) for count in range(len(found) + 1))
    return bool(found) and found[0] == said[0] and agrees(found[1:], said[1:])


def compare(shell: Shell, place: str, command: str, said: list[str]) -> None:
    found, wanted = lines_of(shell.run(command)), lines_of("\n".join(said))
    assert agrees(found, wanted), "\n".join([f"{place}: {command}", "it prints:", *found])


def run_shell(shell: Shell, block: Block) -> int:
    commands = block.commands()
    for number, command, said in commands:
        compare(shell, f"line {number}", command, said)
    return len(commands)


def run_python(folder: Path, block: Block) -> None:
    (folder / "session.txt").write_text("\n".join(block.lines) + "\n")
    words = "-m doctest -o NORMALIZE_WHITESPACE -o ELLIPSIS session.txt".split()
    places = {"EE_VALUE_LIBRARY": str(LIBRARY), "PYTHONPATH": str(TOP / "clients/value")}
    ran = run(sys.executable, *words, cwd=folder, env={**os.environ, **places})
    assert ran.returncode == 0, f"line {block.line}: the session of Python\n{ran.stdout}"


def check_quoted(block: Block) -> None:
    text = (TOP / block.words).read_text()
    assert "\n".join(block.lines) in text, f"line {block.line} doesn't stand so in {block.words}"


def run_document(path: Path, folder: Path, program: Path) -> int:
    """How many commands ran. The blocks that don't are printed."""
    text, ran = path.read_text(), 0
    check_prose(path, text)
    blocks, claims = blocks_of(text), PRINTS.findall(prose_of(text))
    if not claims and not any(block.begins("$ ") or block.begins(">>> ") for block in blocks):
        blocks_are_marked(blocks)
        return 0
    shutil.copytree(TOP, folder, symlinks=True, ignore=LEFT_OUT_OF_COPIES)
    (folder / "ee_cli").symlink_to(program)
    shell = Shell(folder)
    try:
        for block in blocks:
            if block.kind == "not run:" or block.begins(">>> ") and not LIBRARY.exists():
                print(f"not run: line {block.line}: {block.words or 'the library isn’t built'}")
            elif block.kind == "quoted from":
                check_quoted(block)
            elif block.begins("$ "):
                if block.kind == "goes on from":
                    for one in blocks_of((TOP / block.words).read_text()):
                        if one.begins("$ ") and not one.kind:
                            run_shell(shell, one)
                ran += run_shell(shell, block)
            elif block.begins(">>> "):
                run_python(folder, block)
            else:
                blocks_are_marked([block])
        for command, said in claims:
            compare(shell, "in a line", command, [said])
    finally:
        shell.close()
    return ran + len(claims)


def blocks_are_marked(blocks: list[Block]) -> None:
    for block in blocks:
        if block.kind == "quoted from":
            check_quoted(block)
        elif block.kind == "not run:":
            for name in re.findall(r"tests/[\w/]+(?:\.py)?", block.words):
                assert (TOP / name).exists(), f"line {block.line}: there is no {name}"
        else:
            found = UNMARKED.match("\n".join(block.lines))
            assert found is None, f"line {block.line}: a command without `$ `"
