"""What the second machine pulls, and how it shows that the first one was taken back."""

import json
import os
import random
import shutil
import subprocess
import tarfile
import time
from pathlib import Path
from typing import Iterator

import archives
import machine_files
import pytest
from tests.conftest import TOP, until
from tests.restore.counter_day import RESTORE, Day, copied, entry_of, redemption, run, started
from tests.shared.counter_calls import apply, done


def contents(folder: Path) -> dict[str, bytes]:
    return {path.name: path.read_bytes() for path in sorted(folder.iterdir())}


def put(texts: dict[str, bytes], folder: Path) -> None:
    for name, text in texts.items():
        (folder / name).write_bytes(text)


def request_of(line: bytes) -> archives.Request:
    _, request = archives.request_in(line)
    assert request is not None
    return request


def write_archive(folder: Path, lines: list[bytes]) -> None:
    (folder / "requests.jsonl").write_bytes(b"\n".join(lines) + b"\n")
    end = json.loads((folder / "end.json").read_bytes())
    end |= {"row": request_of(lines[-1]).row, "checksum": archives.checksum(lines[-1])}
    (folder / "end.json").write_text(archives.compact(end) + "\n")


# ---- pulling
@pytest.mark.parametrize("rows_more", [1, 40])
def test_refused_pull(day: Day, rows_more: int) -> None:
    """The archive there goes on from the copy, and ends otherwise than its end.json says: the copy stays as it was, and takes the honest archive afterwards."""
    had, honest = contents(day.second), contents(day.archive)
    lines = honest["requests.jsonl"].splitlines()
    forged = lines[: 101 + rows_more]
    write_archive(day.archive, forged)
    end = json.loads((day.archive / "end.json").read_bytes())
    (day.archive / "end.json").write_text(archives.compact({**end, "checksum": "0" * 64}) + "\n")
    refused = day.pull()
    assert refused.returncode == 1 and contents(day.second) == had, refused.stderr
    put(honest, day.archive)
    assert day.pull().returncode == 0
    assert contents(day.second) == honest


#: The fields of requests that are changed, each with its old and new text.
Texts = dict[str, tuple[str, str]]
PAYEE: Texts = {"act": ('"payee":7', '"payee":8')}


def changed(lines: list[bytes], texts: Texts, first: int = 50) -> list[bytes]:
    """From a line on a text is changed, and the chain made right."""
    found = lines[:first]
    for request in map(request_of, lines[first:]):
        parts = {name: getattr(request, name).replace(*pair) for name, pair in texts.items()}
        found.append(archives.line_of(archives.checksum(found[-1]), request._replace(**parts)))
    return found


@pytest.mark.parametrize("texts, count", [(PAYEE, 154), ({}, 60), (PAYEE, 120)])
def test_overwritten(day: Day, texts: Texts, count: int) -> None:
    """What the first machine has is changed or cut: the second keeps what it has."""
    had = contents(day.second)
    lines = (day.archive / "requests.jsonl").read_bytes().splitlines()
    write_archive(day.archive, changed(lines, texts)[:count])
    refused = day.pull()
    assert refused.returncode == 1 and contents(day.second) == had, refused.stderr


def test_pull_goes_on(day: Day) -> None:
    """Control: the archive as it is, is pulled; over connections that break after 9,000 bytes too, each from where the last one ended."""
    over = day.folder / "over"
    cut = 'case "$1" in *requests.jsonl*) sh -c "$1" | head -c 9000; exit 255 ;; esac'
    over.write_text(f'{cut}; exec sh -c "$1"\n')
    target = day.new("cut")
    target.mkdir()
    pull, statuses = (RESTORE / "pull", day.archive, target, "--over", f"sh {over}"), list[int]()
    while len(statuses) < 99 and statuses[-1:] != [0]:
        statuses.append(run(*pull).returncode)
    assert statuses[-1] == 0 and statuses.count(3) == len(statuses) - 1 > 3, statuses
    assert contents(target) == contents(day.archive)
    assert day.pull().returncode == 0 and contents(day.second) == contents(day.archive)


@pytest.mark.root
def test_append_only(day: Day, tmp_path: Path) -> None:
    """On the disk of temporary files: memory has no such files."""
    assert run(RESTORE / "pull", day.archive, tmp_path).returncode == 0
    lines = tmp_path / "requests.jsonl"
    try:
        if "a" not in run("lsattr", lines).stdout.split(" ")[0]:
            pytest.skip("this file system has no append-only files")
        with pytest.raises(PermissionError):
            open(lines, "rb+")
    finally:
        run("chattr", "-R", "-a", tmp_path)


# ---- the log of requests and the machine's files
@pytest.fixture
def follower(day: Day) -> Iterator[Path]:
    """A pull that follows the log: over connections that it may break by ending their processes."""
    target, machine = day.folder / "followed" / "requests.log", day.folder / "machines"
    target.parent.mkdir()
    machine.mkdir()
    (day.folder / "machine.tar").write_bytes(b"one")
    words = ["--every", "0.2", "--requests", day.log, target]
    words += ["--machine", day.folder / "machine.tar", machine]
    with started(RESTORE / "pull", day.archive, day.second, *words) as process:
        yield target
        process.terminate()
    run("pkill", "-f", day.log)


def break_connection(day: Day) -> None:
    done("pkill", "-KILL", "-f", f"tail.*{day.log}")


def test_log_is_followed_by_position(day: Day, follower: Path) -> None:
    """Through broken connections and rotations on both machines each line comes once."""
    every: list[str] = day.log.read_text().splitlines()
    followed = follower.parent

    def lines_there() -> list[str]:
        files = sorted(followed.glob("requests.log*"), key=os.path.getmtime)
        return [line for path in files for line in path.read_text().splitlines()]

    until(lambda: lines_there() == every, lines_there)
    for turn in range(4):
        break_connection(day)
        places = range(5 * turn, 5 * turn + 5)
        new = "".join(entry_of(redemption(300 + at), "{}", 5000 + at) for at in places)
        with open(day.log, "a") as log:
            log.write(new)
        every += new.splitlines()
        until(lambda: lines_there() == every, lines_there)
        if turn == 1:
            os.rename(day.log, f"{day.log}-20260206")
            day.log.touch()
        if turn == 2:
            os.rename(follower, f"{follower}.1")
    assert len(every) == len(set(every)) == 220


def test_cut_line_comes_again(day: Day) -> None:
    """A stop of the second machine left half a line: it is taken off, and comes whole."""
    target = day.folder / "followed" / "requests.log"
    target.parent.mkdir()
    text = day.log.read_text()
    target.write_text(text[: len(text) // 2])
    words = ["--every", "1", "--requests", day.log, target]
    with started(RESTORE / "pull", day.archive, day.second, *words) as process:
        until(lambda: target.read_text() == text, target.read_text)
        process.terminate()
    break_connection(day)


def test_machine_states_are_kept(day: Day, follower: Path) -> None:
    """Each state of the machine's files comes once, and 30 are kept."""
    machines = day.folder / "machines"

    def states() -> list[bytes]:
        return sorted(path.read_bytes() for path in machines.glob("machine-*.tar"))

    until(lambda: states() == [b"one"], states)
    (day.folder / "machine.tar").write_bytes(b"two")
    until(lambda: states() == [b"one", b"two"], states)
    time.sleep(1)
    assert len(list(machines.iterdir())) == 2


# ---- a machine that was taken back
@pytest.fixture
def taken_back(day: Day) -> Day:
    """Store, archive and log of an earlier moment, as after a snapshot of the whole machine; the second machine has 50 requests more, and the log's last line."""
    day.archive_now()
    assert day.pull().returncode == 0
    day.lose()
    shutil.copy(day.before, day.store)
    assert apply(day.program, day.store, [redemption(turn) for turn in range(150)])
    shutil.rmtree(day.archive)
    day.archive.mkdir()
    day.archive_now()
    return day


def witness_of(day: Day) -> Path:
    """What the second machine prints: its end, and the last lines of its log."""
    folder = day.folder / "witness"
    folder.mkdir()
    shutil.copy(day.second / "end.json", folder)
    (folder / "requests").write_text("".join(day.log.read_text().splitlines(keepends=True)[-20:]))
    return folder


def test_witness_ahead(day: Day) -> None:
    """The archive that the second machine pulled has more: refused for good, also if the bank chose to serve while it is away."""
    assert day.guard(day.archive).returncode == 0 and not day.pays(150), "control"
    day.archive_now()
    day.pull()
    shutil.copytree(day.archive, day.folder / "now")
    folder = witness_of(day)
    day.pay(range(200, 260))
    assert day.guard(day.archive, WITNESS=folder).returncode == 0, "control: the store has more"
    short = copied(day.before, day.new("short"))
    for away in ("wait", "serve"):
        refused = day.guard(store=short, WITNESS=folder, WITNESS_AWAY=away)
        assert refused.returncode == 1, refused
        assert "200 that were done are missing" in refused.stderr


def test_taken_back_by_seconds(day: Day) -> None:
    """The second machine pulled before the moment to which this one was taken back: its archive shows nothing, its log of requests does."""
    folder = witness_of(day)
    assert day.guard(day.archive, WITNESS=folder).returncode == 0, "control: the newest is served"
    earlier = copied(day.before, day.new("earlier"))
    apply(day.program, earlier, [redemption(turn) for turn in range(199)])
    assert day.guard(day.archive, store=earlier).returncode == 0, "control: the archive is silent"
    assert day.pays(199, earlier), "control: it pays again"
    refused = day.guard(day.archive, store=earlier, WITNESS=folder)
    assert refused.returncode == 1 and "number 200" in refused.stderr, refused
    assert "lacks it" in refused.stderr


@pytest.mark.parametrize("text", ["", "{", '{"row":7}', None])
def test_witness_away(day: Day, text: str | None) -> None:
    """Without an answer that is newer than the start the counter waits, unless the bank chose to serve."""
    folder = witness_of(day)
    if text is None:
        (folder / "end.json").unlink()
    else:
        (folder / "end.json").write_text(text)
    assert day.guard(day.archive, WITNESS=folder).returncode == 3
    assert day.guard(day.archive, WITNESS=folder, WITNESS_AWAY="serve").returncode == 0


def test_old_answer(day: Day) -> None:
    """An answer from before the start is none: a machine that was taken back has it too."""
    folder = witness_of(day)
    begun = time.time()
    assert day.guard(day.archive, WITNESS=folder, WITNESS_WAIT="1").returncode == 3
    assert time.time() - begun < 6
    touch = f"while sleep 0.5; do touch {folder}/end.json; done"
    with subprocess.Popen(["sh", "-c", touch]) as toucher:
        assert day.guard(day.archive, WITNESS=folder, WITNESS_WAIT="15").returncode == 0
        toucher.kill()


def test_other_history(day: Day) -> None:
    folder = witness_of(day)
    end = json.loads((folder / "end.json").read_text())
    (folder / "end.json").write_text(json.dumps({**end, "checksum": "0" * 64}))
    refused = day.guard(day.archive, WITNESS=folder)
    assert refused.returncode == 1 and "another history" in refused.stderr


@pytest.mark.parametrize("what", ["nothing", "archive", "log", "row"])
def test_taken_back_while_it_serves(day: Day, what: str) -> None:
    """A machine that is taken back with its memory serves on. `witness` finds it at its next question, and ends with status 1, which stops the counter."""
    folder = day.new("asked")
    folder.mkdir()
    shutil.copy(day.log, day.folder / "followed.log")
    day.archive_now()
    old_archive, old_log = contents(day.archive), day.log.read_bytes()
    asks = f"cat {day.second}/end.json; tail -n 20 {day.folder}/followed.log"
    words = (RESTORE / "witness", folder, day.archive, day.log, "sh", "-c", asks)
    with started(*words, stderr=subprocess.PIPE) as process:
        time.sleep(1.5)
        assert process.poll() is None, "control: nothing was taken back"
        day.pay(range(200, 205))
        shutil.copy(day.log, day.folder / "followed.log")
        day.archive_now()
        if what in ("archive", "row"):
            assert day.pull().returncode == 0
        time.sleep(1.5)
        assert process.poll() is None, "control: it goes on as the second machine does"
        if what == "archive":
            put(old_archive, day.archive)
        elif what == "log":
            day.log.write_bytes(old_log)
        elif what == "row":
            end = json.loads((day.archive / "end.json").read_text())
            (day.second / "end.json").write_text(json.dumps({**end, "checksum": "0" * 64}) + "\n")
        if what == "nothing":
            with pytest.raises(subprocess.TimeoutExpired):
                process.wait(4)
            process.terminate()
        else:
            said = process.communicate(timeout=3)[1]
            assert process.returncode == 1 and "taken back" in said


# ---- the machine's files
def test_machine_files(tmp_path: Path, dice: random.Random) -> None:
    """A new machine gets /etc/counter, the units' drop-ins and nothing else, with their rights; what stood there is kept beside."""
    old, new = tmp_path / "old", tmp_path / "new"
    texts = {
        "etc/counter/key.pem": (b"a key", 0o600),
        "etc/counter/staff/private/ca.key": (b"the staff's", 0o600),
        "etc/counter/groups": (b"anna teller;", 0o640),
        "etc/systemd/system/counter.service.d/archives.conf": (b"[Service]", 0o644),
        "etc/systemd/system/other.service": (b"not the counter's", 0o644),
        "etc/shadow": (b"no", 0o600),
    }
    for name, (text, mode) in texts.items():
        path = old / name
        path.parent.mkdir(parents=True, exist_ok=True)
        path.write_bytes(text)
        path.chmod(mode)
    (old / "etc/counter/staff/private").chmod(0o700)
    packed = machine_files.packed(str(old))
    assert packed == machine_files.packed(str(old)), "the same files give the same bytes"
    (new / "etc/counter").mkdir(parents=True)
    (new / "etc/counter/groups").write_bytes(b"as the package made it")
    (tmp_path / "machine.tar").write_bytes(packed)
    machine_files.restore(str(tmp_path / "machine.tar"), str(new))
    found = {str(path.relative_to(new)) for path in new.rglob("*") if path.is_file()}
    assert found == {*list(texts)[:4], "etc/counter/groups.before"}
    for name, (text, mode) in list(texts.items())[:4]:
        assert (new / name).read_bytes() == text and (new / name).stat().st_mode & 0o777 == mode
    assert (new / "etc/counter/staff/private").stat().st_mode & 0o777 == 0o700


def test_machine_files_of_others(tmp_path: Path) -> None:
    """Control: a tar with any other file is refused before the first is written."""
    (tmp_path / "x").write_bytes(b"")
    with tarfile.open(tmp_path / "machine.tar", "w") as tar:
        tar.add(tmp_path / "x", "etc/counter/x")
        tar.add(tmp_path / "x", "etc/counter/../shadow")
    with pytest.raises(OSError, match="no file of the counter"):
        machine_files.restore(str(tmp_path / "machine.tar"), str(tmp_path / "new"))
    assert not (tmp_path / "new").exists()


@pytest.mark.needs("ssh-keygen")
def test_new_host_key(tmp_path: Path) -> None:
    """The page's step puts the machine's new key in place of the old one, and keeps all others."""
    names = ("old", "new", "other")
    for name in names:
        run("ssh-keygen", "-q", "-t", "ed25519", "-N", "", "-C", name, "-f", tmp_path / name)
    keys = {name: " ".join((tmp_path / f"{name}.pub").read_text().split()[:2]) for name in names}
    known, scan = tmp_path / "known_hosts", tmp_path / "ssh-keyscan"
    known.write_text(f"counter.bank.example {keys['old']}\nsecond.bank.example {keys['other']}\n")
    scan.write_text(f"#!/bin/sh\necho \"$3 {keys['new']}\"\n")
    scan.chmod(0o755)
    block = (TOP / "samples/restore/README.md").read_text().split("```\n")[13]
    block = block.replace("/etc/counter/known_hosts", str(known))
    lines = "\n".join(block.splitlines()[1:])
    ran = done("sh", "-ec", f"PATH={tmp_path}:$PATH; cd {tmp_path}; {lines}")
    assert "SHA256:" in ran
    left = known.read_text().splitlines()
    assert left == [f"second.bank.example {keys['other']}", f"counter.bank.example {keys['new']}"]


def test_archiver_keeps_the_machine(day: Day) -> None:
    """The archiver writes the tar once, and again if a file changed."""
    tar = day.folder / "machine.tar"
    day.archive_now("--machine", tar)
    first = tar.stat().st_mtime_ns
    assert tar.read_bytes() == machine_files.packed()
    day.archive_now("--machine", tar)
    assert tar.stat().st_mtime_ns == first


# ---- a new machine
@pytest.mark.root
def test_new_machine(day: Day) -> None:
    """One command on a new machine: settings, certificates, archive and store from what the second machine has. In mounts of its own, so that this machine's /etc and /srv
    stay as they are."""
    day.archive_now()
    assert day.pull().returncode == 0
    wanted = day.tables()
    second, upper, work = day.new("srv"), day.new("upper"), day.new("work")
    for folder in (second, upper, work, second / "counter-requests", second / "counter-machine"):
        folder.mkdir()
    shutil.copytree(day.second, second / "counter-archive")
    shutil.copy(day.log, second / "counter-requests")
    old = day.new("old")
    for name in ("etc/counter/key.pem", "etc/systemd/system/counter.service.d/archives.conf"):
        (old / name).parent.mkdir(parents=True)
        (old / name).write_text(name)
    (second / "counter-machine" / "machine-1.tar").write_bytes(machine_files.packed(str(old)))
    over = day.folder / "over"
    over.write_text(f'exec sh -c "cd {second} && ${{1#cd /srv && }}"\n')
    day.lose()
    script = f"""mount -t overlay overlay -o lowerdir=/etc,upperdir={upper},workdir={work} /etc
        mount -t tmpfs tmpfs /srv
        mkdir /srv/archive
        {RESTORE}/counter-restore {day.store} --second 'sh {over}' --program {day.program} --yes || exit
        ls /srv/archive/counter; stat -c %a /srv/brought"""
    said = done("unshare", "--mount", "sh", "-ec", script)
    assert "/etc/counter is lost; its files are restored" in said
    assert said.split()[-5:] == ["end.json", "first.db", "first.db-wal", "requests.jsonl", "700"]
    assert (upper / "counter" / "key.pem").read_text() == "etc/counter/key.pem"
    assert (upper / "systemd/system/counter.service.d/archives.conf").exists()
    assert day.tables() == wanted
