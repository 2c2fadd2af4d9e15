"""What a machine has besides its store: /etc/counter with its certificates and keys, and what the
bank set for the units."""
from __future__ import annotations

import fnmatch
import glob
import os
import shlex
import subprocess
import tarfile
import time

#: What is kept of a machine, below /, with all that is in it.
KEPT = ("etc/counter", "etc/systemd/system/counter*", "etc/logrotate.d/counter-requests")
#: Where what the second machine has is brought, and what is brought of it.
BROUGHT, SECOND = "/srv/brought", "counter-archive counter-requests counter-machine"
#: A machine that lacks this was set up again.
SIGN = "/etc/counter/key.pem"
PIPE = subprocess.PIPE


def packed(top: str = "/") -> bytes:
    """A tar of the kept files: the same bytes as long as none of them changes."""
    found = (path for kept in KEPT for path in sorted(glob.glob(os.path.join(top, kept))))
    names = [os.path.relpath(path, top) for path in found]
    how = ["-C", top, "--dereference", "--sort=name", "--format=ustar", "-T", "/dev/null"]
    ran = subprocess.run(["tar", "-c", *how, *names], stdout=PIPE, stderr=PIPE)
    if ran.returncode != 0:
        raise OSError(f"the machine's files can't be packed: {ran.stderr.decode().strip()}")
    return ran.stdout


def bring(words: str) -> None:
    """Brings what the second machine has, by a command that reaches it, or a name for ssh."""
    if os.path.exists(BROUGHT):
        os.rename(BROUGHT, f"{BROUGHT}.before-{time.time_ns()}")
    os.mkdir(BROUGHT, 0o700)
    over = shlex.split(words) if " " in words else ["ssh", words]
    remote = f"cd /srv && tar -c $(ls -d {SECOND} 2> /dev/null)"
    with subprocess.Popen([*over, remote], stdout=PIPE) as sent:
        ran = subprocess.run(["tar", "-x", "--no-same-owner", "-C", BROUGHT], stdin=sent.stdout)
    if sent.returncode != 0 or ran.returncode != 0:
        raise OSError(f"{words} doesn't give what it has: see above")


def lacking(copies: list[str]) -> str | None:
    """The newest copy of a machine's files, if this machine lacks them."""
    return None if os.path.exists(SIGN) or not copies else max(copies, key=os.path.getmtime)


def restore(copy: str, top: str = "/") -> None:
    """Puts a copy's files in their places. One that is there is kept with `.before` at its name."""
    with tarfile.open(copy) as tar:
        for member in tar:
            name, is_plain = member.name, member.isfile() or member.isdir()
            is_kept = any(
                fnmatch.fnmatch(name, end) for kept in KEPT for end in (kept, kept + "/*")
            )
            if not is_plain or not is_kept or os.path.normpath(name) != name:
                raise OSError(f"{copy} has {name}, which is no file of the counter")
    os.makedirs(top, exist_ok=True)
    how = ["--preserve-permissions", "--backup=simple", "--suffix=.before"]
    if subprocess.run(["tar", "-x", *how, "-f", copy, "-C", top]).returncode != 0:
        raise OSError(f"the files of {copy} can't be put in their places: see above")
    if os.path.isdir("/run/systemd/system"):
        subprocess.run(["systemctl", "daemon-reload"])
