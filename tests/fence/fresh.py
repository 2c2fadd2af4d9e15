"""A fresh Debian under a systemd of its own, over a root of debootstrap that isn't written."""

import contextlib
import os
import re
import stat
import subprocess
import sys
import time
from typing import Any, NoReturn

from tests.conftest import TOP, until
from tests.shared.counter_calls import done, end, run

SUITE = "bookworm"
MIRROR = "http://deb.debian.org/debian"
#: What the packages need, what a bank has beside them, and the shells in which completion is tried.
INCLUDED = "systemd,systemd-sysv,logrotate,nftables,nginx-light,libnginx-mod-http-js,easy-rsa,apache2-utils,python3,curl,man-db,bash-completion,zsh,sqlite3,openssl,openssh-server,adduser,iproute2,btrfs-progs,faketime,procps,prometheus,prometheus-node-exporter"
DEVICES = ["null", "zero", "full", "random", "urandom", "tty"]
PATH = "/usr/sbin:/usr/bin:/sbin:/bin"
SYSTEMD = "systemd --system --unit=multi-user.target --log-target=journal --show-status=no"
UNSHARE = "unshare --mount --pid --fork --uts --ipc --net --cgroup --kill-child"
ENTER = "--mount --pid --net --uts --ipc --cgroup --root --wd"
#: The seconds within which a machine has to be up.
WAIT = 120


def bootstrap(folder: str, suite: str = SUITE, included: str = INCLUDED) -> str:
    """Makes a root, which takes some minutes and Debian's mirror. Returns its folder."""
    done("debootstrap", "--variant=minbase", f"--include={included}", suite, folder, MIRROR)
    return folder


# Within the namespaces, until systemd is process 1.


def mount(kind: str, at: str, options: str = "") -> None:
    done("mount", "-t", kind, *(("-o", options) if options else ()), kind, at)


def make_root(base: str, memory: str, root: str) -> None:
    done("mount", "--make-rprivate", "/")
    mount("tmpfs", memory, "mode=755")
    for name in ("upper", "work"):
        os.mkdir(f"{memory}/{name}")
    os.mkdir(root)
    mount("overlay", root, f"lowerdir={base},upperdir={memory}/upper,workdir={memory}/work")
    mount("proc", f"{root}/proc")
    mount("sysfs", f"{root}/sys")
    mount("cgroup2", f"{root}/sys/fs/cgroup")
    for path in ("dev", "run", "tmp"):
        mount("tmpfs", f"{root}/{path}", "mode=1777" if path == "tmp" else "mode=755")
    for name in DEVICES:
        open(f"{root}/dev/{name}", "w").close()
        done("mount", "--bind", f"/dev/{name}", f"{root}/dev/{name}")
    # A device of its own, since systemd gives the console another owner and other rights.
    os.mknod(f"{root}/dev/console", stat.S_IFCHR | 0o600, os.makedev(1, 3))
    for name in ("shm", "pts"):
        os.mkdir(f"{root}/dev/{name}")
    mount("devpts", f"{root}/dev/pts", "newinstance,ptmxmode=666,gid=5")
    os.symlink("pts/ptmx", f"{root}/dev/ptmx")
    with open(f"{root}/etc/machine-id", "w") as file:
        file.write("0123456789abcdef0123456789abcdef\n")
    os.makedirs(f"{root}/before", exist_ok=True)


def inside(base: str, memory: str) -> NoReturn:
    root = f"{memory}/root"
    make_root(base, memory, root)
    done("ip", "link", "set", "lo", "up")
    os.chdir(root)
    done("pivot_root", ".", "before")
    os.chroot("/")
    os.chdir("/")
    done("umount", "-l", "/before")
    env = {"container": "namespaces", "PATH": PATH}
    os.execve("/usr/lib/systemd/systemd", SYSTEMD.split(), env)


# Outside.


class Fresh:
    """One such machine, over the root in `base`. `folder` is an empty one of this run's."""

    def __init__(self, base: str, folder: str) -> None:
        self.group = make_group()
        self.told = f"{folder}.told"
        words = [*UNSHARE.split(), sys.executable, "-m", "tests.fence.fresh", base, folder]
        enter = ["sh", "-c", 'echo $$ > "$0/cgroup.procs" && exec "$@"', self.group, *words]
        files: dict[str, Any] = {"stdout": subprocess.DEVNULL, "stderr": open(self.told, "w")}
        self.outer = subprocess.Popen(enter, cwd=TOP, start_new_session=True, **files)
        try:
            until(self.has_begun, lambda: f"no systemd\n{open(self.told).read()}", WAIT)
            until(self.is_up, "systemd doesn't come up", WAIT)
        except BaseException:
            self.end()
            raise

    def has_begun(self) -> bool:
        """Whether systemd is process 1 in the namespaces."""
        assert self.outer.poll() is None, open(self.told).read()
        children = f"/proc/{self.outer.pid}/task/{self.outer.pid}/children"
        found = open(children).read().split() if os.path.exists(children) else []
        if found and os.readlink(f"/proc/{found[0]}/exe").endswith("/systemd"):
            self.process = int(found[0])
            return True
        return False

    def is_up(self) -> bool:
        state = self.on("systemctl", "is-system-running").stdout.strip()
        return state in ("running", "degraded")

    def path(self, name: str) -> str:
        return f"/proc/{self.process}/root{name}"

    def words(self, *words: str) -> list[str]:
        return ["nsenter", "-t", str(self.process), *ENTER.split(), *words]

    def on(self, *words: str, **more: Any) -> subprocess.CompletedProcess[str]:
        env = {"PATH": PATH, "LC_ALL": "C.UTF-8", "HOME": "/root"}
        env["DEBIAN_FRONTEND"] = "noninteractive"
        return run(*self.words(*words), env=env, **more)

    def shell(self, text: str) -> str:
        ran = self.on("bash", "-euo", "pipefail", "-c", f"cd /root\n{text}")
        assert ran.returncode == 0, f"status {ran.returncode} after\n{text}\n{ran.stdout}"
        return ran.stdout

    def shown(self, unit: str, name: str) -> str:
        return self.on("systemctl", "show", "--value", "-p", name, unit).stdout.strip()

    def wait(self, unit: str, name: str, wanted: str, seconds: int = 60) -> bool:
        for _ in range(seconds * 10):
            if re.fullmatch(wanted, self.shown(unit, name)):
                return True
            time.sleep(0.1)
        return False

    def end(self) -> None:
        end(self.outer)
        until(lambda: is_gone(self.group), f"{self.group} isn't empty")


def make_group() -> str:
    mounts = [line.split() for line in open("/proc/mounts")]
    tops = [at for _, at, kind, *_ in mounts if kind == "cgroup2"]
    assert tops, "no cgroup 2 is mounted"
    group = os.path.join(tops[0], f"package-{os.getpid()}-{time.monotonic_ns()}")
    os.mkdir(group)
    return group


def is_gone(group: str) -> bool:
    """Removes what is empty of a group. Whether that was all."""
    for path, _, _ in os.walk(group, topdown=False):
        with contextlib.suppress(OSError):
            os.rmdir(path)
    return not os.path.exists(group)


if __name__ == "__main__":
    inside(*sys.argv[1:])
