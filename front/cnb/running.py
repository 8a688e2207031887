"""`cnb run`: an image unpacked once, and its process started in a root of its own."""

import hashlib
import os
import signal
import subprocess
import tempfile
from collections.abc import Iterator, Mapping, Sequence
from contextlib import contextmanager
from dataclasses import dataclass
from pathlib import Path
from types import FrameType

from cnb.accounts import numbers_of
from cnb.builders import copy_tree
from cnb.documents import Image, read_image
from cnb.failure import Failure
from cnb.home import Home, remove_tree
from cnb.locks import held, tried
from cnb.oci.store import kept_of_image
from cnb.oci.write import started_path
from cnb.program import Program
from cnb.sandbox import NAMESPACES, USER, find_bubblewrap

ROOTS_KEPT = 10
HANDED_ON = (signal.SIGINT, signal.SIGTERM, signal.SIGHUP, signal.SIGQUIT, signal.SIGUSR1, signal.SIGUSR2)

# Folders that a container has for itself, which an unpacked image gets so that something can be mounted on them.
MOUNTED = ("proc", "dev", "tmp")


@dataclass(frozen=True)
class Options:
    """The words of `cnb run`."""

    name: str
    process: str | None = None
    words: tuple[str, ...] = ()
    variables: Mapping[str, str] | None = None
    user: str | None = None
    sandbox: bool = True


def run(home: Home, program: Program, options: Options) -> int:
    """Starts a process of the image, and returns the exit status of the launcher."""
    bubblewrap = find_bubblewrap() if options.sandbox else None
    document = home.image(options.name)
    if not document.is_file():
        raise no_image(home, options.name)
    with unpacked(home, program, options.name) as root:
        image = read_image(document)
        kept = kept_of_image(home.store, options.name, document.read_bytes(), image)
        user = options.user or kept.user or f"{USER}:{USER}"
        start = [_entrypoint(image, options.process), *options.words]
        if bubblewrap is None:
            words = [f"{root}{start[0]}", *start[1:]]
            return _start(words, {**os.environ, **(options.variables or {})}, depth=1)
        with _own_workspace(home, root) as workspace:
            words = [*_inside(bubblewrap, root, workspace, numbers_of(root, user)), "--", *start]
            return _start(words, _environment(image, options.variables or {}), depth=3)


def no_image(home: Home, name: str) -> Failure:
    known = ", ".join(home.image_names()) or "none so far"
    return Failure(f"There is no image {name}.", hint=f"cnb build {name} --path DIR builds one. There are: {known}", status=31)


def _entrypoint(image: Image, process: str | None) -> str:
    types = [found.type for found in image.processes]
    if process is None:
        return image.entrypoint
    if process not in types:
        raise Failure(f"The image has no process {process!r}.", hint=f"It has: {', '.join(types) or 'none'}", status=81)
    return f"/cnb/process/{process}"


def _environment(image: Image, variables: Mapping[str, str]) -> dict[str, str]:
    """The variables of the image, with the PATH that a saved image has, and a home in which something can be written."""
    found = {"HOME": "/tmp"} | {variable.name: variable.value for variable in image.env}
    if "PATH" in found:
        found["PATH"] = started_path(found["PATH"])
    if "TERM" in os.environ:
        found["TERM"] = os.environ["TERM"]
    return found | dict(variables)


@contextmanager
def unpacked(home: Home, program: Program, name: str) -> Iterator[Path]:
    """The root of an image, which stays while it is used."""
    digest = hashlib.sha256(home.image(name).read_bytes()).hexdigest()
    root, lock = home.roots / digest, home.locks / f"root-{digest}"
    while True:
        with held(lock, shared=True):
            if root.is_dir():
                os.utime(root)
                _forget_oldest(home)
                yield root
                return
        with held(lock):
            if not root.is_dir():
                _unpack(home, program, name, digest)


def _unpack(home: Home, program: Program, name: str, digest: str) -> None:
    room = Path(tempfile.mkdtemp(prefix=".new-", dir=home.roots))
    try:
        root = room / "root"
        program.finish(["unpack", "--store", str(home.store), "--image", name, "--root", str(root)])
        if hashlib.sha256(home.image(name).read_bytes()).hexdigest() != digest:
            raise Failure(f"The image {name} was built anew meanwhile.", hint="Call it again.")
        for folder in MOUNTED:
            (root / folder).mkdir(exist_ok=True)
        resolver = root / "etc" / "resolv.conf"
        if resolver.parent.is_dir() and not resolver.parent.is_symlink() and not os.path.lexists(resolver):
            resolver.touch()
        root.rename(home.roots / digest)
    finally:
        remove_tree(room)


def _forget_oldest(home: Home) -> None:
    """Removes the roots that were used longest ago, beyond a number, but for those in use."""
    roots = sorted(
        (root for root in home.roots.iterdir() if not root.name.startswith(".")), key=lambda root: root.stat().st_mtime
    )
    for root in roots[:-ROOTS_KEPT]:
        forget_root(home, root)


def forget_root(home: Home, root: Path) -> bool:
    """Removes an unpacked image, unless a process of it runs."""
    with tried(home.locks / f"root-{root.name}") as is_ours:
        if is_ours:
            remove_tree(root)
    return is_ours


@contextmanager
def _own_workspace(home: Home, root: Path) -> Iterator[Path]:
    """A copy of the application, in which the process may write: the rest of an image is shared by all that run it."""
    folder = home.root / "running"
    folder.mkdir(exist_ok=True)
    room = Path(tempfile.mkdtemp(dir=folder))
    try:
        copy_tree(root / "workspace", room / "workspace")
        yield room / "workspace"
    finally:
        remove_tree(room)


def _inside(bubblewrap: str, root: Path, workspace: Path, user: tuple[int, int]) -> list[str]:
    words = [bubblewrap, *NAMESPACES, "--die-with-parent", "--cap-drop", "ALL", "--uid", str(user[0]), "--gid", str(user[1])]
    words += ["--ro-bind", str(root), "/", "--proc", "/proc", "--dev", "/dev", "--tmpfs", "/tmp"]
    for folder in ("run", "var/tmp"):
        if (root / folder).is_dir() and (root / folder).resolve() == root.resolve() / folder:
            words += ["--tmpfs", f"/{folder}"]
    resolver = root / "etc" / "resolv.conf"
    if resolver.is_file() and not resolver.is_symlink() and Path("/etc/resolv.conf").is_file():
        words += ["--ro-bind", str(Path("/etc/resolv.conf").resolve()), "/etc/resolv.conf"]
    return [*words, "--bind", str(workspace), "/workspace", "--chdir", "/workspace"]


def _start(words: Sequence[str], environment: Mapping[str, str], *, depth: int) -> int:
    """Starts the launcher and waits for it. Signals go to its process, `depth` generations below the child: the launcher
    itself hands none on."""
    try:
        child = subprocess.Popen(words, env=dict(environment), start_new_session=True)
    except OSError as fault:
        raise Failure(f"{words[0]} can't be started: {fault.strerror}.") from fault

    def hand_on(number: int, frame: FrameType | None) -> None:
        for pid in _generation(child.pid, depth) or [child.pid]:
            try:
                os.kill(pid, number)
            except ProcessLookupError:
                continue

    before = {number: signal.signal(number, hand_on) for number in HANDED_ON}
    try:
        status = child.wait()
    finally:
        if child.poll() is None:
            child.kill()
        for number, handler in before.items():
            signal.signal(number, handler)
    return status if status >= 0 else 128 - status


def _generation(pid: int, depth: int) -> list[int]:
    """The processes that descend from one by so many steps."""
    children: dict[int, list[int]] = {}
    for entry in os.listdir("/proc"):
        if entry.isdigit():
            children.setdefault(_parent(entry), []).append(int(entry))
    found = [pid]
    for _ in range(depth):
        found = [child for parent in found for child in children.get(parent, ())]
    return found


def _parent(pid: str) -> int:
    try:
        text = Path("/proc", pid, "stat").read_text(encoding="utf-8", errors="replace")
    except OSError:
        return 0
    return int(text.rpartition(")")[2].split()[1])
