"""The sandbox of buildpacks, by bubblewrap: what they see of the machine, and what they may write."""

import os
import shutil
import stat
import subprocess
from collections.abc import Iterator
from dataclasses import dataclass
from pathlib import Path

from cnb.failure import Failure
from cnb.program import ENVIRONMENT

WORKSPACE, LAYERS, PLATFORM, WORK = "/workspace", "/layers", "/platform", "/cnb/work"
ORDER, BUILDPACKS, PROGRAM = "/cnb/order.toml", "/cnb/buildpacks", "/cnb/lifecycle/lifecycle"
HOME = "/home/cnb"
USER = "1000"
USERS = Path(__file__).resolve().parent / "etc"

# Folders in memory, as /tmp, hold this many bytes each.
TEMPORARY_BYTES = 1 << 30

# What a sandbox has of the machine itself where there is no build image.
OF_THE_MACHINE = ("bin", "etc", "lib", "lib32", "lib64", "libx32", "sbin", "usr")

# What it has not of a build image: these folders it has of its own, or not at all.
NOT_OF_AN_IMAGE = frozenset(
    ("boot", "cnb", "dev", "home", "layers", "media", "mnt", "platform", "proc", "root", "run", "sys", "tmp", "workspace")
)

NAMESPACES = ("--unshare-user", "--unshare-ipc", "--unshare-pid", "--unshare-uts", "--unshare-cgroup-try")


@dataclass(frozen=True)
class Sandbox:
    """The paths of the machine that a sandbox has. Without a build image's root it has the programs of the machine."""

    bubblewrap: str
    program: Path
    root: Path | None
    order: Path
    buildpacks: Path
    platform: Path
    workspace: Path
    work: Path
    network: bool

    def detecting(self, *, workers: int | None) -> list[str]:
        """The words of a detection with a record, which may write in the work folder alone."""
        words = ["detect", "--order", ORDER, "--buildpacks", BUILDPACKS, *self._inputs(), "--record", f"{WORK}/record"]
        if workers is not None:
            words += ["--workers", str(workers)]
        return [*self._around(), "--ro-bind", str(self.workspace), WORKSPACE, *self._start(words)]

    def building(self, *, layers: Path, documents: Path) -> list[str]:
        """The words of the builds, which may write in the application, the layers and the work folder, but not in the
        documents of the choice, which they have of another folder."""
        words = ["build", "--buildpacks", BUILDPACKS, *self._inputs(), "--layers", LAYERS]
        binds = ["--bind", str(self.workspace), WORKSPACE, "--bind", str(layers), LAYERS]
        for name in ("analyzed.toml", "group.toml", "plan.toml"):
            binds += ["--ro-bind", str(documents / name), f"{WORK}/{name}"]
        return [*self._around(), *binds, *self._start(words)]

    @staticmethod
    def _inputs() -> list[str]:
        return ["--app", WORKSPACE, "--platform", PLATFORM, "--work", WORK]

    def _around(self) -> list[str]:
        words = [self.bubblewrap, *isolation(network=self.network), *self._machine(), *_own_folders()]
        for source, target in (
            (self.order, ORDER),
            (self.buildpacks, BUILDPACKS),
            (self.platform, PLATFORM),
            (self.program, PROGRAM),
        ):
            words += ["--ro-bind", str(source), target]
        return [*words, "--bind", str(self.work), WORK]

    @staticmethod
    def _start(words: list[str]) -> list[str]:
        return ["--remount-ro", "/", "--chdir", WORKSPACE, "--", PROGRAM, *words]

    def _machine(self) -> list[str]:
        """The root: folders of the build image or of the machine, read only."""
        root = self.root or Path("/")
        words: list[str] = []
        for name in sorted(os.listdir(root)):
            if name in NOT_OF_AN_IMAGE or (self.root is None and name not in OF_THE_MACHINE):
                continue
            found = root / name
            if found.is_symlink():
                words += ["--symlink", os.readlink(found), f"/{name}"]
            elif found.is_dir():
                words += ["--ro-bind", str(found), f"/{name}"]
        if self.root is None:
            words += _masks(Path("/etc"))
        return [*words, *_users(root), *(_resolver(root) if self.network else [])]


def isolation(*, network: bool) -> list[str]:
    """Namespaces of its own, no capability, and an end with the process that waits for it."""
    words = [*NAMESPACES, "--die-with-parent", "--as-pid-1", "--cap-drop", "ALL", "--uid", USER, "--gid", USER]
    return words if network else [*words, "--unshare-net"]


def _own_folders() -> list[str]:
    words = ["--proc", "/proc", "--dev", "/dev"]
    for folder in ("/dev/shm", "/tmp", "/home"):
        words += ["--size", str(TEMPORARY_BYTES), "--tmpfs", folder]
    return [*words, "--remount-ro", "/dev", "--dir", HOME]


def _users(root: Path) -> list[str]:
    """The user of the sandbox, for programs that ask for his name."""
    words: list[str] = []
    for name in ("passwd", "group"):
        found = root / "etc" / name
        if found.is_file() and not found.is_symlink():
            words += ["--ro-bind", str(USERS / name), f"/etc/{name}"]
    return words


def _resolver(root: Path) -> list[str]:
    """Where the machine says how it finds other machines."""
    path = Path("/etc/resolv.conf")
    real = path.resolve()
    if not real.is_file():
        return []
    if root == Path("/"):
        return ["--ro-bind", str(real), str(real)] if real != path else []
    inside = root / "etc" / "resolv.conf"
    return ["--ro-bind", str(real), str(path)] if inside.is_file() and not inside.is_symlink() else []


def _masks(folder: Path) -> list[str]:
    """What not everybody may read in a folder of the machine is empty in a sandbox: its user has the rights of the caller,
    who may be root."""
    words: list[str] = []
    for path, is_folder in _private(folder):
        words += ["--tmpfs", str(path), "--remount-ro", str(path)] if is_folder else ["--ro-bind", "/dev/null", str(path)]
    return words


def _private(folder: Path) -> Iterator[tuple[Path, bool]]:
    for path, folders, files in os.walk(folder):
        for name in [*folders, *files]:
            found = Path(path, name)
            mode = os.lstat(found).st_mode
            if stat.S_ISLNK(mode):
                continue
            wanted = stat.S_IROTH | (stat.S_IXOTH if stat.S_ISDIR(mode) else 0)
            if mode & wanted != wanted:
                yield found, stat.S_ISDIR(mode)
                if name in folders:
                    folders.remove(name)


def find_bubblewrap() -> str:
    """The program bwrap, where it is there and may make namespaces."""
    how = "To build without a sandbox: --no-sandbox"
    path = shutil.which("bwrap")
    if path is None:
        raise Failure("The sandbox needs bubblewrap, which isn't here.", hint=f"apt-get install bubblewrap\n{how}")
    words = [path, *isolation(network=False), "--ro-bind", "/", "/", "/bin/true"]
    tried = subprocess.run(words, env=ENVIRONMENT, stdin=subprocess.DEVNULL, capture_output=True, check=False)
    if tried.returncode != 0:
        reason = tried.stderr.decode(errors="replace").strip().removeprefix("bwrap: ")
        hint = (
            f"A container has to allow user namespaces; so has the machine (sysctl kernel.unprivileged_userns_clone=1).\n{how}"
        )
        raise Failure(f"bwrap may make no sandbox here: {reason}", hint=hint)
    return path
