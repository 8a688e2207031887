"""Folders of builds as `cnb build` leaves them, written by hand, for the tests of the report."""

import importlib.machinery
import importlib.util
import json
import sys
from collections.abc import Mapping, Sequence
from pathlib import Path
from types import ModuleType

from cnb.documents import toml_text
from cnb.home import Home

TOP = Path(__file__).resolve().parents[2]
GROUP = 'api = "0.10"\n'


def script(path: str) -> ModuleType:
    """A script of the repository, by its path there, as a module."""
    sys.dont_write_bytecode = True
    loader = importlib.machinery.SourceFileLoader(Path(path).name.replace("-", "_"), str(TOP / path))
    spec = importlib.util.spec_from_loader(loader.name, loader)
    assert spec is not None
    module = importlib.util.module_from_spec(spec)
    sys.modules[loader.name] = module
    loader.exec_module(module)
    return module


def home_in(room: Path) -> Home:
    home = Home(room / "home")
    for folder in ("store/trees", "builders/sample/buildpacks", "apps"):
        (home.root / folder).mkdir(parents=True)
    return home


def buildpack(folder: Path, key: str, text: str = "") -> None:
    """A buildpack of a folder; `text` has its targets, or the order of a composite."""
    name, _, version = key.partition("@")
    place = folder / name.replace("/", "_") / version
    place.mkdir(parents=True, exist_ok=True)
    (place / "buildpack.toml").write_text(f'{GROUP}[buildpack]\nid = "{name}"\nversion = "{version}"\n{text}')


def order_of(groups: Sequence[Sequence[str]]) -> str:
    """An order of groups of ids; an id with a question mark behind it is optional."""
    rows = [[f'{{ id = "{it.rstrip("?")}", optional = {str(it.endswith("?")).lower()} }}' for it in group] for group in groups]
    return "".join(f"[[order]]\ngroup = [{', '.join(row)}]\n" for row in rows)


def replies_of(replies: Mapping[str, tuple[int | None, str]]) -> str:
    words = {0: "pass", 100: "fail"}
    keys = {key: key.partition("@") for key in replies}
    rows = [
        {"id": keys[key][0], "version": keys[key][2], "reply": words.get(-1 if code is None else code, "error"), "code": code, "plan": plan}
        for key, (code, plan) in replies.items()
    ]
    return json.dumps(rows)


def plan_of(**names: Sequence[str]) -> str:
    """A Build Plan: the names that it provides and requires."""
    return "".join(f"[[{kind}]]\nname = {toml_text(name)}\n" for kind, those in names.items() for name in those)


def kept(home: Home, name: str, files: Mapping[str, str], *, status: int = 0, refusal: str | None = None, phases: Sequence[object] = (), built: Sequence[object] = ()) -> Path:
    """The folder of a build with these files, and with its build.json."""
    folder = home.app(name).build
    folder.mkdir(parents=True)
    summary = {
        "version": 1,
        "image": name,
        "path": "/src/shop",
        "builder": "sample",
        "run_image": "base",
        "started": "2026-12-02T03:00:00+00:00",
        "seconds": 2.5,
        "phases": phases,
        "buildpacks": built,
        "status": status,
        "refusal": refusal,
    }
    for file, text in {"build.json": json.dumps(summary), **files}.items():
        (folder / file).write_text(text)
    return folder


def phase(name: str, seconds: float, status: int = 0, printed: Sequence[str] = ()) -> object:
    return {"name": name, "seconds": seconds, "status": status, "printed": list(printed)}


def image_of(rows: Sequence[tuple[str, str, str, str]], *, word: str = "serve") -> str:
    """An image's document with these rows: role, place, digest, what made it."""
    found = "".join(f'[[rows]]\nrole = "{role}"\nplace = "{place}"\ndigest = "{digest}"\nby = {toml_text(by)}\n' for role, place, digest, by in rows)
    return f"""entrypoint = "/cnb/process/web"
version = 2
[base]
arch = "amd64"
name = "base"
os = "linux"
top = "{rows[0][2]}"
[[env]]
name = "PATH"
value = "/cnb/process:/bin"
[[labels]]
key = "org.example.kind"
value = "shop & more"
[launch]
default = "web"
[[launch.processes]]
type = "web"
command = ["{word}"]
args = ["--port", "8080"]
default = true
{found}"""


DIGESTS = {letter: letter * 64 for letter in "0123456789ab"}
ROWS = [
    ("run", "/", DIGESTS["0"], "run base"),
    ("layer", "/layers/sample_jdk/jre", DIGESTS["1"], "sample/jdk@1.0.0:jre"),
    ("layer", "/layers/sample_web/static", DIGESTS["2"], "sample/web@2.1.0:static"),
    ("app", "/workspace", DIGESTS["3"], "app"),
    ("launcher", "/cnb/lifecycle", DIGESTS["4"], "launcher"),
]
HOSTILE = "<script>alert(1)</script>"


def a_build(home: Home, name: str = "shop") -> Path:
    """A build whose third group passes, with a layer that is reused, one that is unchanged and others that are new. A buildpack
    prints a script."""
    folder = home.builder("sample") / "buildpacks"
    for key in ("sample/jdk@1.0.0", "sample/web@2.1.0", "sample/ruby@1.0.0", "sample/extra@1.0.0"):
        buildpack(folder, key)
    buildpack(folder, "sample/arm@1.0.0", '[[targets]]\nos = "linux"\narch = "arm64"\n')
    answers = {
        "sample/ruby@1.0.0": (0, plan_of(requires=["ruby"])),
        "sample/jdk@1.0.0": (0, plan_of(provides=["jdk", "jre"])),
        "sample/extra@1.0.0": (0, plan_of(requires=["node"])),
        "sample/web@2.1.0": (0, plan_of(provides=["web"], requires=["jdk", "jre", "web"])),
    }
    record = ["cnb-record 1", "target linux amd64"]
    record += [f"answer {key.replace('@', ' ')} {code} {plan.encode().hex() or '-'}" for key, (code, plan) in answers.items()]
    record += ["fails 0", "trials 1", "drop 0:r:0", "chosen 1", "keep 1:r:0"]
    before = [*ROWS[:2], (*ROWS[2][:2], DIGESTS["5"], ROWS[2][3]), (*ROWS[3][:2], DIGESTS["6"], "app"), ROWS[4]]
    for digest, count in ((DIGESTS["0"], 9_000_000), (DIGESTS["1"], 41_000_000), (DIGESTS["2"], 512), (DIGESTS["3"], 70_000)):
        with home.tree(digest).open("wb") as tree:
            tree.truncate(count)
    group = "".join(f'[[group]]\nid = "{id}"\nversion = "{version}"\n' for id, version in (("sample/jdk", "1.0.0"), ("sample/web", "2.1.0")))
    plan = "".join(
        f'[[entries]]\n[[entries.providers]]\nid = "{id}"\nversion = "{version}"\n[[entries.requires]]\nname = "{name}"\n'
        for name, id, version in (("jdk", "sample/jdk", "1.0.0"), ("jre", "sample/jdk", "1.0.0"), ("web", "sample/web", "2.1.0"))
    )
    files = {
        "order.toml": order_of([["sample/arm"], ["sample/ruby"], ["sample/jdk", "sample/extra?", "sample/web"], ["sample/web"]]),
        "analyzed.toml": 'run = "base"\nos = "linux"\narch = "amd64"\nprevious = "shop"\n',
        "record": "".join(f"{line}\n" for line in record),
        "group.toml": group,
        "plan.toml": plan + '[entries.requires.metadata]\nport = 8080\n',
        "image.toml": image_of(ROWS),
        "image-before.toml": image_of(before),
        "detect.log": f"looking for pom.xml {HOSTILE}\nasked sample/jdk@1.0.0: pass\nasked sample/web@2.1.0: pass\n",
        "build.log": f"building sample/jdk@1.0.0\n\x1b[32munpacking\x1b[0m the JRE\nbuilding sample/web@2.1.0\n{HOSTILE}\nbuilding sample/none@1.0.0\n",
    }
    phases = [
        phase("ANALYZING", 0.1),
        phase("DETECTING", 0.4),
        phase("RESTORING", 0.1),
        phase("BUILDING", 1.6),
        phase("EXPORTING", 0.3, printed=["reused sample/jdk:jre", "added sample/web:static", f"image {name} 5 rows"]),
    ]
    built = [{"id": "sample/jdk", "version": "1.0.0", "seconds": 1.1}, {"id": "sample/web", "version": "2.1.0", "seconds": 0.5}]
    return kept(home, name, files, phases=phases, built=built)


def a_refused_detection(home: Home, groups: Sequence[Sequence[str]], replies: Mapping[str, tuple[int | None, str]], name: str = "none") -> Path:
    """A build that no group passed."""
    for key in replies:
        buildpack(home.builder("sample") / "buildpacks", key)
    files = {
        "order.toml": order_of(groups),
        "replies.json": replies_of(replies),
        "analyzed.toml": 'run = "base"\nos = "linux"\narch = "amd64"\n',
        "detect.log": "".join(f"asked {key}: {code}\n" for key, (code, _) in replies.items()),
    }
    phases = [phase("ANALYZING", 0.1), phase("DETECTING", 0.4, 20, ["error 20 NoGroup"])]
    return kept(home, name, files, status=20, refusal="error 20 NoGroup", phases=phases)


def a_failed_build(home: Home, name: str = "broken") -> Path:
    """A build whose second buildpack failed."""
    a_build(home, name)
    folder = home.app(name).build
    (folder / "image.toml").unlink()
    summary = json.loads((folder / "build.json").read_text())
    summary.update(status=51, refusal="error 51 BuildFailed sample/web 3")
    summary["phases"] = [*summary["phases"][:3], phase("BUILDING", 1.6, 51, ["error 51 BuildFailed sample/web 3"])]
    (folder / "build.json").write_text(json.dumps(summary))
    (folder / "build.log").write_text("building sample/jdk@1.0.0\nbuilding sample/web@2.1.0\nno space for the page\n")
    return folder
