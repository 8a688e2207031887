"""Images through a registry: one of Debian's docker-registry on the loopback, where that and skopeo are installed."""

import json
import shutil
import socket
import subprocess
import time
import urllib.request
from collections.abc import Iterator
from pathlib import Path

import pytest

from tests.front_home import Front, write_buildpack

from cnb.failure import Failure
from cnb.registry import name_in, reason_in

LAYER = 'mkdir "$1/tools"; head -c 300000 /dev/zero > "$1/tools/data"; printf "[types]\\nlaunch = true\\n" > "$1/tools.toml"'
needs_registry = pytest.mark.skipif(
    not (shutil.which("skopeo") and shutil.which("docker-registry")), reason="skopeo and docker-registry aren't installed"
)


@pytest.fixture
def registry(tmp_path: Path) -> Iterator[str]:
    """A registry, by its host and port."""
    with socket.socket() as free:
        free.bind(("127.0.0.1", 0))
        port = free.getsockname()[1]
    settings = {"version": 0.1, "storage": {"filesystem": {"rootdirectory": str(tmp_path / "registry")}}}
    (tmp_path / "registry.yml").write_text(json.dumps(settings | {"http": {"addr": f"127.0.0.1:{port}"}}))
    words = ["docker-registry", "serve", str(tmp_path / "registry.yml")]
    with open(tmp_path / "said", "wb") as said, subprocess.Popen(words, stdout=said, stderr=said) as process:
        for _ in range(100):
            with socket.socket() as there:
                if there.connect_ex(("127.0.0.1", port)) == 0:
                    break
            time.sleep(0.1)
        yield f"127.0.0.1:{port}"
        process.kill()


@pytest.mark.parametrize(
    ("reference", "name"),
    [("localhost:5000/shop", "shop"), ("registry.example.org/team/shop:1.0", "shop"), ("host/shop@sha256:00", "shop")],
)
def test_the_name_in_a_reference(reference: str, name: str) -> None:
    assert name_in(reference) == name


@pytest.mark.parametrize("reference", ["shop", "", "host/", "a b/shop", "--all"])
def test_what_is_no_reference(reference: str) -> None:
    with pytest.raises(Failure, match="is no reference"):
        name_in(reference)


@pytest.mark.parametrize(
    ("said", "reason"),
    [
        ('time="2026-12-02T09:23:37Z" level=fatal msg="reading manifest 1 in host/shop: manifest unknown"\n',
         "reading manifest 1 in host/shop: manifest unknown"),
        ('time="x" level=warning msg="slow"\ntime="x" level=fatal msg="Get \\"http://host/v2/\\": refused"\n',
         'Get "http://host/v2/": refused'),
        ("panic: out of memory\n", "panic: out of memory"),
        ("", ""),
    ],
)
def test_why_skopeo_ended(said: str, reason: str) -> None:
    assert reason_in(said) == reason


def pushed(registry: str) -> set[str]:
    """The digests of the layers of an image in the registry."""
    request = urllib.request.Request(f"http://{registry}/v2/team/shop/manifests/1")
    request.add_header("Accept", "application/vnd.oci.image.manifest.v1+json")
    with urllib.request.urlopen(request) as answer:
        return {row["digest"] for row in json.load(answer)["layers"]}


@needs_registry
def test_published_fetched_and_rebased(front: Front, tmp_path: Path, source: Path, registry: str) -> None:
    front.builder("layers", write_buildpack(tmp_path / "written", "test/layers", build=LAYER))
    front.done("build", "shop", "--path", str(source), "--builder", "layers", "--run-image", "tools")
    reference = f"{registry}/team/shop:1"
    printed = front.done("publish", "shop", reference)
    assert printed.startswith(f"shop is published: {reference} has sha256:")
    before = pushed(registry)

    # Another home has the same image, and puts the same bytes there.
    elsewhere = {"CNB_HOME": str(tmp_path / "elsewhere")}
    assert front.done("fetch", reference, "copy", env=elsewhere).startswith("copy is fetched: ")
    document = Path("store", "images")
    assert (tmp_path / "elsewhere" / document / "copy.toml").read_text() == (front.home / document / "shop.toml").read_text()
    assert front.done("publish", "copy", reference, env=elsewhere).split()[-1] == printed.split()[-1]

    # A change of the application changes its own layer alone.
    (source / "main.sh").write_text("echo changed\n")
    front.done("build", "shop", "--path", str(source), "--builder", "layers", "--run-image", "tools")
    front.done("publish", "shop", reference)
    assert len(pushed(registry) - before) == 1


@needs_registry
def test_what_is_not_there(front: Front, registry: str) -> None:
    ended = front.run("fetch", f"{registry}/team/nothing:1")
    assert ended.returncode == 1
    assert "nothing" in ended.stderr and "Traceback" not in ended.stderr
