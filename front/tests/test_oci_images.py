"""Images that are saved as layouts and loaded again."""

import shutil
from collections.abc import Iterator
from pathlib import Path

import pytest
from tests.oci_samples import Bench, MadeLayout, config_in, folder_entry, found_program, lay, link_entry, reworked

from cnb.documents import read_image, read_run_image
from cnb.failure import Failure
from cnb.oci.load import load
from cnb.oci.store import DOCUMENT_LABEL, Kept, keep
from cnb.oci.write import started_path, write


@pytest.fixture(scope="module")
def made(tmp_path_factory: pytest.TempPathFactory) -> Bench:
    """A store with the image `shell` on the run image `small`, whose user is `guest`, and its layout."""
    bench = Bench(found_program(), tmp_path_factory.mktemp("made"))
    bench.run_image("small", "one", user="guest")
    bench.run_image("newer", "two", user="")
    bench.create("shell", "small")
    write(bench.store, "shell", bench.room / "layout")
    return bench


@pytest.fixture
def other(made: Bench, tmp_path: Path) -> Iterator[Bench]:
    """Another store, with a run image of the name that `made` has, and of other contents."""
    bench = Bench(made.program, tmp_path)
    bench.run_image("small", "of another machine", user="someone")
    yield bench
    passing = [path.name for folder in ("images", "runs") for path in (bench.store / folder).glob("loading-*")]
    assert passing == []


def test_a_loaded_image_is_the_one_that_was_saved(made: Bench, other: Bench) -> None:
    assert load(other.program, f"{made.room / 'layout'}:shell", other.store, "shop") == 6
    assert other.document("shop") == made.document("shell")
    assert other.program.finish(["verify", "--store", str(other.store), "--image", "shop"]) == "verified shop 6 trees\n"
    again = write(other.store, "shop", other.room / "again")
    assert again == write(made.store, "shell", other.room / "saved")
    assert config_in(other.room / "again")["config"]["User"] == "guest"


def test_what_a_run_image_had_in_its_layout_is_saved(made: Bench, other: Bench) -> None:
    kept = Kept("guest", {"of": "run image", DOCUMENT_LABEL: "forged"}, ("80/tcp",), ("/data",), "SIGINT")
    bench = made.store / "runs/small.toml"
    top = read_run_image(bench).rows[-1]
    keep(bench, top, kept)
    try:
        write(made.store, "shell", other.room / "settings")
    finally:
        keep(bench, top, Kept(user="guest"))
    found = config_in(other.room / "settings")["config"]
    assert (found["User"], found["StopSignal"]) == ("guest", "SIGINT")
    assert (found["ExposedPorts"], found["Volumes"]) == ({"80/tcp": {}}, {"/data": {}})
    labels = dict(read_image(made.store / "images/shell.toml").labels)
    assert labels and found["Labels"] == {"of": "run image", **labels, DOCUMENT_LABEL: made.document("shell").decode()}
    load(other.program, str(other.room / "settings"), other.store, "shop")
    write(other.store, "shop", other.room / "again")
    assert config_in(other.room / "again")["config"] == found


def test_a_loaded_image_can_be_rebased(made: Bench, other: Bench) -> None:
    load(other.program, str(made.room / "layout"), other.store, "shop")
    words = ["rebase", "--store", str(other.store), "--image", "shop", "--run", "small"]
    assert other.program.finish(words) == "rebased shop 1 run rows\n"
    write(other.store, "shop", other.room / "rebased")
    assert config_in(other.room / "rebased")["config"]["User"] == "someone"


def test_a_rebased_image_has_the_user_of_its_run_image(made: Bench, tmp_path: Path) -> None:
    shutil.copy(made.store / "images/shell.toml", made.store / "images/moved.toml")
    made.program.finish(["rebase", "--store", str(made.store), "--image", "moved", "--run", "newer"])
    write(made.store, "moved", tmp_path / "moved")
    assert "User" not in config_in(tmp_path / "moved")["config"]


def test_a_user_is_not_taken_from_a_run_image_that_was_made_anew(made: Bench, other: Bench) -> None:
    other.create("shell", "small")
    other.run_image("small", "three", user="nobody")
    write(other.store, "shell", other.room / "saved")
    assert "User" not in config_in(other.room / "saved")["config"]


def test_a_layer_that_was_changed_is_refused_and_the_image_of_before_stays(made: Bench, other: Bench) -> None:
    load(other.program, str(made.room / "layout"), other.store, "shop")
    before = other.document("shop")
    layout = reworked(made.room / "layout", other.room / "changed", layer=(b"one", b"two"))
    with pytest.raises(Failure, match=r"^Layer 1 of the layout isn't the tree that its image had"):
        load(other.program, str(layout), other.store, "shop")
    assert other.document("shop") == before


def test_an_image_of_another_tool_is_refused(other: Bench) -> None:
    place = MadeLayout(other.room / "made", [folder_entry("etc")]).write()
    with pytest.raises(Failure, match="was not made by cnb") as refused:
        load(other.program, place, other.store, "shop")
    assert refused.value.hint is not None and "run-image add" in refused.value.hint


def test_a_label_that_is_no_document_is_refused(other: Bench) -> None:
    label = {"Labels": {"lifecycle.image": "rows = 3"}}
    place = MadeLayout(other.room / "made", [folder_entry("etc")], label).write()
    with pytest.raises(Failure, match="is no image's document"):
        load(other.program, place, other.store, "shop")
    assert not (other.store / "images").exists()


def test_a_document_that_the_program_refuses_gets_no_name(made: Bench, other: Bench) -> None:
    layout = reworked(made.room / "layout", other.room / "changed", label=("version = 2", "version = 3"))
    with pytest.raises(Failure, match="^error 4 Document .* Wrong version"):
        load(other.program, str(layout), other.store, "shop")
    assert not (other.store / "images/shop.toml").exists()


@pytest.mark.parametrize("place", ["/layers/x", "/layers/../x", "/layers//x"])
def test_a_layer_that_leads_elsewhere_is_refused(other: Bench, place: str) -> None:
    outside = lay(other.room / "outside", {"x/secret": "secret"})
    label = {"Labels": {"lifecycle.image": f'rows = [{{ place = "{place}", digest = "0" }}]'}}
    layout = MadeLayout(other.room / "made", [link_entry("layers", str(outside))], label, times=2).write()
    trees = sorted((other.store / "trees").iterdir())
    with pytest.raises(Failure, match=f"^Layer 1 of the layout has other files than those at {place}"):
        load(other.program, layout, other.store, "shop")
    assert sorted((other.store / "trees").iterdir()) == trees


def test_files_that_a_layer_would_take_for_whiteouts_are_refused(other: Bench) -> None:
    lay(other.room / "base-odd", {"etc/.wh.release": ""})
    other.run_image("odd", "one")
    other.create("odd", "odd")
    with pytest.raises(Failure, match=r"The image has /etc/\.wh\.release"):
        write(other.store, "odd", other.room / "odd-layout")
    assert not (other.room / "odd-layout").exists()


def test_a_tree_that_is_missing_or_damaged_is_named(made: Bench, tmp_path: Path) -> None:
    store = tmp_path / "store"
    shutil.copytree(made.store, store)
    tree = next(path for path in (store / "trees").iterdir() if path.name in made.document("shell").decode())
    tree.write_bytes(b"damaged")
    with pytest.raises(Failure, match=f"^The tree {tree} has another digest"):
        write(store, "shell", tmp_path / "layout")
    tree.unlink()
    with pytest.raises(Failure, match=f"^The tree {tree} can't be read: No such file"):
        write(store, "shell", tmp_path / "layout")
    assert not (tmp_path / "layout").exists()


def test_the_launcher_comes_last_in_the_path_of_a_layout(made: Bench) -> None:
    variables = config_in(made.room / "layout")["config"]["Env"]
    assert variables == ["CNB_APP_DIR=/workspace", "CNB_LAYERS_DIR=/layers", "PATH=/usr/bin:/bin:/cnb/process:/cnb/lifecycle"]
    assert started_path("/cnb/process:/cnb/lifecycle") == "/cnb/process:/cnb/lifecycle"
    assert started_path("/bin:/cnb/process") == "/bin:/cnb/process"


def test_a_layout_is_not_written_over_what_is_there(made: Bench, tmp_path: Path) -> None:
    with pytest.raises(Failure, match="can't be made: File exists"):
        write(made.store, "shell", tmp_path)
    with pytest.raises(Failure, match="has no image absent"):
        write(made.store, "absent", tmp_path / "layout")
