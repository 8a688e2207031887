"""bench/plot, over lines as benches print them. The times are made up."""

import os
import subprocess
import xml.etree.ElementTree as ET
from pathlib import Path

import pytest

from tests.report_builds import TOP, script

plot = script("bench/plot")

PRINTED = {
    "store": """many: lifecycle 416 ms, processors 410 ms, 13 MiB; sha256sum 400 ms, processors 395 ms, 13 MiB; ratio 104%
many: lifecycle 416 ms, processors 410 ms, 13 MiB; cp -a 520 ms, processors 505 ms, 13 MiB; ratio 80%
""",
    "unpack": """one: lifecycle 380 ms, processors 375 ms, 13 MiB; ostree fsck and ostree checkout 200 ms, processors 190 ms, 13 MiB; ratio 190%
""",
    "workers": """64 children of 50 ms, 1 workers: lifecycle detect 3330 ms, xargs -P 3350 ms, ratio 99%, ideal 3200 ms
64 children of 50 ms, 8 workers: lifecycle detect 420 ms, xargs -P 430 ms, ratio 97%, ideal 400 ms
64 children of 50 ms, 2 workers: lifecycle detect 1670 ms, xargs -P 1680 ms, ratio 99%, ideal 1600 ms
""",
    "catalog": """1,000 descriptors: lifecycle 21000 us, cat 10500 us, ratio 200%
an order that never ends, over 4,096 groups: refused in 3 us, without it 12 us
""",
    "documents": """ 220% reading layer, deep lists: 524288 bytes in 44.5 ms, toml alone 20 ms, misses the goal
14 of 20 measures meet the goal of 125%
""",
    "plans": "65,536 trials, the last passes: resolve 1200 us, Python 900000 us, Python / resolve 750.0\n",
}


@pytest.fixture
def files(tmp_path: Path) -> list[Path]:
    for name, text in PRINTED.items():
        (tmp_path / name).write_text(text)
    return sorted(tmp_path.iterdir())


def test_each_form_of_line_is_read(files: list[Path]) -> None:
    found = [(it.bench, it.what, it.other, it.ours, it.theirs) for it in plot.read(files)]
    assert found == [
        ("catalog", "1,000 descriptors", "cat", 21, 10.5),
        ("documents", "reading layer, deep lists", "toml alone", 44.5, 20),
        ("plans", "65,536 trials, the last passes", "Python", 1.2, 900),
        ("store", "many", "sha256sum", 416, 400),
        ("store", "many", "cp -a", 416, 520),
        ("unpack", "one", "ostree fsck and ostree checkout", 380, 200),
        ("workers", "64 children of 50 ms, 1 workers", "xargs -P", 3330, 3350),
        ("workers", "64 children of 50 ms, 8 workers", "xargs -P", 420, 430),
        ("workers", "64 children of 50 ms, 2 workers", "xargs -P", 1670, 1680),
    ]


def test_lines_that_differ_in_one_number_are_a_series(files: list[Path]) -> None:
    series = plot.series_of(plot.read(files))
    assert list(series) == [("workers", "64 children of 50 ms, n workers", "xargs -P")]
    (rows,) = series.values()
    assert [(number, it.ours) for number, it in rows] == [(1, 3330), (2, 1670), (8, 420)]


def test_the_drawing(files: list[Path], capsys: pytest.CaptureFixture[str]) -> None:
    plot.main(files)
    drawn = ET.fromstring(capsys.readouterr().out)
    texts = [it.text for it in drawn.iter() if it.text]
    for said in ("store", "many, beside cp -a", "0.80", "1.04", "1×", "workers: 64 children of 50 ms, n workers", "xargs -P"):
        assert said in texts, said
    for it in drawn.iter("{http://www.w3.org/2000/svg}circle"):
        assert 0 < float(it.attrib["cx"]) < 920 and 0 < float(it.attrib["cy"]) < float(drawn.attrib["height"])


def test_the_line_of_a_bench(tmp_path: Path) -> None:
    """What bench/measure.sh prints has a form that is read."""
    calls = "ours() { sleep 0.02; }; theirs() { sleep 0.01; }; beside '1,000 files, read' 1 ours 'cp -a' theirs"
    words = ["bash", "-eu", "-c", f". {TOP}/bench/measure.sh; {calls}"]
    environment = {**os.environ, "LIFECYCLE": "/bin/true", "SHORT": "yes"}
    ended = subprocess.run(words, env=environment, capture_output=True, text=True, check=True)
    (line,) = ended.stdout.splitlines()
    measure = plot.measure_in("store", line)
    assert (measure.what, measure.other) == ("1,000 files, read", "cp -a")
    assert measure.ours >= 20 and measure.theirs >= 10


def test_files_without_measures(tmp_path: Path) -> None:
    (tmp_path / "orders").write_text("nothing of this kind\n")
    with pytest.raises(SystemExit, match="no line of these files"):
        plot.main([tmp_path / "orders"])
