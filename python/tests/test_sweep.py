"""Sweeps: what the frame holds, and that it depends on nothing but the model and the changes."""

import os
import signal
import threading
import time

import pytest
from conftest import TOP

import chainlat
from chainlat.sweep import variants_of

TWO = TOP / "crates" / "chainlat" / "data" / "two.toml"
WITH = TWO.read_text() + '\n[[requirement]]\nname = "r"\nchain = "ab"\nkind = "reaction"\nmost = 30\n'


def test_a_product_is_a_variant_for_each_pair() -> None:
    found = variants_of({"offset s20 {}": [0, 3], "move B {} {}": [("c0", 1), ("c1", 2)]})
    assert [it[0] for it in found] == [
        "offset s20 0\nmove B c0 1", "offset s20 0\nmove B c1 2", "offset s20 3\nmove B c0 1", "offset s20 3\nmove B c1 2",
    ]
    assert found[1][1] == {"offset s20": 0, "move B": "c1 2"}


def test_a_list_of_edits_is_a_variant_each() -> None:
    assert [it[0] for it in variants_of(["offset s20 0; report", "swap A B"])] == ["offset s20 0\nreport", "swap A B"]


def test_the_best_stands_first_and_a_refused_one_last(program: str) -> None:
    frame = chainlat.sweep(WITH, {"offset s20 {}": [0, 3, 12, 20]}, workers=1, progress=False)
    assert list(frame["offset s20"]) == [3, 0, 12, 20]
    assert list(frame["r"])[:3] == [28, 35, 37]
    assert list(frame["unmet"])[:3] == [0, 1, 1]
    assert list(frame["refused"])[3] == "edits refused line 2 M27 stimulus[1].offset"
    assert frame["refused"].isna().sum() == 3


def test_the_answer_depends_on_no_number_of_workers(program: str) -> None:
    changes = {"offset s20 {}": range(0, 20), "offset s10 {}": range(0, 10, 3)}
    one, three = (chainlat.sweep(WITH, changes, workers=count, progress=False) for count in (1, 3))
    assert one.equals(three)


def test_a_process_that_dies_loses_nothing(program: str, tmp_path: object) -> None:
    changes = {"offset s20 {}": range(0, 20), "offset s10 {}": range(0, 10)}
    wanted = chainlat.sweep(WITH, changes, workers=1, progress=False)
    threading.Thread(target=kill_a_child, daemon=True).start()
    assert chainlat.sweep(WITH, changes, workers=2, progress=False).equals(wanted)


def kill_a_child() -> None:
    """Kills a process of the pool, once there is one."""
    children = f"/proc/{os.getpid()}/task/{os.getpid()}/children"
    for _ in range(500):
        time.sleep(0.01)
        with open(children) as file:
            for child in file.read().split():
                with open(f"/proc/{child}/cmdline", "rb") as named:
                    if b"chainlat" not in named.read().split(b"\0")[0]:
                        os.kill(int(child), signal.SIGKILL)
                        return


def test_a_cluster_gives_the_same_and_a_worker_that_dies_loses_nothing(program: str) -> None:
    distributed = pytest.importorskip("distributed")
    changes = {"offset s20 {}": range(0, 20), "offset s10 {}": range(0, 10, 2)}
    wanted = chainlat.sweep(WITH, changes, workers=1, progress=False)
    with distributed.LocalCluster(
        n_workers=2, threads_per_worker=1, dashboard_address=None, processes=True
    ) as cluster, distributed.Client(cluster) as client:
        workers = list(cluster.workers.values())
        killed = threading.Timer(0.3, lambda: os.kill(workers[0].pid, signal.SIGKILL))
        killed.start()
        assert chainlat.sweep(WITH, changes, client=client, progress=False).equals(wanted)
        killed.cancel()
