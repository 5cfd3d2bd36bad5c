"""One build at a time: what waits, what a signal leaves, and that no edit meanwhile gets an old program."""

from __future__ import annotations

import os
import signal
import subprocess
import time
from collections.abc import Callable

import pytest

from home.small_checkout import SOURCE, SmallCheckout
from support.places import stored_answer

REDUCED = stored_answer("one.reduce")
LONGEST = 60.0


def wait_until(holds: Callable[[], bool]) -> None:
    """Wait until this holds, and fail after a minute."""
    last = time.monotonic() + LONGEST
    while not holds():
        assert time.monotonic() < last, "it never came to that"
        time.sleep(0.02)


def hold_builds(checkout: SmallCheckout) -> None:
    """Give a kit whose builds wait."""
    checkout.give_kit()
    (checkout.kit / "wait").touch()


def start_held(checkout: SmallCheckout) -> subprocess.Popen[bytes]:
    """Start a call whose build has begun and waits."""
    hold_builds(checkout)
    called = checkout.start("reduce", new_group=True)
    wait_until(lambda: checkout.builds() == 1)
    return called


def leftovers(checkout: SmallCheckout) -> list[str]:
    """List what a build left in the folder of programs: neither a log, the lock nor a program."""
    return [name for name in checkout.kept() if name != "lock" and not name.endswith(".log")]


def test_a_second_call_waits(checkout: SmallCheckout) -> None:
    """It says so, builds nothing, and answers with what the first one built."""
    first = start_held(checkout)
    second = checkout.start("reduce")
    time.sleep(1)
    assert second.poll() is None
    (checkout.kit / "wait").unlink()
    for called in (first, second):
        output, _ = called.communicate(timeout=LONGEST)
        assert (called.returncode, output) == (0, REDUCED)
    assert checkout.builds() == 1


def test_a_waiting_call_says_so(checkout: SmallCheckout) -> None:
    """Its first line says that it waits."""
    first = start_held(checkout)
    second = checkout.start("reduce")
    assert second.stderr is not None
    line = second.stderr.readline().decode()
    assert line == "sigma: another call is building the program; waiting for it\n"
    (checkout.kit / "wait").unlink()
    first.communicate(timeout=LONGEST)
    assert second.communicate(timeout=LONGEST)[0] == REDUCED


@pytest.mark.parametrize(
    "number, status", [(signal.SIGINT, 130), (signal.SIGTERM, 143)], ids=["interrupt", "terminate"]
)
def test_a_signal_leaves_nothing(checkout: SmallCheckout, number: int, status: int) -> None:
    """The build ends with the call, also where the whole group gets the signal, as by ^C."""
    called = start_held(checkout)
    os.killpg(called.pid, number)
    output, _ = called.communicate(timeout=LONGEST)
    assert (called.returncode, output) == (status, b"")
    assert leftovers(checkout) == []
    (checkout.kit / "wait").unlink()
    assert checkout.call("reduce").status == 0
    assert checkout.call("reduce").output == REDUCED


def test_a_dead_process_holds_no_lock(checkout: SmallCheckout) -> None:
    """The launcher was killed while its build goes on, and the next call builds at once."""
    called = start_held(checkout)
    called.kill()
    called.wait()
    (checkout.kit / "wait").unlink()
    answer = checkout.call("reduce")
    assert (answer.status, answer.output) == (0, REDUCED)
    assert b"waiting" not in answer.errors


def test_an_edit_between_two_calls(checkout: SmallCheckout) -> None:
    """The first call still runs its program when the second builds: each has its own sources' one."""
    checkout.give_kit()
    long_run = b"model L; var N : 0..9 = 0; vertex V { schedule V after 1; } end\n"
    words = f"run --until 281474976710656 --seed 1 --events {10**11}".split()
    called = subprocess.Popen(
        [checkout.top / "sigma", *words],
        stdin=subprocess.PIPE,
        stdout=subprocess.DEVNULL,
        stderr=subprocess.DEVNULL,
        env=checkout.environment(),
    )
    assert called.stdin is not None
    called.stdin.write(long_run)
    called.stdin.close()
    out = checkout.top / "out"
    wait_until(lambda: any(out.glob("proved.*/sigma")))
    first = checkout.sum_of_sources()
    wait_until(lambda: os.readlink(f"/proc/{called.pid}/exe").endswith(f"proved.{first}/sigma"))
    checkout.write_source("fn main() {} // second\n")
    try:
        assert checkout.call("reduce").output == REDUCED
        assert called.poll() is None
    finally:
        called.kill()
        called.wait()
    programs = {path.parent.name: path.read_bytes()[-20:] for path in out.glob("proved.*/sigma")}
    second = checkout.sum_of_sources()
    assert programs[f"proved.{first}"].endswith(b"// first\n")
    assert programs[f"proved.{second}"].endswith(b"// second\n")
    assert checkout.which()[1]["program"] == str(out / f"proved.{second}/sigma")


def test_an_edit_while_it_is_built(checkout: SmallCheckout) -> None:
    """What was built of the old text isn't taken for the new one, which is built next."""
    called = start_held(checkout)
    checkout.write_source("fn main() {} // second\n")
    (checkout.kit / "wait").unlink()
    output, _ = called.communicate(timeout=LONGEST)
    assert (called.returncode, output) == (0, REDUCED)
    assert checkout.builds() == 2
    program = checkout.top / "out" / f"proved.{checkout.sum_of_sources()}" / "sigma"
    assert program.read_bytes().endswith((checkout.top / SOURCE).read_bytes())
