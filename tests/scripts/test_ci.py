"""`make test` and `make check` fail, and name what failed, however a step fails. Stand-ins take the place of what the steps call."""

import re
from collections.abc import Iterator
from itertools import cycle
from pathlib import Path

import pytest
from dependencies import TOP, Crates

from tests.scripts.standing_in import Copy, copied

HOW = (
    "a test fails",
    "its status alone says so",
    "it tries nothing",
    "it counts nothing",
    "it is killed",
    "it can't be started",
    "an edit doesn't apply",
)
# What `make check` runs besides suites of tests.
OTHERS = {"proofs", "docs", "lint", "mutants"}
# The suites that need no proofs.
ALONE = ("scripts", "model", "vendor", "vectors", "c", "python", "rust", "languages", "web", "broker")


@pytest.fixture(scope="module")
def copy(tmp_path_factory: pytest.TempPathFactory) -> Copy:
    """A copy, which tests leave as it was."""
    return copied(tmp_path_factory.mktemp("ci"))


@pytest.fixture(autouse=True)
def nothing_fails(copy: Copy) -> Iterator[None]:
    yield
    (copy.top / "failing").write_text("")


def steps_of(target: str) -> dict[str, str]:
    """The steps of the repository's own target, and how each is called."""
    return Copy(TOP, Path("/usr/bin")).steps(target)


@pytest.mark.parametrize("target", ("test", "check", "whole"))
def test_all_pass(copy: Copy, target: str) -> None:
    steps = copy.steps(target)
    done = copy.make(target)
    assert done.returncode == 0, done.stdout
    assert done.stdout.endswith(
        f"\n{2 * len(steps)} passed, 0 failed\n{2 * len(steps)} passed, 0 failed; skipped: crate\n"
    )
    assert all(copy.called(it) for it in steps)


def test_steps() -> None:
    assert {it for it in steps_of("check") if not it.startswith("test-")} == OTHERS
    assert {*steps_of("whole")} == {*steps_of("check"), "fresh", "clone"}
    crates = Crates()
    programs = {f"{it}-runs" for it in crates.below if crates.is_program(it)}
    tested = {it.relative_to(TOP).parts[1] for it in TOP.glob("crates/*/src/**/*.rt") if "#[test]" in it.read_text()}
    assert programs and tested
    assert {*steps_of("test")} == {*programs, *(f"{it}-tests" for it in tested), "stored-output"}


def test_each_module_of_tests_has_a_step() -> None:
    run = {it.split()[1] for it in steps_of("check").values() if it.startswith("run ")}
    run |= {"oracle"}  # which needs the Rust crate
    modules = {it: it.stem.removeprefix("test_").replace("_", "-") for it in TOP.glob("tests/**/test_*.py")}
    assert [it for it, name in modules.items() if not {it.parent.name, f"{it.parent.name}/{name}"} & run] == []


def failures(target: str) -> Iterator[tuple[str, str, str]]:
    """Each step of a target, and a way in which it fails. (`rt ci` always says so by its status.)"""
    for step, how in zip(steps_of(target), cycle(HOW)):
        yield target, step, HOW[1] if step == "proofs" else how


@pytest.mark.parametrize(("target", "step", "how"), [*failures("test"), *failures("check")])
def test_step_fails(copy: Copy, target: str, step: str, how: str) -> None:
    """It is named; after failed proofs nothing is run that needs them."""
    steps = copy.steps(target)
    copy.fail(steps[step], how)
    done = copy.make(target)
    assert done.returncode == 2
    alone = {"docs", "lint", *(f"test-{it}" for it in ALONE)}
    assert {*re.findall(r"(?m)^FAILED (\S+): ", done.stdout)} == ({*steps} - alone if step == "proofs" else {step})
    assert f"{step}.log ends with" in done.stdout
    assert re.search(r"\n\d+ passed, [1-9]\d* failed; skipped: crate\n", done.stdout)


@pytest.mark.parametrize("how", HOW[:-1])
def test_one_step_by_itself(copy: Copy, how: str) -> None:
    """By its status, since nothing counts what it prints."""
    copy.fail("lint", how)
    done = copy.make("lint")
    assert bool(done.returncode) == (how in ("its status alone says so", "it is killed", "it can't be started"))


def test_older_libraries_are_removed(copy: Copy) -> None:
    """`rt ci` would put them back, and the steps that build over its libraries would take them."""
    older = copy.top / "crates/amqp_json/out/rlib/amqp_json.rlib"
    older.mkdir(parents=True)
    assert copy.make("proofs").returncode == 0
    assert not older.exists()


def test_options_of_whole(copy: Copy) -> None:
    assert copy.make("whole").returncode == 0
    assert copy.called("proofs") == "rt ci --anew"
    assert copy.called("mutants") == "mutants.py --built --all"
    assert copy.called("test-packages") == "run packages --root"
    assert copy.called("test-model") == "run model --random"
    assert copy.called("test-broker") == "run rabbitmq --tables 10000 --rabbitmq=3.10.8 --rabbitmq=4.0.5"


def test_environment_narrows_nothing(copy: Copy) -> None:
    names = ("ANEW", "SEED", "ROOT", "ALL", "TABLES", "PYTEST_ADDOPTS", "PYTHONOPTIMIZE")
    steps = copy.steps("check")
    assert copy.make("check", **{it: "1" for it in names}).returncode == 0
    assert {it: copy.called(it) for it in steps} == steps
    assert all("environment: \n" in (copy.top / f"out/steps/{it}.log").read_text() for it in steps)


@pytest.mark.parametrize("given", ("environment", "command line"))
def test_without(copy: Copy, given: str) -> None:
    named = "broker wire"
    done = copy.make("check", WITHOUT=named) if given == "environment" else copy.make("check", f"WITHOUT={named}")
    assert done.returncode == 0
    assert done.stdout.endswith("; skipped: broker wire crate\n")
    assert not (copy.top / "out/steps/test-wire.log").exists()


@pytest.mark.parametrize("named", ("wires", "proofs"))
def test_without_what_is_no_step(copy: Copy, named: str) -> None:
    done = copy.make("check", WITHOUT=named)
    assert done.returncode == 2 and f"WITHOUT: there is no step {named}; there are: " in done.stderr


def test_logs_that_stay_arent_counted(copy: Copy) -> None:
    assert copy.make("check").returncode == 0
    copy.put("rm", "#!/bin/sh\nexit 1\n")
    try:
        assert copy.make("check").returncode == 2
    finally:
        (copy.path / "rm").unlink()


@pytest.mark.parametrize("target", ("check", "whole"))
@pytest.mark.parametrize("missing", ("logic", "programs"))
def test_what_is_missing_is_named_first(copy: Copy, target: str, missing: str) -> None:
    logic = (copy.top / "logic").read_text()
    if missing == "logic":
        (copy.top / "logic").write_text("a kit logic 0123456789abcdef\n")
    else:
        copy.fail("setup --missing", "its status alone says so")
    done = copy.make(target)
    (copy.top / "logic").write_text(logic)
    assert done.returncode == 2 and "out/steps" not in done.stdout
    assert "called: rt" not in done.stdout
