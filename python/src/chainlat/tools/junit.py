"""`junit MODEL..`: the verdicts as JUnit XML, which builds show."""

from __future__ import annotations

from typing import Any

import click

import chainlat

from ..commands.verify import RequirementVerdict, Verdict
from ..sources import Source
from .output import output_option, source, write


@click.command("junit")
@output_option()
@click.option(
    "--unshown", type=click.Choice(["fail", "skip"]), default="fail", show_default=True,
    help="What a verdict `unshown` is: a failure, or skipped.",
)
@click.argument("models", nargs=-1, required=True, metavar="MODEL..")
def junit_command(models: tuple[str, ...], unshown: str, output: str | None) -> None:
    """Writes JUnit XML: a suite for each MODEL, a case for each task and requirement.

    What is broken is a failure, with what `why` says of it. A model that is refused is a suite with an error. The
    status is 13 where a case fails or a model is refused.
    """
    from junitparser import JUnitXml

    document, failed = JUnitXml("chainlat"), False
    for model in models:
        suite = suite_of(model, unshown == "skip")
        failed = failed or bool(suite.failures or suite.errors)
        document.add_testsuite(suite)
    document.update_statistics()
    write(_bytes(document), output)
    if failed:
        raise click.exceptions.Exit(13)


def _bytes(document: Any) -> bytes:
    text: bytes | str = document.tostring()
    return text if isinstance(text, bytes) else text.encode()


def suite_of(path: str, skips: bool) -> Any:
    """The suite of a model."""
    from junitparser import Error, TestCase, TestSuite

    suite, model = TestSuite(path), source(path)
    try:
        found = chainlat.verify(model)
    except chainlat.Refused as refused:
        case = TestCase("model", path)
        case.result = [Error(refused.line, type(refused).__name__)]
        case.result[0].text = str(refused)
        suite.add_testcase(case)
    else:
        for verdict in found.verdicts:
            suite.add_testcase(case_of(model, path, verdict, skips))
    suite.update_statistics()
    return suite


def case_of(model: Source, path: str, verdict: Verdict, skips: bool) -> Any:
    """The case of a verdict."""
    from junitparser import Failure, Skipped, TestCase

    of_chain = isinstance(verdict, RequirementVerdict)
    what = "requirement" if of_chain else "task"
    case = TestCase(f"{what} {verdict.name}", path)
    case.system_out = str(verdict)
    if verdict.verdict == "met":
        return case
    if verdict.verdict == "unshown" and skips:
        case.result = [Skipped(str(verdict))]
        return case
    result = Failure(str(verdict), verdict.verdict)
    result.text = str(chainlat.why(model, "requirement" if of_chain else "response", verdict.name))
    case.result = [result]
    return case
