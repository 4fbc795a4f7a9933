"""The command `chainlat-tools`."""

from __future__ import annotations

import sys

import click

from .. import __version__
from ..errors import ChainlatError, Refused
from .apply import apply_command
from .compare import compare_command
from .from_csv import from_csv_command
from .json import json_command
from .junit import junit_command
from .report import report_command
from .sweep import sweep_command
from .table import table_command

#: The status of what isn't a refusal of the program: a file that can't be read here, a library that isn't there.
FAULT = 1


@click.group(context_settings={"help_option_names": ["-h", "--help"]})
@click.version_option(__version__, prog_name="chainlat-tools")
def tools() -> None:
    """Answers of chainlat for builds, reports and people. Every number comes from the program `chainlat`."""


for command in (
    json_command, junit_command, table_command, compare_command, report_command, sweep_command, apply_command,
    from_csv_command,
):
    tools.add_command(command)


def main() -> None:
    """Runs a command. What goes wrong is told in one line or a few, never by a traceback."""
    try:
        status = tools.main(standalone_mode=False)
        sys.exit(status if isinstance(status, int) else 0)
    except click.exceptions.Abort:
        sys.exit(130)
    except click.ClickException as error:
        error.show()
        sys.exit(error.exit_code)
    except Refused as refused:
        click.echo(str(refused), err=True)
        sys.exit(refused.status)
    except (ChainlatError, OSError, ValueError) as error:
        click.echo(f"chainlat-tools: {error}", err=True)
        sys.exit(FAULT)
    except ImportError as error:
        click.echo(f"chainlat-tools: this needs the library {error.name}, which isn't installed", err=True)
        sys.exit(FAULT)


if __name__ == "__main__":
    main()
