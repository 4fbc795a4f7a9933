"""The schemas say what the classes say."""

import subprocess
import sys

from conftest import TOP


def test_the_schemas_are_those_of_the_classes() -> None:
    done = subprocess.run(
        [sys.executable, str(TOP / "python" / "scripts" / "write-schema"), "check"], capture_output=True, text=True, check=False
    )
    assert done.returncode == 0, done.stderr
