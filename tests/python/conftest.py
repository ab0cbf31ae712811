"""What the tests of the module share: how hypothesis draws, and where things are."""

from __future__ import annotations

import os
import sys
from pathlib import Path

import pytest
from hypothesis import HealthCheck, settings

TREE = Path(__file__).resolve().parents[2]
MODULE = TREE / "python"

# Processes that the tests start, Dask's workers among them, find the module as the tests do.
sys.dont_write_bytecode = True
os.environ["PYTHONDONTWRITEBYTECODE"] = "1"
# They write as the installed command does, whatever is set here.
os.environ.pop("PYTHONUNBUFFERED", None)
os.environ["PYTHONPATH"] = os.pathsep.join([str(MODULE), *filter(None, os.environ.get("PYTHONPATH", "").split(os.pathsep))])
if str(MODULE) not in sys.path:
    sys.path.insert(0, str(MODULE))

# The same examples each time, and as many; none is kept from an earlier run.
settings.register_profile(
    "same",
    derandomize=True,
    database=None,
    deadline=None,
    max_examples=100,
    suppress_health_check=[HealthCheck.too_slow, HealthCheck.data_too_large, HealthCheck.function_scoped_fixture],
)
settings.load_profile("same")


@pytest.fixture(scope="session")
def examples() -> Path:
    """The folder of the example files."""
    return TREE / "examples"


@pytest.fixture(scope="session")
def longest(tmp_path_factory: pytest.TempPathFactory) -> Path:
    """A file of exactly the limit's length: as many of the smallest events as it holds."""
    from files import smallest

    path = tmp_path_factory.mktemp("longest") / "longest.raw"
    path.write_bytes(smallest(16_777_216))
    return path
