"""Rows as pandas frames; pandas is loaded where one is asked for."""

from __future__ import annotations

from typing import Any

import numpy as np
import numpy.typing as npt
import pandas

from . import labels


def frame(rows: npt.NDArray[Any]) -> pandas.DataFrame:
    """Rows as a frame: the kinds in words, the index a row's number from 1."""
    columns = {name: rows[name] for name in rows.dtype.names or ()}
    columns["kind"] = pandas.Categorical.from_codes(rows["kind"].astype(np.int8) - 1, list(labels.KINDS.values()))
    return pandas.DataFrame(columns, index=pandas.RangeIndex(1, len(rows) + 1, name="row"))
