"""Raw files of an underground dark matter search: read, checked and written by the proved library.

>>> import dwejrasq
>>> with dwejrasq.open("examples/every-kind.raw") as file:
...     trace = file.trace(7, 11, 17, "PAS2")
...     print(trace.channel, trace.samples[:3])
iZIP17:PAS2 [2000 2002 2004]
"""

from ._native import VERSION as __version__
from .channels import Channel, channel, channels, code, zips
from .faults import Absent, Changed, Refused
from .files import File, open, read
from .records import Administrative, Event, Events, Gps, Header, History, Record, Row, Setting, Tlb, Trace, Trigger
from .runs import Run, check, run
from .writing import Writer, rewrite

__all__ = [
    "Absent",
    "Administrative",
    "Changed",
    "Channel",
    "Event",
    "Events",
    "File",
    "Gps",
    "Header",
    "History",
    "Record",
    "Refused",
    "Row",
    "Run",
    "Setting",
    "Tlb",
    "Trace",
    "Trigger",
    "Writer",
    "__version__",
    "channel",
    "channels",
    "check",
    "code",
    "open",
    "read",
    "rewrite",
    "run",
    "zips",
]
