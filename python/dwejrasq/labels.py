"""Words for numbers, for people to read and to type: of row kinds, detector types, event words and sites. Numbers without words stay numbers."""

from __future__ import annotations

from ._native import library

# Row kinds (FORMAT 7.2), by the header's constants.
HEADER: int = library.DWJ_HEADER
CONFIGURATION: int = library.DWJ_CONFIGURATION
PHONON: int = library.DWJ_PHONON
CHARGE: int = library.DWJ_CHARGE
EVENT: int = library.DWJ_EVENT
ADMINISTRATIVE: int = library.DWJ_ADMINISTRATIVE
TRACE: int = library.DWJ_TRACE
HISTORY: int = library.DWJ_HISTORY
GPS: int = library.DWJ_GPS
TRIGGER: int = library.DWJ_TRIGGER
TLB: int = library.DWJ_TLB

KINDS: dict[int, str] = {
    HEADER: "header",
    CONFIGURATION: "configuration",
    PHONON: "phonon entry",
    CHARGE: "charge entry",
    EVENT: "event",
    ADMINISTRATIVE: "administrative",
    TRACE: "trace",
    HISTORY: "history",
    GPS: "GPS",
    TRIGGER: "trigger",
    TLB: "TLB mask",
}

# Detector types (FORMAT 3.2): what stands before a detector's number. Both iZIP classes are iZIP; the class is told beside it.
DETECTORS: dict[int, str] = {
    1: "BLIP",
    2: "FLIP",
    3: "Veto",
    4: "ZIP",
    5: "mZIP",
    6: "EndcapI",
    7: "EndcapII",
    10: "iZIP",
    11: "iZIP",
}
CLASSES_OF_IZIP: dict[int, str] = {10: "I", 11: "II"}

# An event's word (FORMAT 6.2).
EVENT_CLASSES: dict[int, str] = {0: "raw", 2: "Monte Carlo"}
CATEGORIES: dict[int, str] = {0: "per trigger", 1: "occasional", 6: "per trigger, selective readout"}
EVENT_TYPES: dict[int, str] = {
    0: "WIMP search",
    1: "cobalt-60",
    2: "cobalt-60 at low energy",
    3: "neutrons",
    4: "random triggers",
    5: "pulser",
    6: "test",
    7: "monitoring",
    8: "caesium-137",
    9: "barium-133",
    10: "veto multiplicity",
}

# Sites of a series (FORMAT 5.1); 50 more is the same for Monte Carlo.
SITES: dict[int, str] = {0: "SUF", 1: "Soudan", 2: "UCB", 3: "CWRU", 6: "Queens", 7: "Minnesota"}


def of(words: dict[int, str], number: int) -> str:
    """The words for a number, or the number itself."""
    return words.get(number, str(number))
