"""The blocks of GNU Radio for the DVB-S2 modem Sembarohy, over its Python package `sembarohy`.

    from gnuradio import sembarohy

With the folder that contains `gnuradio/` in PYTHONPATH this finds the blocks. They find the package in PYTHONPATH, or in the sources. They find
the library by S2_LIBRARY, or beside themselves, or as the package finds it."""
import importlib
import os
import sys

HERE = os.path.dirname(os.path.abspath(__file__))


def _package():
    """The package `sembarohy`: an installed one, or that of the sources."""
    try:
        return importlib.import_module("sembarohy")
    except ModuleNotFoundError as fault:
        if fault.name != "sembarohy":
            raise
    sys.path.append(os.path.normpath(os.path.join(HERE, "../../python")))
    return importlib.import_module("sembarohy")


sembarohy = _package()
sembarohy.FOLDERS.insert(0, HERE)

from .blocks import receiver, transmitter  # noqa: E402: the package is looked for first

__all__ = ["receiver", "sembarohy", "transmitter"]
