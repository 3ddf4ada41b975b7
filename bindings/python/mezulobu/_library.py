"""Finds libmezulobu and gives its calls their types: the shared object in the folder MEZULOBU_LIB_DIR, else the one beside this file, as a wheel has it, else the
system's."""
import ctypes
import os

from ._abi import CALLS

NAME = "libmezulobu.so.1"


def _path() -> str:
    folder = os.environ.get("MEZULOBU_LIB_DIR")
    if folder:
        return os.path.join(folder, NAME)
    beside = os.path.join(os.path.dirname(__file__), NAME)
    return beside if os.path.exists(beside) else NAME


def _load() -> ctypes.CDLL:
    try:
        found = ctypes.CDLL(_path())
    except OSError as why:
        raise ImportError(f"{why}: set MEZULOBU_LIB_DIR to the folder of {NAME}, or install the wheel, which has it") from why
    for name, (returns, parameters) in CALLS.items():
        call = getattr(found, name)
        call.restype, call.argtypes = returns, parameters
    return found


library = _load()
