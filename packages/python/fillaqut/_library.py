"""The shared library: where it is found, and its functions. They are called by the extension `_fast` where the package has one, as
it has where a compiler stood when it was built; else by ctypes. Both take the same and answer the same."""
from __future__ import annotations

import ctypes
import os
import sys
from functools import partial
from importlib import import_module
from pathlib import Path
from typing import Any, Callable, Iterable

from . import _c
from ._c import OK, TOO_SHORT

NAME = {"win32": "fillaqut.dll", "darwin": "libfillaqut.0.dylib"}.get(sys.platform, "libfillaqut.so.0")
ROOM = 4096  #: for so many bytes rooms are kept, and taken by one call at a time
UNLOCKED = 16384  #: a page of so many bytes is read without the lock of the interpreter, which takes longer than to give that up


def _path() -> str:
    """The library that the environment names, else that of the package, else that of the tree in which the package stands,
    else one that is installed."""
    here = Path(__file__).resolve()
    known = [here.with_name(NAME)]
    if (here.parents[1] / "pyproject.toml").is_file():
        known.append(here.parents[3] / "out" / NAME)
    found = [str(path) for path in known if path.is_file()]
    named = os.environ.get("FILLAQUT_LIBRARY")
    return named or (found or [NAME])[0]


def _check_version(path: str, library: ctypes.PyDLL) -> None:
    """Refuses a library of another version than the package's, or an earlier one."""
    library.mds_version.restype = ctypes.c_uint32
    found = library.mds_version()
    if found < _c.VERSION or found >> 16 != _c.VERSION >> 16:
        raise ImportError(f"the package is of version {_c.VERSION:#08x}, and {path} of {found:#08x}")


def _typed(library: ctypes.CDLL, names: Iterable[str]) -> dict[str, Any]:
    """The functions of these names, with their types."""
    found: dict[str, Any] = {}
    for name in names:
        found[name] = getattr(library, f"mds_{name}")
        found[name].restype, found[name].argtypes = _c.FUNCTIONS[name]
    return found


def _load() -> tuple[dict[str, Any], dict[str, Any]]:
    """The functions of the library, whose calls keep the lock of the interpreter, as most take less time than giving it up would;
    and those of whole pages, whose calls give it up."""
    path = _path()
    try:
        library = ctypes.PyDLL(path)
        _check_version(path, library)
        return _typed(library, _c.FUNCTIONS), _typed(ctypes.CDLL(path), _c.PAGE_FUNCTIONS)
    except (OSError, AttributeError) as why:
        raise ImportError(f"{why}: install {NAME}, or name it in FILLAQUT_LIBRARY") from why


def _extension() -> Any:
    """The extension, which calls the functions of the library, or None where there is none."""
    try:
        made: Any = import_module(f"{__package__}._fast")
    except ImportError:
        return None
    made.bind({name: ctypes.cast(foreign, ctypes.c_void_p).value for name, foreign in _FUNCTIONS.items()}, UNLOCKED)
    return made


_FUNCTIONS, _UNLOCKED_FUNCTIONS = _load()
#: The extension, or None.
FAST = _extension()


def _foreign(name: str) -> Any:
    """The function by ctypes. One of whole pages gives up the lock for a long page."""
    locked, unlocked = _FUNCTIONS[name], _UNLOCKED_FUNCTIONS.get(name)
    if not unlocked:
        return locked
    return lambda address, length, *more: (locked if length < UNLOCKED else unlocked)(address, length, *more)


def function(name: str) -> Any:
    """The function that stands in C under this name after `mds_`. One of whole pages gives up the lock of the interpreter for a long
    one, whose bytes are not to change meanwhile."""
    return getattr(FAST, name) if FAST else _foreign(name)


def writer(name: str) -> Callable[..., tuple[Any, bytes]]:
    """The function that writes into a buffer. In place of that it takes a size, and where that is too short it is called once
    more; it answers what it found, and the bytes that it wrote."""
    found: Callable[..., tuple[Any, bytes]] = getattr(FAST, name) if FAST else partial(_written, _foreign(name))
    return found


class _BufferInfo(ctypes.Structure):
    """Py_buffer, of which only the address is read."""

    _fields_ = [("address", ctypes.c_void_p), ("others", ctypes.c_void_p * 11)]


# Functions of Python's own, with types that are no one else's. Its name is for ctypes alone, which under Windows looks for "/" in it.
_python = ctypes.PyDLL("python", handle=ctypes.pythonapi._handle)
_utf8 = _python.PyUnicode_AsUTF8AndSize
_utf8.restype, _utf8.argtypes = ctypes.c_void_p, (ctypes.py_object, ctypes.c_void_p)
_get_buffer, _release = _python.PyObject_GetBuffer, _python.PyBuffer_Release
_get_buffer.restype, _get_buffer.argtypes = ctypes.c_int, (ctypes.py_object, ctypes.POINTER(_BufferInfo), ctypes.c_int)
_release.restype, _release.argtypes = None, (ctypes.POINTER(_BufferInfo),)
_python.PyBytes_FromStringAndSize.restype = ctypes.py_object
_python.PyBytes_FromStringAndSize.argtypes = (ctypes.c_void_p, ctypes.c_ssize_t)


def _address_of(buffer: Any) -> int:
    info = _BufferInfo()
    _get_buffer(buffer, ctypes.byref(info), 0)
    address: int = info.address or 0
    _release(ctypes.byref(info))
    return address


def _address_of_text(text: str) -> int:
    return int(_utf8(text, None))


def _size_of_text(text: str) -> int:
    size = ctypes.c_ssize_t()
    _utf8(text, ctypes.byref(size))
    return size.value


#: The address of the bytes of a buffer, which the caller holds.
address_of: Callable[[Any], int] = FAST.address_of if FAST else _address_of
#: The address of the UTF-8 of a str, which Python keeps with it. UnicodeEncodeError.
address_of_text: Callable[[str], int] = FAST.address_of_text if FAST else _address_of_text
#: How many bytes stand there.
size_of_text: Callable[[str], int] = FAST.size_of_text if FAST else _size_of_text

#: So many bytes that are not written yet: C writes them before anybody has seen them.
unwritten: Callable[[int], bytes] = partial(_python.PyBytes_FromStringAndSize, None)

_rooms: list[tuple[int, memoryview]] = []


def _room(size: int) -> tuple[int, memoryview]:
    """Room for so many bytes: its address, and a view that holds it."""
    view = memoryview(bytearray(size) if size <= ROOM else unwritten(size))
    return _address_of(view), view


def _kept_room() -> tuple[int, memoryview]:
    """Room for ROOM bytes, which no other call has."""
    try:
        return _rooms.pop()
    except IndexError:
        return _room(ROOM)


def _written(function: Callable[..., Any], *taken: Any) -> tuple[Any, bytes]:
    """As `writer` says."""
    *given, size = taken
    buffer = address, view = _kept_room() if size <= ROOM else _room(size)
    found = function(*given, address, size)
    status = found.status
    made = view[: found.length].tobytes() if status == OK else b""
    if size <= ROOM:
        _rooms.append(buffer)
    if status == TOO_SHORT:
        return _written(function, *given, found.length)
    return found, made
