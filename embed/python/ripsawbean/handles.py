"""The library, and what has a handle of it."""

import ctypes
import os
import threading
import types
import warnings
from typing import Any, Callable, List, Optional, Type, TypeVar

from .errors import Error, NoMemory, error_of


VERSION = "0.1.0"
# What the system's loader finds: the number is that of the library's ABI.
INSTALLED = "libripsawbean.so.0"


class Handle(ctypes.Structure):
    _fields_ = [("at", ctypes.c_void_p), ("is_open", ctypes.c_bool)]


def _find() -> str:
    named = os.environ.get("RIPSAWBEAN_LIBRARY")
    if named:
        return named
    here = os.path.dirname(os.path.abspath(__file__))
    for folder in (here, os.path.dirname(here), os.path.join(here, os.pardir, os.pardir, "out")):
        path = os.path.join(folder, "libripsawbean.so")
        if os.path.exists(path):
            return path
    return INSTALLED


def _load() -> ctypes.CDLL:
    try:
        library = ctypes.CDLL(_find())
    except OSError as error:
        how = "run embed/build, install libripsawbean0, or name the library in RIPSAWBEAN_LIBRARY"
        raise OSError("%s: %s" % (error, how)) from None
    _refuse_another(library)
    return library


def _refuse_another(library: ctypes.CDLL) -> None:
    """Refuses a library of another version than this module, because they may not agree on what a call takes."""
    if not hasattr(library, "ripsawbean_version"):
        raise OSError("%s tells no version, and this module is of %s" % (library._name, VERSION))
    library.ripsawbean_version.restype = ctypes.c_uint32
    told = library.ripsawbean_version()
    version = "%d.%d.%d" % (told >> 16, told >> 8 & 255, told & 255)
    if version != VERSION:
        raise OSError("%s is of version %s, and this module of %s" % (library._name, version, VERSION))


def _check(status: Optional[int], *_: object) -> None:
    if status:
        raise error_of(status)


def functions(prefix: str, **arguments: List[Any]) -> types.SimpleNamespace:
    """Functions of the library, by name, with what they take behind the handle. All but `calls` raise where their status isn't 0."""
    for name, kinds in arguments.items():
        function = getattr(LIBRARY, prefix + name)
        function.argtypes = [ctypes.POINTER(Handle), *kinds]
        function.restype = None if name == "close" else ctypes.c_uint8
        if name != "calls":  # whose status ends a list
            function.errcheck = _check
    return types.SimpleNamespace(**{name: getattr(LIBRARY, prefix + name) for name in arguments})


LIBRARY = _load()
SIZE, TIME = ctypes.c_size_t, ctypes.c_uint64
BYTES, ROOM, TIME_AT = [ctypes.c_char_p, SIZE], [ctypes.c_void_p, SIZE, ctypes.POINTER(SIZE)], ctypes.POINTER(TIME)
NONE = (1 << 64) - 1
MOST_ROWS = 32768  # of a scan that `Database.calls` lets through
_Self = TypeVar("_Self", bound="Opened")


class Opened:
    """What has a handle of the library, and room for what the library shows. Calls of several threads take turns.

    A context manager closes it at the end of its block.
    """

    _free: Callable[..., None]
    _wanting: Type[Error] = NoMemory

    def __init__(self) -> None:
        # It is held from a call until what it shows is read.
        self._turn = threading.Lock()
        self._handle = Handle()
        self._at = ctypes.byref(self._handle)
        self._length = SIZE()
        self._length_at = ctypes.byref(self._length)
        self._make_room(4096)

    @property
    def is_open(self) -> bool:
        return self._handle.is_open

    def close(self) -> None:
        """Frees it. A closed one stays closed."""
        with self._turn:
            self._free(self._at)

    def __enter__(self: _Self) -> _Self:
        return self

    def __exit__(self, *_: object) -> None:
        self.close()

    def __del__(self) -> None:
        if getattr(self, "_handle", None) is not None and self._handle.is_open:
            warnings.warn("a ripsawbean.%s was not closed" % type(self).__name__, ResourceWarning, source=self)
            self._free(self._at)

    def _show(self, show: Callable[..., None], *asked: object) -> bytes:
        """What a function of the library shows."""
        show(self._at, *asked, self._out_at, self._room, self._length_at)
        return self._shown(show, *asked)

    def _shown(self, again: Callable[..., None], *asked: object) -> bytes:
        """What was shown, which is asked for again where it found too little room."""
        while self._length.value > self._room:
            try:
                self._make_room(2 * self._length.value)
            except MemoryError:
                raise self._wanting("Python has no memory for it") from None
            again(self._at, *asked, self._out_at, self._room, self._length_at)
        return ctypes.string_at(self._out, self._length.value)

    def _make_room(self, room: int) -> None:
        self._out = ctypes.create_string_buffer(room)
        self._out_at = ctypes.addressof(self._out)
        self._room = room
