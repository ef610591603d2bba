"""The shared library, its calls, and sessions of it."""
import ctypes
import json
import os
import threading
from threading import get_ident
from typing import Dict, List, Optional, Tuple

from .errors import error_of

NAME = "libdalecolander.so"
HERE = os.path.dirname(os.path.abspath(__file__))

# Replies that are no longer need one call.
ROOM = 64 * 1024


def _candidates():
    named = os.environ.get("DALECOLANDER_LIBRARY")
    if named:
        yield named
    yield os.path.join(HERE, NAME)
    yield os.path.join(HERE, "..", "..", "..", "out", NAME)
    yield NAME


def _load() -> ctypes.CDLL:
    refused: Optional[OSError] = None
    for path in _candidates():
        if os.sep in path and not os.path.exists(path):
            continue
        try:
            return ctypes.CDLL(path)
        except OSError as error:
            refused = error
    raise OSError(f"{NAME} is not found: `./template --library` makes it, or DALECOLANDER_LIBRARY names it") from refused


_library = _load()


def _declared(name: str, result=ctypes.c_uint8):
    """A call of the library. Its arguments are handed over as they are, which takes half the time of having each converted: so they
    are objects of `ctypes`, or `bytes`."""
    call = getattr(_library, name)
    call.restype = result
    return call


_names = _declared("dalecolander_names")
_open = _declared("dalecolander_open")
_render_in = _declared("dalecolander_render_in")
_close = _declared("dalecolander_close", result=None)


class _Place:
    """A place for a reply, with its length. It is made anew where a reply does not fit, and the call is then made again."""

    def __init__(self, room: int = ROOM) -> None:
        self.room = room
        self.buffer = bytearray(room)
        self.written = ctypes.c_size_t()
        at = ctypes.byref((ctypes.c_char * room).from_buffer(self.buffer))
        self.arguments = (at, ctypes.c_size_t(room), ctypes.byref(self.written))


class _Thread(threading.local):
    """What belongs to one thread: places that no call is using, so that a call from a signal handler takes another one."""

    def __init__(self) -> None:
        self.places: List[_Place] = []


_here = _Thread()


def text_of(text: bytes) -> Tuple[bytes, ctypes.c_size_t]:
    """A text as two arguments of a call."""
    return bytes(text), ctypes.c_size_t(len(text))


def _reply(places: List[_Place], call, *arguments) -> str:
    """The reply of a call, or the error that it tells."""
    place = places.pop() if places else _Place()
    status = call(*arguments, *place.arguments)
    written = place.written.value
    if written > place.room:
        place = _Place(2 * written)
        status = call(*arguments, *place.arguments)
        written = place.written.value
    text = place.buffer[:written].decode()
    places.append(place)
    if status:
        raise error_of(status, json.loads(text) if text else {})
    return text


# Sessions that were given up elsewhere, for the thread that opened them.
_left: Dict[int, List[ctypes.c_void_p]] = {}


class Session:
    """Templates that are compiled once. It stays on the thread that opened it."""

    def __init__(self, request: bytes) -> None:
        self._handle: Optional[ctypes.c_void_p] = None
        self._thread = get_ident()
        for left in _left.pop(self._thread, ()):
            _close(ctypes.byref(left))
        handle = ctypes.c_void_p()
        self._at = ctypes.byref(handle)
        self._places = _here.places
        _reply(self._places, _open, *text_of(request), self._at)
        self._handle = handle

    def render(self, name: Tuple[bytes, ctypes.c_size_t], context: bytes) -> str:
        """The text of the template of a name, by its arguments, over a context, which is JSON."""
        if get_ident() != self._thread:
            raise RuntimeError("a session stays on the thread that opened it")
        return _reply(self._places, _render_in, self._at, *name, bytes(context), ctypes.c_size_t(len(context)))

    def __del__(self) -> None:
        if self._handle is None:
            return
        if get_ident() == self._thread:
            _close(self._at)
        else:
            _left.setdefault(self._thread, []).append(self._handle)


def names_of(request: bytes) -> List[str]:
    """The names of a context that can matter to the main template of a request."""
    return json.loads(_reply(_here.places, _names, *text_of(request)))
