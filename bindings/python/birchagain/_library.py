"""The calls of bindings/c/birchagain.h, by ctypes alone.

The library is the file that the environment variable BIRCHAGAIN_LIBRARY names, else the one that lies beside this file.
"""

import ctypes
import os

_FILE = os.environ.get("BIRCHAGAIN_LIBRARY") or os.path.join(os.path.dirname(os.path.abspath(__file__)), "libbirchagain.so")
_LIBRARY = ctypes.CDLL(_FILE)


class Handle(ctypes.Structure):
    """A place for an index: all zero bytes are an empty one."""

    _fields_ = [("at", ctypes.c_void_p)]


class Hit(ctypes.Structure):
    """A document that was found, and its score."""

    _fields_ = [("document", ctypes.c_uint64), ("score", ctypes.c_int64)]


_INDEX = ctypes.POINTER(Handle)
_BYTES = (ctypes.c_char_p, ctypes.c_size_t)
_ROOM = (ctypes.c_void_p, ctypes.c_size_t)
# the number of its language, and its text
_QUERY = (ctypes.c_uint32, *_BYTES)
_COUNT = ctypes.POINTER(ctypes.c_size_t)
_WORDS = (*_BYTES, ctypes.c_void_p, ctypes.c_size_t)


def _call(name, *parameters, result=ctypes.c_uint32):
    found = getattr(_LIBRARY, f"birchagain_{name}")
    found.argtypes, found.restype = parameters, result
    return found


open_index = _call("open", _INDEX)
free = _call("free", _INDEX, result=None)
add_text = _call("add_text", _INDEX, *_BYTES)
add_words = _call("add_words", _INDEX, *_WORDS)
add_placed = _call("add_placed", _INDEX, *_WORDS, *_ROOM, *_ROOM, ctypes.c_uint8)
delete = _call("delete", _INDEX, ctypes.c_uint64)
end_segment = _call("end_segment", _INDEX)
refresh = _call("refresh", _INDEX)
documents = _call("documents", _INDEX, ctypes.POINTER(ctypes.c_uint64))
weigh = _call("weigh", _INDEX, *_BYTES, ctypes.c_int64)
set_norms = _call("set_norms", _INDEX, *_ROOM)
frequencies = _call("frequencies", _INDEX, *_WORDS, *_ROOM)
count = _call("count", _INDEX, *_QUERY, ctypes.POINTER(ctypes.c_uint64))
top = _call("top", _INDEX, *_QUERY, *_ROOM, _COUNT)
page = _call("page", _INDEX, *_QUERY, ctypes.c_uint64, *_ROOM, _COUNT)
query_words = _call("query_words", *_QUERY, *_ROOM, *_ROOM, _COUNT, _COUNT)
check_query = _call("check_query", *_QUERY, _COUNT)
merge = _call("merge", *_ROOM, *_ROOM, ctypes.c_uint64, *_ROOM, _COUNT)
to_bytes = _call("to_bytes", _INDEX, ctypes.c_uint64, *_ROOM, *_ROOM, _COUNT)
from_bytes = _call("from_bytes", _INDEX, *_BYTES)
rarity = _call("rarity", ctypes.c_uint64, ctypes.c_uint64, result=ctypes.c_uint64)
status_text = _call("status_text", ctypes.c_uint32, *_ROOM, result=ctypes.c_size_t)
