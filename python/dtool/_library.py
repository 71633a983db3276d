"""libdtool.so by ctypes: its structs and its calls, as dtool.h declares them."""
import ctypes
import os
from ctypes import POINTER, c_bool, c_char_p, c_size_t, c_uint32, c_uint64
from typing import Callable, Dict

#: Words of the table that dtool_check is lent. It uses no more.
TABLE_WORDS = 16384


class CFault(ctypes.Structure):
    _fields_ = [("number", c_uint32), ("has_place", c_bool), ("place", c_size_t)]


class CSpan(ctypes.Structure):
    _fields_ = [("at", c_size_t), ("len", c_size_t)]


class CProperty(ctypes.Structure):
    _fields_ = [("name", CSpan), ("value", CSpan)]


class CCounts(ctypes.Structure):
    _fields_ = [("nodes", c_size_t), ("properties", c_size_t), ("reservations", c_size_t)]


class CReservation(ctypes.Structure):
    _fields_ = [("address", c_uint64), ("size", c_uint64)]


class CRegion(ctypes.Structure):
    _fields_ = [("address_low", c_uint64), ("address_high", c_uint64), ("size_low", c_uint64), ("size_high", c_uint64), ("whole", c_bool)]


class CRoute(ctypes.Structure):
    _fields_ = [("controller", c_size_t), ("cells", c_uint32 * 8), ("len", c_size_t), ("hops", c_size_t)]


_BLOB = [c_char_p, c_size_t]
_NODE = [*_BLOB, c_size_t]
_TEXT = [c_char_p, c_size_t]
_FAULT = POINTER(CFault)
_OUT = POINTER(c_size_t)

#: Each call of the library that is made here: its result, and its parameters.
_CALLS = {
    "check": (c_bool, [*_BLOB, POINTER(c_uint64), c_size_t, _FAULT]),
    "root": (c_size_t, _BLOB),
    "node_at": (c_bool, [*_BLOB, *_TEXT, _OUT, _FAULT]),
    "parent": (c_bool, [*_NODE, _OUT]),
    "child": (c_bool, [*_NODE, *_TEXT, _OUT]),
    "first_child": (c_bool, [*_NODE, _OUT]),
    "next_sibling": (c_bool, [*_NODE, _OUT]),
    "by_phandle": (c_bool, [*_BLOB, c_uint32, _OUT]),
    "name": (CSpan, _NODE),
    "path": (c_bool, [*_NODE, c_char_p, c_size_t]),
    "value": (c_bool, [*_NODE, *_TEXT, POINTER(CSpan)]),
    "property": (c_bool, [*_NODE, c_uint64, POINTER(CProperty)]),
    "count": (CCounts, _BLOB),
    "reservation": (c_bool, [*_BLOB, c_uint64, POINTER(CReservation)]),
    "boot_cpu": (c_uint32, _BLOB),
    "region": (c_bool, [*_NODE, c_uint64, POINTER(CRegion), _FAULT]),
    "dma_region": (c_bool, [*_NODE, c_uint64, c_uint64, c_uint64, c_uint64, POINTER(CRegion), _FAULT]),
    "route": (c_bool, [*_NODE, c_uint64, POINTER(CRoute), _FAULT]),
    "interrupt_at": (c_bool, [*_NODE, c_uint64, POINTER(CRoute), _FAULT]),
    "specifier_route": (c_bool, [*_NODE, *_TEXT, *_TEXT, c_uint64, POINTER(CRoute), _FAULT]),
    "specifier_at": (c_bool, [*_NODE, *_TEXT, *_TEXT, c_uint64, POINTER(CRoute), _FAULT]),
    "open_into": (c_bool, [*_BLOB, *_TEXT, _FAULT]),
    "set_prop": (c_bool, [*_NODE, *_TEXT, *_TEXT, _FAULT]),
    "add_node": (c_bool, [*_NODE, *_TEXT, _OUT, _FAULT]),
    "patch_cell": (c_bool, [*_NODE, *_TEXT, c_size_t, c_uint32, _FAULT]),
}


def _path() -> str:
    """Where libdtool.so is: what DTOOL_LIBRARY names, a file or its folder, else beside this module. Never below the working folder."""
    named = os.environ.get("DTOOL_LIBRARY")
    if not named:
        return os.path.join(os.path.dirname(os.path.abspath(__file__)), "libdtool.so")
    if not os.path.isabs(named):
        raise ImportError(f"DTOOL_LIBRARY is no absolute path: {named}")
    return os.path.join(named, "libdtool.so") if os.path.isdir(named) else named


def _load() -> Dict[str, Callable]:
    """The calls of the library. Raises ImportError where it isn't there."""
    try:
        library = ctypes.CDLL(_path())
        calls = {}
        for name, (result, parameters) in _CALLS.items():
            call = getattr(library, f"dtool_{name}")
            call.restype, call.argtypes = result, parameters
            calls[name] = call
    except (OSError, AttributeError) as why:
        raise ImportError(f"{why}; tools/build --library makes libdtool.so, and DTOOL_LIBRARY names it") from why
    return calls


CALLS = _load()
