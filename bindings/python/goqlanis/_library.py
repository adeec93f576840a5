"""The C library through ctypes: its structs and calls, as in bindings/c/goqlanis.h."""
import ctypes
import ctypes.util
import os
from typing import Any, Callable, Dict

from ._numbers import CALLS, STRUCTS, VERSION

MAJOR = 10000  # what one step of the major version adds to a version's number

_number, _size = ctypes.c_uint32, ctypes.c_size_t
_TYPES: Dict[str, Any] = {"": _number, "size": _size, "data": ctypes.c_char_p}


def _struct(name: str, fields: str) -> Any:
    pairs = (it.partition(":") for it in fields.split())
    own = {"_fields_": [(field, _TYPES[kind]) for field, _, kind in pairs]}
    _TYPES[name] = type(name, (ctypes.Structure,), own)
    return _TYPES[name]


(Options, Several, Drawing, Known, Segment, Field, Element, Read, AnyRead, Part, Code, Scan,
 MissedCode, WrongModules, DataBits, Rank, Checked, Checks, Square, Rectangle, AreaUse, Wish, Wrong,
 Promised) = (_struct(*it) for it in STRUCTS.items())

_KINDS = {"number": _number, "size": _size, "data": ctypes.c_void_p,
          "numbers": ctypes.POINTER(_number), "sizes": ctypes.POINTER(_size),
          **{name: ctypes.POINTER(_TYPES[name]) for name in STRUCTS}}


def _load() -> ctypes.CDLL:
    """Loads the library of GOQLANIS_LIB, or else the one next to this file, or the system's."""
    beside = os.path.join(os.path.dirname(os.path.abspath(__file__)), "libgoqlanis.so.1")
    beside = beside if os.path.exists(beside) else ""
    found = os.environ.get("GOQLANIS_LIB") or beside or ctypes.util.find_library("goqlanis")
    if not found:
        raise ImportError("libgoqlanis.so.1 not found: set GOQLANIS_LIB to its path")
    loaded = ctypes.CDLL(found)
    own = loaded.goq_version() if hasattr(loaded, "goq_version") else 0
    if own // MAJOR != VERSION // MAJOR:
        raise ImportError(f"{found} is not version {VERSION // MAJOR} of libgoqlanis, which this "
                          "package needs: take the library of the same release")
    for name, arguments in CALLS.items():
        if not hasattr(loaded, name):
            setattr(loaded, name, _lacking(found, name))
        call = getattr(loaded, name)
        call.argtypes, call.restype = [_KINDS[it] for it in arguments.split()], _number
    loaded.goq_is_functional.restype = ctypes.c_bool
    loaded.goq_picture_length.restype = _size
    return loaded


def _lacking(found: str, name: str) -> Callable[..., int]:
    """Returns a stand-in for a call that an older library does not have."""
    def call(*given: Any) -> int:
        raise NotImplementedError(f"{found} has no {name}: it is older than this package")
    return call


library = _load()
