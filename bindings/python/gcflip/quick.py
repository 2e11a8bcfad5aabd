"""Finds the extension, which makes short calls on a heap faster than `ctypes` does. Without it `ctypes` makes all calls."""
from __future__ import annotations

import ctypes
import sys
from typing import TYPE_CHECKING, Any, Callable, TypeVar

from . import library

try:
    if sys.version_info < (3, 10):
        raise ImportError("the extension is for Python 3.10 and later")
    from . import _quick
    HAS_EXTENSION = True
except ImportError:
    HAS_EXTENSION = False

if TYPE_CHECKING or HAS_EXTENSION:
    Flag = _quick.Flag
else:
    class Flag:
        """What says that a call on a heap is under way."""

        busy = False

Made = TypeVar("Made", bound="Quickened")
# The class of each object that is made of a class, where the extension makes its short calls.
_below: dict[type, type] = {}


class Quickened:
    """A class whose objects make short calls on a heap by the extension, if it is there."""

    def __new__(cls: type[Made], *_given: Any, **_named: Any) -> Made:
        made: Made = object.__new__(_below.get(cls, cls))
        return made


def quicken(heap: type, mutator: type, object_class: type) -> None:
    """Puts the extension's methods before those of the two classes. Where a call is not an ordinary one, they call the methods of the classes."""
    if HAS_EXTENSION:
        classes = {cls.__name__: cls for cls in (heap, mutator)}
        functions: dict[str, Callable[..., Any]] = {}
        for name in _quick.FUNCTIONS:
            of, _, method = name.partition(".")
            functions[name] = getattr(classes[of], method)
        _quick.defer(functions, object_class)
        for cls, methods in ((heap, _quick.Roots), (mutator, _quick.Slots)):
            _below[cls] = type(cls.__name__, (methods, cls), {"__doc__": cls.__doc__, "__module__": cls.__module__})


def bind(caller: Quickened, handle: library.Handle, turn: Flag, mutator: int) -> None:
    """Lets the extension make the short calls of a heap or of a mutator, if it is there and the mutator's number can be one."""
    if HAS_EXTENSION and isinstance(caller, _quick.Caller) and isinstance(mutator, int) and 0 <= mutator < 256:
        if not _begun:
            loaded = library.opened(library.place())
            _quick.begin({name: ctypes.cast(getattr(loaded, "gcflip_" + name), ctypes.c_void_p).value for name in _quick.CALLS})
            _begun.append(loaded)
        caller._bind(handle, ctypes.addressof(handle), turn, mutator)


# The library whose calls the extension has.
_begun: list[ctypes.CDLL] = []
