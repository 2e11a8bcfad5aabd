"""Old names of methods, which warn. They go with the next minor version."""
from __future__ import annotations

import functools
import warnings
from typing import Any, Callable, TypeVar, cast

Method = TypeVar("Method", bound=Callable[..., Any])


def renamed(old: str, method: Method) -> Method:
    """Returns a method for the old name of another one. It warns, and calls the method that has the new name, which a class below may define anew."""
    new = method.__name__

    @functools.wraps(method)
    def warned(self: object, *given: Any, **named: Any) -> Any:
        warnings.warn("'%s' is called '%s' now, and the next minor version has no other name for it" % (old, new), DeprecationWarning, stacklevel=2)
        return getattr(self, new)(*given, **named)

    warned.__name__, warned.__doc__ = old, "The old name of `%s`." % new
    return cast(Method, warned)
