"""Contexts of Python values, as JSON."""
import collections.abc
import json
from json import encoder
from typing import Any, Callable


def _other(value: Any) -> Any:
    """What stands for a value that `json` does not know."""
    if isinstance(value, collections.abc.Mapping):
        return dict(value)
    if isinstance(value, collections.abc.Iterable) and not isinstance(value, (bytes, bytearray, memoryview)):
        return list(value)
    raise TypeError(f"a {type(value).__name__} is no value of a context")


def _made() -> Callable[[Any], str]:
    """What writes a value as JSON. `JSONEncoder` makes its encoder anew at each call, which takes longer than to write a few names: so
    this is that encoder, made once, where this Python has one."""
    try:
        pieces = encoder.c_make_encoder(None, _other, encoder.encode_basestring, None, ":", ",", False, False, False)
        if "".join(pieces({"a": [1]}, 0)) == '{"a":[1]}':
            return lambda value: "".join(pieces(value, 0))
    except (AttributeError, TypeError):
        pass
    return json.JSONEncoder(ensure_ascii=False, separators=(",", ":"), default=_other, allow_nan=False, check_circular=False).encode


_written = _made()


def json_of(value: Any) -> bytes:
    """The JSON of a value."""
    return _written(value).encode()
