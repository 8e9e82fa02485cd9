"""How values pass between Python and the C library: each one by the type that `_c` declares for it.

- `bytes`, `bytearray` and `memoryview` are bytes with a length, or an Ethernet address.
- An int, an enum and a bool are numbers.
- Addresses of `ipaddress` are `struct lk_addr`, and interfaces and networks are `struct lk_prefix`.
- Objects of a class with `@represents` are the struct, by the names of its fields. None is a field whose `has_..` is 0.
- Tuples are the other structs and arrays, by position.

A value of another type raises TypeError, and one that does not fit raises ValueError.
"""
from __future__ import annotations

import ctypes
import operator
import struct
from ctypes import c_int, c_int32, c_int64, c_size_t, c_uint8, c_uint16, c_uint32, c_uint64
from enum import IntEnum
from functools import lru_cache, partial
from ipaddress import IPv4Address, IPv4Interface, IPv4Network, IPv6Address, IPv6Interface, IPv6Network
from typing import Any, Callable, Dict, Iterable, List, Tuple, Type, TypeVar, Union, get_type_hints

from . import _c as c

Address = Union[IPv4Address, IPv6Address]
Prefix = Union[IPv4Interface, IPv6Interface]
AnyPrefix = Union[Prefix, IPv4Network, IPv6Network]
Data = Union[bytes, bytearray, memoryview]
T = TypeVar("T")

_NUMBERS = {c_int, c_int32, c_int64, c_size_t, c_uint8, c_uint16, c_uint32, c_uint64}
_LETTERS = {1: "B", 2: "H", 4: "I", 8: "Q"}  # of unsigned numbers, by their size
_classes: Dict[Any, type] = {}  # of a struct, the class that represents it


class WireError(ValueError):
    """A call of the library failed. `name` is the name of the failure in ip_wire.h, as "LK_EMIT_PORT_ZERO"."""

    def __init__(self, name: str) -> None:
        super().__init__(name)
        self.name = name


class NamedInt(IntEnum):
    """An enum that prints as its name in each version of Python. A format such as "d" prints the number."""

    def __str__(self) -> str:
        return self.name

    def __format__(self, spec: str) -> str:
        return format(self.value if spec[-1:] in set("bcdnoxX") else str(self), spec)


def represents(struct: Any) -> Callable[[Type[T]], Type[T]]:
    """Declares the class whose objects have the fields of a struct."""

    def declare(cls: Type[T]) -> Type[T]:
        _classes[struct] = cls
        return cls

    return declare


# ---- to C


def _wrong_type(what: str, wanted: str, value: Any) -> TypeError:
    return TypeError(f"{what}: {wanted} is needed, not {type(value).__name__}")


def data_of(value: Data, what: str = "data") -> bytes:
    """The bytes, which no other thread can change while a call reads them."""
    try:
        return value if isinstance(value, bytes) else bytes(memoryview(value))
    except TypeError:
        raise _wrong_type(what, "bytes", value) from None


def number_of(kind: Any, value: Any, what: str) -> int:
    """The number, which has to fit: ctypes would cut it."""
    try:
        number = operator.index(value)
    except TypeError:
        raise _wrong_type(what, "an int", value) from None
    if kind(number).value != number:
        raise ValueError(f"{what}: {number} is out of range")
    return number


def member_of(enum: Callable[[int], T], value: Any, what: str) -> T:
    """The member of an enum with this number."""
    return enum(number_of(c_int, value, what))


def to_c(kind: Any, value: Any, what: str, **others: Any) -> Any:
    """The value as a type of ctypes. `others` are fields of a struct that replace those of the value."""
    if kind in _NUMBERS:
        return number_of(kind, value, what)
    if isinstance(value, kind):
        return value
    if kind is c.Addr:
        return _addr(value, what)
    if kind is c.Prefix:
        return _block(value, what)
    if issubclass(kind, ctypes.Array):
        return _array(kind, value, what)
    return _struct(kind, {**_fields(kind, value, what), **others})


def _addr(value: Any, what: str) -> Any:
    if not isinstance(value, (IPv4Address, IPv6Address)):
        raise _wrong_type(what, "an IP address", value)
    return c.Addr((c_uint8 * 16)(*value.packed), value.version)


def _block(value: Any, what: str) -> Any:
    if isinstance(value, (IPv4Network, IPv6Network)):
        return c.Prefix(_addr(value.network_address, what), value.prefixlen)
    if not isinstance(value, (IPv4Interface, IPv6Interface)):
        raise _wrong_type(what, "an IP interface or network", value)
    return c.Prefix(_addr(value.ip, what), value.network.prefixlen)


def _array(kind: Any, value: Any, what: str) -> Any:
    """All elements of an array of bytes, or the first ones of another array."""
    if kind._type_ is c_uint8:
        data = data_of(value, what)
        if len(data) != kind._length_:
            raise ValueError(f"{what}: {kind._length_} bytes are needed, not {len(data)}")
        return kind(*data)
    if not isinstance(value, (tuple, list)):
        raise _wrong_type(what, "a tuple", value)
    if len(value) > kind._length_:
        raise ValueError(f"{what}: {len(value)} are too many")
    return kind(*(to_c(kind._type_, element, what) for element in value))


def _fields(kind: Any, value: Any, what: str) -> Dict[str, Any]:
    """The fields of an object by their names."""
    cls = _classes.get(kind, tuple)
    if not issubclass(cls, tuple) and isinstance(value, cls):
        return vars(value)
    if not issubclass(cls, tuple) or not isinstance(value, tuple):
        raise _wrong_type(what, cls.__name__, value)
    if len(value) != len(kind._fields_):
        raise ValueError(f"{what}: {len(kind._fields_)} values are needed, not {len(value)}")
    return {name: element for (name, _), element in zip(kind._fields_, value)}


@lru_cache(maxsize=None)
def _members(kind: Any) -> Dict[str, Tuple[Any, bool]]:
    """Of each field of a struct its type, and whether another field says if it is present."""
    return {name: (field, hasattr(kind, "has_" + name)) for name, field in kind._fields_}


def _struct(kind: Any, given: Dict[str, Any]) -> Any:
    """The struct with these values. Those without a field of the struct are left out."""
    result, members = kind(), _members(kind)
    for name, value in given.items():
        field, is_optional = members.get(name, (None, False))
        if field is None or is_optional and value is None:
            continue
        setattr(result, name, to_c(field, value, name))
        if is_optional:
            setattr(result, "has_" + name, 1)
    return result


# ---- from C


def address_of(octets: bytes) -> Any:
    """The address in the bytes of a `struct lk_addr`, or None."""
    version = octets[16]
    if version == 4:
        return IPv4Address(int.from_bytes(octets[:4], "big"))
    return IPv6Address(int.from_bytes(octets[:16], "big")) if version == 6 else None


def _format(kind: Any, names: Iterable[str]) -> str:
    """The format of these fields of a struct for the module `struct`: numbers, and bytes for arrays and structs."""
    found, end = "=", 0
    for name in names:
        field = getattr(kind, name)
        is_number = _members(kind)[name][0] in _NUMBERS
        found += f"{field.offset - end}x" + (_LETTERS[field.size] if is_number else f"{field.size}s")
        end = field.offset + field.size
    return found


def _maker(cls: Any, names: Iterable[str]) -> Callable[[Iterable[Any]], Any]:
    """The function that makes an object of a class from the values of its fields, without a call of its `__init__`."""
    if issubclass(cls, tuple):
        return partial(tuple.__new__, cls)

    def make(values: Iterable[Any]) -> Any:
        found = object.__new__(cls)
        found.__dict__.update(zip(names, values))
        return found

    return make


@lru_cache(maxsize=None)
def reader(cls: Callable[..., T], kind: Any) -> Callable[[Any, int], T]:
    """The function that makes the object of a class from a struct, which begins at a place of some memory."""
    hints, members = get_type_hints(cls), _members(kind)
    names = [name for name in members if name in hints or name.startswith("has_") and name[len("has_") :] in hints]
    unpack = struct.Struct(_format(kind, names)).unpack_from
    arranged, make = operator.itemgetter(*map(names.index, hints)), _maker(cls, [*hints])
    optional = [(names.index(name), names.index("has_" + name)) for name in hints if members[name][1]]
    converted: List[Tuple[int, Callable[[Any], Any]]] = []
    for name, hint in hints.items():
        if members[name][0] is c.Addr:
            converted.append((names.index(name), address_of))
        elif hint not in (int, bytes) and isinstance(hint, type):
            converted.append((names.index(name), lru_cache(maxsize=256)(hint)))  # to call an enum is slow

    def read(memory: Any, place: int) -> Any:
        values = [*unpack(memory, place)]
        for at, convert in converted:
            values[at] = convert(values[at])
        for at, has in optional:
            if not values[has]:
                values[at] = None
        return make(arranged(values))

    return read


def from_c(cls: Callable[..., T], value: Any) -> T:
    """The object with the fields of a struct."""
    return reader(cls, value.__class__)(value, 0)


# ---- calls


def call(name: str, *values: Any) -> int:
    """Calls the library with these values. A buffer is given without its length. What is written, and memory that is read
    without a copy, are arrays of ctypes."""
    arguments: List[Any] = []
    for kind, value in zip(c.CALLS[name][1:], values):
        if isinstance(kind, tuple):
            memory = data_of(value) if kind is c.DATA and not isinstance(value, ctypes.Array) else value
            arguments += memory, len(memory)
        else:
            arguments.append(to_c(kind, value, name[len("lk_") :]))
    result: int = getattr(c.library, name)(*arguments)
    return result


def copied(frame: Data) -> Any:
    """A copy of the frame, for a call that changes it."""
    data = data_of(frame)
    return (c_uint8 * len(data)).from_buffer_copy(data)


def succeeded(result: int) -> int:
    """The result of a call, unless it is a failure."""
    if result < 0:
        raise WireError(c.library.lk_failure_name(result).decode())
    return result


def written(cap: int, name: str, *values: Any) -> bytes:
    """What a call writes into a buffer of this size."""
    out = ctypes.create_string_buffer(cap)
    length = succeeded(call(name, *values, out))
    return out.raw[:length]


def parsed(value: Any, name: str, text: str) -> Any:
    """The value, which is of ctypes, that a call parses from a text."""
    if not isinstance(text, str):
        raise _wrong_type(name[len("lk_") :], "a text", text)
    if not call(name, text.encode(errors="surrogatepass"), value):
        raise ValueError(f"the text does not parse: {text!r}")
    return value
