"""The C functions of libquayrudder.so, and the arrays that are lent to them."""
from __future__ import annotations

import ctypes
import functools
import mmap
import os
from typing import Any, Union

import numpy
from numpy.typing import NDArray

from . import places

Bytes = NDArray[numpy.uint8]
Pixels = NDArray[numpy.uint32]
Source = Union[str, "os.PathLike[str]", bytes, bytearray, memoryview, mmap.mmap]

_U32, _U64 = ctypes.c_uint32, ctypes.c_uint64


def _answer(name: str, narrow: str, wide: str = "") -> type[ctypes.Structure]:
    """A structure of quayrudder.h: its fields of 32 bits, and then those of 64."""
    fields = [(field, _U32) for field in narrow.split()] + [(field, _U64) for field in wide.split()]
    return type(name, (ctypes.Structure,), {"_fields_": fields})


_READ = _answer("qr_read_answer", "refusal place column rows columns", "end")
_WRITE = _answer("qr_write_answer", "refusal place column", "length")
_HEADER = _answer("qr_header_answer", "refusal place column format start rows columns width entries subtracted entry baseline underflows two four")
_MAR_ENTRY = _answer("qr_mar_entry_answer", "refusal is_float bits")
_DTREK_HEADER = _answer("qr_dtrek_header_answer", "refusal start rows columns width big_endian", "end")
_DTREK_ITEM = _answer("qr_dtrek_item_answer", "refusal found", "key_start key_end value_start value_end next")

# The answer of each function, and its parameters: a for an array, which passes as pointer and length, else the bits of a number.
_FUNCTIONS: dict[str, tuple[type[ctypes.Structure], str]] = {
    "qr_read": (_READ, "a a"),
    "qr_write": (_WRITE, "a a 32 32 a"),
    "qr_header": (_HEADER, "a"),
    "qr_mar_read": (_READ, "a a"),
    "qr_mar_entry": (_MAR_ENTRY, "a 32"),
    "qr_dtrek_read": (_READ, "a a"),
    "qr_dtrek_header": (_DTREK_HEADER, "a"),
    "qr_dtrek_item": (_DTREK_ITEM, "a 64"),
}
_TYPES: dict[str, list[Any]] = {"a": [ctypes.c_void_p, ctypes.c_size_t], "32": [_U32], "64": [_U64]}


@functools.lru_cache(maxsize=None)
def _function(name: str) -> Any:
    function = getattr(_library(), name)
    answer, parameters = _FUNCTIONS[name]
    function.restype = answer
    function.argtypes = [kind for word in parameters.split() for kind in _TYPES[word]]
    return function


@functools.lru_cache(maxsize=None)
def _library() -> ctypes.CDLL:
    return ctypes.CDLL(places.library())


def call(name: str, *arguments: Union[Bytes, Pixels, int]) -> Any:
    """A function of the library. Arrays are lent as they lie, so they must be contiguous."""
    words: list[Any] = []
    for argument in arguments:
        words += [argument.ctypes.data, argument.size] if isinstance(argument, numpy.ndarray) else [argument]
    return _function(name)(*words)


def lent(source: Source) -> tuple[Bytes, str | None]:
    """A file read into memory, with its name, or bytes where they lie."""
    if not isinstance(source, (str, os.PathLike)):
        return _array(source), None
    with open(source, "rb") as file:
        return _array(file.read()), os.fspath(source)


def _array(source: Union[bytes, bytearray, memoryview, mmap.mmap]) -> Bytes:
    return numpy.frombuffer(source, numpy.uint8) if len(source) else numpy.empty(0, numpy.uint8)
