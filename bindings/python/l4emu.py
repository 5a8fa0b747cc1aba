"""The emulator of the Ipc system call of L4 X.2, in the process of a Python test.

    >>> import l4emu
    >>> text = open("examples/locks.l4").read()
    >>> l4emu.call("endings", "m.l4", "--stuck", "--none", files={"m.l4": text}).status
    4

A call does what the program `l4run` does with the same words. The files that the words name are texts in memory, at most
three. It touches no file and starts no thread. A run goes in rounds: it prints what `replay --schedule '' --then-rest`
prints.

The library is that of the variable `L4EMU`, or else that which was made beside this file, or lies where the package puts
it.
"""

import ctypes
import os
import pathlib
from dataclasses import dataclass

__all__ = ["Answer", "call", "lengths"]

# From the folder of this file: of a clone, and of the package or the tarball.
_PLACES = ("../out/libl4emu.so", "../../../../../lib/x86_64-linux-gnu/l4run/libl4emu.so")
_MOST_FILES = 3
_ROOM = (1 << 16, 1 << 12, 1 << 12)


class _Lengths(ctypes.Structure):
    _fields_ = [("out", ctypes.c_size_t), ("faults", ctypes.c_size_t), ("recorded", ctypes.c_size_t)]


def _library():
    folder = pathlib.Path(__file__).resolve().parent
    places = [place for place in (folder / name for name in _PLACES) if place.exists()]
    name = os.environ.get("L4EMU") or next(iter(places), None)
    if name is None:
        raise OSError(f"there is no {_PLACES[0]} beside {folder}: `./x bindings` makes it, and L4EMU may name another")
    library = ctypes.CDLL(str(name))
    given = [ctypes.c_char_p, ctypes.c_size_t] * (1 + 2 * _MOST_FILES)
    library.l4emu_perform.argtypes = [*given, *[ctypes.c_void_p, ctypes.c_size_t] * 3, ctypes.POINTER(_Lengths)]
    library.l4emu_perform.restype = ctypes.c_uint8
    return library


_LIBRARY = _library()


@dataclass(frozen=True)
class Answer:
    """What a call answered: the exit status of the program, and the bytes of the output, of the faults and of the list that is recorded."""

    status: int
    out: bytes
    faults: bytes
    recorded: bytes

    @property
    def lines(self):
        """The lines of the output."""
        return self.out.decode(errors="replace").splitlines()

    @property
    def fault(self):
        """The faults as text, without the line end behind them."""
        return self.faults.decode(errors="replace").rstrip("\n")


def _bytes(text):
    return text.encode() if isinstance(text, str) else bytes(text)


def _given(words, files):
    """The arguments of a call but for its buffers."""
    words = [_bytes(word) for word in words]
    if any(b"\0" in word for word in words):
        raise ValueError("a word has a byte 0")
    if len(files) > _MOST_FILES:
        raise ValueError("more than three files")
    parts = [b"".join(word + b"\0" for word in words)]
    for name, text in files.items():
        parts += [_bytes(name), _bytes(text)]
    parts += [b""] * (1 + 2 * _MOST_FILES - len(parts))
    return [argument for part in parts for argument in (part, len(part))]


def _perform(given, buffers):
    lengths = _Lengths()
    rooms = [argument for buffer in buffers for argument in (ctypes.addressof(buffer), len(buffer))]
    status = _LIBRARY.l4emu_perform(*given, *rooms, ctypes.byref(lengths))
    return status, (lengths.out, lengths.faults, lengths.recorded)


def call(*words, files=None):
    """Does what the words ask for on these files, a dict of texts or bytes by name."""
    given, rooms = _given(words, files or {}), _ROOM
    while True:
        buffers = [ctypes.create_string_buffer(room) for room in rooms]
        status, lengths = _perform(given, buffers)
        if all(length <= len(buffer) for length, buffer in zip(lengths, buffers)):
            return Answer(status, *(buffer.raw[:length] for length, buffer in zip(lengths, buffers)))
        rooms = [max(length, room) for length, room in zip(lengths, _ROOM)]


def lengths(*words, files=None, buffers=(b"", b"", b"")):
    """The status of a call, and the lengths of what goes to the output, to the faults and into the record. Each of these is put into its buffer, a
    bytearray, if it fits there."""
    rooms = [(ctypes.c_char * max(len(it), 1)).from_buffer(it if isinstance(it, bytearray) and it else bytearray(1)) for it in buffers]
    given = _given(words, files or {})
    found = _Lengths()
    arguments = [argument for room, it in zip(rooms, buffers) for argument in (ctypes.addressof(room), len(it))]
    status = _LIBRARY.l4emu_perform(*given, *arguments, ctypes.byref(found))
    return status, (found.out, found.faults, found.recorded)
