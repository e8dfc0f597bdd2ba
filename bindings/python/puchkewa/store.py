"""Named states of a listing: up to eight tapes, each under a name of 8 bytes."""
from __future__ import annotations

import ctypes
import threading
from typing import Optional

from . import tape
from .library import LIBRARY, RESTORED, STORE, room
from .listing import Listing


class Store:
    """A store of named states. Its bytes can be kept in a file; docs/TAPE.md says what they are. Whether bytes are a store is asked by each
    call: 2 of fewer than 524,288 bytes, 22 of damaged ones. A name is 8 bytes of any kind, otherwise it is a ValueError. Calls on one store
    wait for each other."""

    def __init__(self, held: Optional[bytes] = None) -> None:
        self._bytes = bytearray(STORE) if held is None else bytearray(held)
        self._lock = threading.Lock()

    def __bytes__(self) -> bytes:
        return bytes(self._bytes)

    def save(self, name: bytes, listing: Listing) -> None:
        """Saves a listing under a name, in the place of what is held under it. Refusal: 2, 22; the tape's questions; 21, the name is new,
        and eight states are held."""
        self.save_tape(name, tape.write(listing))

    def save_tape(self, name: bytes, held: bytes) -> None:
        """Saves a tape under a name, as save does."""
        with self._lock:
            answer = LIBRARY.puchkewa_save(self._lent(), len(self._bytes), _name(name), held, len(held))
        tape.value(answer, held)

    def restore(self, name: bytes) -> Listing:
        """The listing that is held under a name. Refusal: 2, 22; 20, none is held. Of a store that other programs wrote also 3 to 8: what
        is held is no tape."""
        return tape.read(self.restore_tape(name))

    def restore_tape(self, name: bytes) -> bytes:
        """The tape that is held under a name, unasked. Refusal: 2, 22; 20, none is held."""
        out = room(RESTORED)
        with self._lock:
            answer = LIBRARY.puchkewa_restore(self._lent(), len(self._bytes), _name(name), out, len(out))
        return out.raw[:tape.value(answer, b"")]

    def delete(self, name: bytes) -> None:
        """Deletes what is held under a name. Refusal: 2, 22; 20, none is held."""
        with self._lock:
            answer = LIBRARY.puchkewa_delete(self._lent(), len(self._bytes), _name(name))
        tape.value(answer, b"")

    def _lent(self) -> ctypes.Array:
        return (ctypes.c_char * len(self._bytes)).from_buffer(self._bytes)


def _name(name: bytes) -> bytes:
    if len(name) != 8:
        raise ValueError(f"a name has 8 bytes, not {len(name)}")
    return bytes(name)
