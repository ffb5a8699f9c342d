"""The stack of the thread that calls: on one too small the library would end the whole process."""

from __future__ import annotations

import ctypes
import threading

# A call takes some 170,000 bytes. The rest is for Python's own frames, above it and beneath.
NEEDED = 512 * 1024

_seen = threading.local()


def see_stack() -> None:
    """Raises RuntimeError where the thread's stack is known to be too small. It is asked for once a thread."""
    if not hasattr(_seen, "size"):
        _seen.size = _stack_size()
    if _seen.size < NEEDED:
        raise RuntimeError(
            f"this thread has a stack of {_seen.size} bytes, and a call needs {NEEDED}: "
            f"call threading.stack_size({NEEDED}) before the thread is started"
        )


def _stack_size() -> int:
    """The bytes of this thread's stack, as glibc tells them: another C library may tell what is in use so far."""
    threads = ctypes.CDLL(None)
    if not hasattr(threads, "gnu_get_libc_version"):
        return _asked_for()
    threads.pthread_self.restype = ctypes.c_void_p
    # Longer than any machine's pthread_attr_t, which has 56 or 64 bytes.
    attributes = (ctypes.c_uint64 * 32)()
    if threads.pthread_getattr_np(ctypes.c_void_p(threads.pthread_self()), attributes):
        return _asked_for()
    size = ctypes.c_size_t()
    threads.pthread_attr_getstacksize(attributes, ctypes.byref(size))
    threads.pthread_attr_destroy(attributes)
    return size.value


def _asked_for() -> int:
    """What Python asks for when it starts a thread. The main thread, and a size of 0, which leaves it to the system,
    are taken for enough."""
    asked = threading.stack_size()
    threading.stack_size(asked)  # Asking sets it to 0.
    return asked if asked and threading.current_thread() is not threading.main_thread() else NEEDED
