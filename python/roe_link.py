"""The proved check of plans. It stands on libroe_link.so: that of c/out, or that which ROE_LINK_LIBRARY names."""
import ctypes
import os

YES, NO, NO_PLAN, NO_MEMORY, _TOO_SHORT = 0, 1, 3, 7, 9

_HERE = os.path.dirname(os.path.abspath(__file__))
_library = ctypes.CDLL(os.environ.get("ROE_LINK_LIBRARY", os.path.join(_HERE, "../c/out/libroe_link.so")))
_library.roe_check.restype = ctypes.c_int
_library.roe_check.argtypes = [
    ctypes.c_char_p,
    ctypes.c_size_t,
    ctypes.c_char_p,
    ctypes.c_size_t,
    ctypes.POINTER(ctypes.c_size_t),
]


def check(plan, room=2048):
    """Answers a plan, given as bytes, as `roe_link check` answers its file: the code, and the text that it prints.

    The room is that of the first call; where it is too short, a second one has what is needed.
    """
    plan = bytes(plan)
    out = ctypes.create_string_buffer(max(room, 1))
    written = ctypes.c_size_t()
    code = _library.roe_check(plan, len(plan), out, len(out), ctypes.byref(written))
    if code == _TOO_SHORT:
        return check(plan, written.value)
    return code, out.raw[: written.value].decode("ascii")
