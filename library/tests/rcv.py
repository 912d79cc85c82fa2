"""The library for Python, by ctypes. Each function has its argtypes: without them ctypes passes what C doesn't take."""
from ctypes import CDLL, POINTER, Structure, byref, c_bool, c_int64, c_size_t, c_uint8, c_uint16, c_uint32, c_uint64, c_void_p, create_string_buffer, string_at

DONE, REFUSED, ILLEGAL, CLOSED, OPENED, RANGE, SHORT, LONG, MEMORY, NULL, STALE = range(11)
NONE = 2**64 - 1


class _Session(Structure):
    _fields_ = [("hidden", c_void_p), ("is_open", c_bool)]


class Refusal(Structure):
    _fields_ = [("line", c_uint32), ("number", c_uint16), ("code", c_uint8), ("length", c_uint8), ("bytes", c_uint8 * 64)]

    @property
    def role(self):
        return bytes(self.bytes[: self.length]).decode()


_CALLS = {
    "rcv_check": (c_uint8, [c_void_p, c_size_t, POINTER(Refusal)]),
    "rcv_open": (c_uint8, [POINTER(_Session), c_void_p, c_size_t, c_bool, POINTER(Refusal)]),
    "rcv_close": (None, [POINTER(_Session)]),
    "rcv_sent": (c_uint8, [POINTER(_Session), c_uint8, c_uint16, c_int64, c_uint64, POINTER(c_uint64)]),
    "rcv_received": (c_uint8, [POINTER(_Session), c_uint8, c_uint16, c_int64, c_uint64, c_uint64, POINTER(c_uint64)]),
    "rcv_saved": (c_uint8, [POINTER(_Session), c_uint8, c_uint64, c_uint64]),
    "rcv_tell": (c_uint8, [POINTER(_Session), c_void_p, c_size_t, POINTER(c_size_t)]),
    "rcv_answer": (c_uint8, [POINTER(_Session), c_void_p, c_size_t, POINTER(c_size_t)]),
    "rcv_version": (c_uint32, []),
}


def load(path):
    lib = CDLL(path)
    for name, (result, arguments) in _CALLS.items():
        call = getattr(lib, name)
        call.restype, call.argtypes = result, arguments
    return lib


def check(lib, text):
    """The status of a text, and its refusal."""
    why = Refusal()
    return lib.rcv_check(create_string_buffer(text), len(text), byref(why)), why


class Refused(Exception):
    """The text is refused."""


class Session:
    """A session of a text, which `with` closes."""

    def __init__(self, lib, text, told=False):
        self.lib, self.session, self.why = lib, _Session(), Refusal()
        self.status = lib.rcv_open(byref(self.session), create_string_buffer(text), len(text), told, byref(self.why))
        if self.status != DONE:
            raise Refused(self.status, self.why)

    def sent(self, role, point, value, incarnation=NONE):
        """The status, and the stamp where it is DONE."""
        stamp = c_uint64()
        return self.lib.rcv_sent(byref(self.session), role, point, value, incarnation, byref(stamp)), stamp.value

    def received(self, role, point, value, sent=NONE, incarnation=NONE):
        stamp = c_uint64()
        return self.lib.rcv_received(byref(self.session), role, point, value, sent, incarnation, byref(stamp)), stamp.value

    def saved(self, role, count, incarnation=NONE):
        return self.lib.rcv_saved(byref(self.session), role, count, incarnation)

    def tell(self, line):
        """The answer to a line, without the LF at its end."""
        line, count = line.encode(), c_size_t()
        status = self.lib.rcv_tell(byref(self.session), create_string_buffer(line), len(line), byref(count))
        if status != DONE:
            raise MemoryError(status)
        out = create_string_buffer(count.value + 1)
        assert self.lib.rcv_answer(byref(self.session), out, count.value, byref(count)) == DONE
        return string_at(out, count.value).decode()[:-1]

    def close(self):
        self.lib.rcv_close(byref(self.session))

    def __enter__(self):
        return self

    def __exit__(self, *_):
        self.close()
