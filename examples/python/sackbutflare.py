"""Every call of include/sackbutflare.h from Python 3, over libsackbutflare.so, which build.sh makes.

Station() loads the library; its methods are the calls. A rack is a bytearray, which the calls change in place. A call that is
refused raises Refused with the number of the refusal, and has changed nothing.
"""
import ctypes
import os
from ctypes import c_bool, c_size_t, c_uint8, c_uint16, c_uint32, c_uint64

# Events.
FIELD_OFF, FIELD_ON, LABEL_FRAME, END_OF_FRAME, CHIP_FRAME = range(1, 6)
# Kinds of tags, and whom a command is for.
LABEL, CHIP = 1, 2
EVERYONE, SELECTED, ONE_UID = range(3)
# What an answer means.
ERROR, DONE, FOUND, BLOCK, LOCKED_BLOCK, SYSTEM, CHIP_ID, WORD, CHIP_UID, BLOCKS, LOCKED_BLOCKS, LOCKS = range(1, 13)
# The room that an answer and a request must have.
ANSWER, REQUEST = 8451, 64
# The edition of the header that these calls are of.
EDITION = 3


class Report(ctypes.Structure):
    _fields_ = [("number", c_uint8), ("answered", c_uint8), ("length", c_size_t)]


class Walked(ctypes.Structure):
    _fields_ = [("number", c_uint8), ("labels", c_size_t), ("rounds", c_size_t)]


class Command(ctypes.Structure):
    """A command: Command(kind=LABEL, code=0x20, target=SELECTED, byte=3) reads block 3 of the selected label."""

    _fields_ = [
        ("kind", c_uint8),
        ("target", c_uint8),
        ("option", c_bool),
        ("sixteen", c_bool),
        ("afi_given", c_bool),
        ("afi", c_uint8),
        ("mask_bits", c_uint8),
        ("byte", c_uint8),
        ("code", c_uint16),
        ("mask", c_uint64),
        ("more", c_uint8),
    ]


class Written(ctypes.Structure):
    _fields_ = [("number", c_uint8), ("length", c_size_t)]


class Told(ctypes.Structure):
    """What an answer means; numbers that do not go with the meaning are 0."""

    _fields_ = [
        ("number", c_uint8),
        ("meaning", c_uint8),
        ("error", c_uint8),
        ("dsfid", c_uint8),
        ("afi", c_uint8),
        ("blocks", c_uint8),
        ("size", c_uint8),
        ("ic", c_uint8),
        ("lock", c_uint8),
        ("id", c_uint8),
        ("word", c_uint32),
        ("place", c_size_t),
        ("length", c_size_t),
        ("uid", c_uint64),
        ("count", c_size_t),
    ]


STRUCTS = {"report": Report, "walked": Walked, "command": Command, "written": Written, "told": Told}


class Refused(Exception):
    """A call was refused; `number` says why, as in docs/FORMAT.md."""

    def __init__(self, number):
        super().__init__("refused %d" % number)
        self.number = number


def _accepted(result):
    if result.number != 0:
        raise Refused(result.number)
    return result


def _lent(array):
    """The bytes of a bytearray, to be changed in place."""
    return (c_uint8 * len(array)).from_buffer(array)


def _uid(number):
    """The bytes of a UID; none of it, where there is none."""
    return b"" if number is None else number.to_bytes(8, "little")


class Station:
    def __init__(self, path=None):
        if path is None:
            path = os.path.join(os.path.dirname(os.path.abspath(__file__)), "libsackbutflare.so")
        library = ctypes.CDLL(path)
        lent, kept, size = ctypes.POINTER(c_uint8), ctypes.c_char_p, c_size_t

        def call(name, result, *arguments):
            function = getattr(library, "sackbutflare_" + name)
            function.restype = result
            function.argtypes = arguments
            return function

        self._event = call("event", Report, lent, size, c_uint8, kept, size, kept, size, lent, size)
        self._walk = call("walk", Walked, lent, size, c_bool, c_uint8, lent, size)
        self._write_request = call("write_request", Written, Command, kept, size, kept, size, lent, size)
        self._read_answer = call("read_answer", Told, Command, kept, size, size, kept, size)
        self._check_sum = call("check_sum", c_uint16, kept, size)
        self._version = call("version", c_uint32)
        if self._version() // 100 != EDITION:
            raise ImportError("%s is of edition %d, and this module of %d" % (path, self._version() // 100, EDITION))

    def event(self, rack, number, frame=b"", draws=None):
        """Plays an event: how many tags answered, and the answer of one that was alone. Without draws, every draw is 0."""
        if draws is None:
            draws = bytes(rack[1]) if len(rack) > 1 else b""
        answer = bytearray(ANSWER)
        report = _accepted(
            self._event(_lent(rack), len(rack), number, bytes(frame), len(frame), bytes(draws), len(draws), _lent(answer), len(answer))
        )
        return report.answered, bytes(answer[: report.length])

    def walk(self, rack, afi=None):
        """Walks a rack, with an AFI where one is given: the UIDs in the order of the list, and the number of rounds."""
        listed = bytearray(8 * rack[1] if len(rack) > 1 else 0)
        walked = _accepted(self._walk(_lent(rack), len(rack), afi is not None, afi or 0, _lent(listed), len(listed)))
        uids = [int.from_bytes(listed[8 * i : 8 * i + 8], "little") for i in range(walked.labels)]
        return uids, walked.rounds

    def write_request(self, command, uid=None, data=b""):
        """The frame of a command, with its check sum; the UID counts where the target is one UID."""
        out, uid = bytearray(REQUEST), _uid(uid)
        written = _accepted(self._write_request(command, uid, len(uid), bytes(data), len(data), _lent(out), len(out)))
        return bytes(out[: written.length])

    def read_answer(self, command, frame, uid=None, data_length=0):
        """What a frame means as the answer to a command that was sent for this UID and with so many bytes of data."""
        uid = _uid(uid)
        return _accepted(self._read_answer(command, uid, len(uid), data_length, bytes(frame), len(frame)))

    def check_sum(self, data):
        return self._check_sum(bytes(data), len(data))
