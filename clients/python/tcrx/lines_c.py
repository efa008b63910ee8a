"""The numbers, records and calls of sessions of lines in libtcrx.so.0 for ctypes. tools/c_interface writes this module from
dist/tcrx_lines.h, which describes them."""
from ctypes import POINTER, Structure, c_char_p, c_size_t, c_uint8, c_uint16, c_uint32, c_void_p
from typing import Any, Dict, List, Tuple

from .c import _Written

__all__ = ["CALLS", "NO_SESSION", "SESSION_IN_USE", "BAD_SCID", "BAD_LINE", "WAITING", "LOST", "OVER", "_Lines", "_FlagAnswer"]

NO_SESSION = 100
SESSION_IN_USE = 101
BAD_SCID = 102
BAD_LINE = 103
WAITING = 104
LOST = 105
OVER = 106


# Records of C have only fields.
# pylint: disable=too-few-public-methods
class _Lines(Structure):
    _fields_ = [("held", c_uint8), ("place", c_void_p)]


class _FlagAnswer(Structure):
    _fields_ = [("status", c_uint32), ("flag", c_uint8)]


# The type that each function returns, and the types of its parameters.
CALLS: Dict[str, Tuple[Any, List[Any]]] = {
    "tcrx_lines_live_at": (c_uint32, [POINTER(_Lines), c_uint16, c_uint8]),
    "tcrx_lines_script_at": (c_uint32, [POINTER(_Lines), c_uint16]),
    "tcrx_lines_make_at": (c_uint32, [POINTER(_Lines), c_uint8]),
    "tcrx_lines_answer_at": (_Written, [POINTER(_Lines), c_char_p, c_size_t, c_void_p, c_size_t]),
    "tcrx_lines_text_at": (_Written, [POINTER(_Lines), c_void_p, c_size_t]),
    "tcrx_lines_end_at": (_Written, [POINTER(_Lines), c_void_p, c_size_t]),
    "tcrx_lines_saw_check_sums_at": (_FlagAnswer, [POINTER(_Lines)]),
    "tcrx_lines_free_at": (c_uint32, [POINTER(_Lines)]),
}
