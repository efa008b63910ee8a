"""The numbers, records and calls of libtcrx.so.0 for ctypes. tools/c_interface writes this module from dist/tcrx.h, which describes them."""
from ctypes import POINTER, Structure, c_char_p, c_size_t, c_uint8, c_uint16, c_uint32, c_uint64, c_void_p
from typing import Any, Dict, List, Tuple

__all__ = ["CALLS", "DONE", "SHORT", "BAD_VERSION", "SPARE", "LENGTH_SMALL", "TRUNCATED", "FILL", "NO_FECF", "WRONG_FECF",
           "BAD_FIELD", "EMPTY_DATA", "TOO_LONG", "NO_MEMORY", "LONG_PACKET", "LONG_UNIT", "LONG_FRAME", "BAD_SIZE", "NO_SEGMENT",
           "BAD_COMMAND", "BAD_WIDTH", "BAD_STATE", "BAD_FARM_B", "BAD_FLAG", "FLAGS_DISAGREE", "BAD_ARRIVAL", "NO_ENTRY",
           "BAD_VCID", "NO_CLCW", "NO_PACKET", "NO_ROOM", "NULL", "NO_STATUS", "BAD_BUFFER", "BAD_APID", "DOUBLE_APID",
           "BAD_CAPACITY", "BAD_MAP", "DOUBLE_MAP", "BAD_UNITS", "PLAIN_MAP", "NO_CHANNEL", "IN_USE", "NO_QUEUE", "NO_MAP",
           "EMPTY", "OTHER_SPACECRAFT", "UNKNOWN_CHANNEL", "BAD_OTHERS", "BAD_LIMIT_MAP", "DOUBLE_LIMIT", "BAD_LIMIT",
           "PLAIN_LIMIT", "UNLISTED_MAP", "LONG_CLTU", "BAD_LENGTH", "NO_CONTROL", "BAD_DECODER", "TEXT_ROOM", "OPEN", "WAIT",
           "LOCKOUT", "AD", "BD", "UNLOCK", "SET_VR", "INVALID", "RELEASE", "DECODER_ROOM", "_Farm", "_FarmAnswer", "_StepAnswer",
           "_ClcwAnswer", "_ClcwFields", "_Header", "_Frame", "_KindAnswer", "_Packet", "_PacketHeader", "_TmHeader", "_Tm",
           "_Decoder", "_Decoded", "_Written", "_Channel", "_Settings", "_Queue", "_Map", "_Limit", "_Reply", "_Delivery",
           "_RackReply", "_CandidateReply", "_Place", "_Count"]

DONE = 0
SHORT = 1
BAD_VERSION = 2
SPARE = 3
LENGTH_SMALL = 4
TRUNCATED = 5
FILL = 6
NO_FECF = 7
WRONG_FECF = 8
BAD_FIELD = 10
EMPTY_DATA = 11
TOO_LONG = 12
NO_MEMORY = 13
LONG_PACKET = 14
LONG_UNIT = 15
LONG_FRAME = 16
BAD_SIZE = 17
NO_SEGMENT = 18
BAD_COMMAND = 19
BAD_WIDTH = 20
BAD_STATE = 21
BAD_FARM_B = 22
BAD_FLAG = 23
FLAGS_DISAGREE = 24
BAD_ARRIVAL = 25
NO_ENTRY = 26
BAD_VCID = 30
NO_CLCW = 31
NO_PACKET = 40
NO_ROOM = 50
NULL = 51
NO_STATUS = 52
BAD_BUFFER = 60
BAD_APID = 61
DOUBLE_APID = 62
BAD_CAPACITY = 63
BAD_MAP = 64
DOUBLE_MAP = 65
BAD_UNITS = 66
PLAIN_MAP = 67
NO_CHANNEL = 70
IN_USE = 71
NO_QUEUE = 72
NO_MAP = 73
EMPTY = 74
OTHER_SPACECRAFT = 75
UNKNOWN_CHANNEL = 76
BAD_OTHERS = 80
BAD_LIMIT_MAP = 81
DOUBLE_LIMIT = 82
BAD_LIMIT = 83
PLAIN_LIMIT = 84
UNLISTED_MAP = 85
LONG_CLTU = 90
BAD_LENGTH = 91
NO_CONTROL = 92
BAD_DECODER = 93
TEXT_ROOM = 64
OPEN = 1
WAIT = 2
LOCKOUT = 3
AD = 1
BD = 2
UNLOCK = 3
SET_VR = 4
INVALID = 5
RELEASE = 6
DECODER_ROOM = 1037


# Records of C have only fields.
# pylint: disable=too-few-public-methods
class _Farm(Structure):
    _fields_ = [("width", c_uint8), ("state", c_uint8), ("vr", c_uint8), ("farm_b", c_uint8), ("lockout", c_uint8),
                ("wait", c_uint8), ("retransmit", c_uint8)]


class _FarmAnswer(Structure):
    _fields_ = [("status", c_uint32), ("farm", _Farm)]


class _StepAnswer(Structure):
    _fields_ = [("status", c_uint32), ("farm", _Farm), ("event", c_uint8), ("accepted", c_uint8)]


class _ClcwAnswer(Structure):
    _fields_ = [("status", c_uint32), ("word", c_uint32)]


class _ClcwFields(Structure):
    _fields_ = [("status", c_uint32), ("status_field", c_uint8), ("vcid", c_uint8), ("no_rf", c_uint8), ("no_bit_lock", c_uint8),
                ("lockout", c_uint8), ("wait", c_uint8), ("retransmit", c_uint8), ("farm_b", c_uint8), ("vr", c_uint8)]


class _Header(Structure):
    _fields_ = [("scid", c_uint16), ("vcid", c_uint8), ("ns", c_uint8), ("bypass", c_uint8), ("control", c_uint8)]


class _Frame(Structure):
    _fields_ = [("status", c_uint32), ("header", _Header), ("length", c_uint16)]


class _KindAnswer(Structure):
    _fields_ = [("status", c_uint32), ("kind", c_uint8), ("number", c_uint8)]


class _Packet(Structure):
    _fields_ = [("status", c_uint32), ("length", c_uint32), ("apid", c_uint16), ("count", c_uint16), ("telecommand", c_uint8),
                ("secondary", c_uint8), ("sequence", c_uint8)]


class _PacketHeader(Structure):
    _fields_ = [("apid", c_uint16), ("count", c_uint16), ("telecommand", c_uint8), ("secondary", c_uint8), ("sequence", c_uint8)]


class _TmHeader(Structure):
    _fields_ = [("scid", c_uint16), ("vcid", c_uint8), ("master_count", c_uint8), ("channel_count", c_uint8)]


class _Tm(Structure):
    _fields_ = [("status", c_uint32), ("clcw", c_uint32), ("header", _TmHeader), ("pointer", c_uint16)]


class _Decoder(Structure):
    _fields_ = [("correct", c_uint8), ("decoding", c_uint8), ("last", c_uint8), ("count", c_uint8), ("carried", c_uint16)]


class _Decoded(Structure):
    _fields_ = [("status", c_uint32), ("decoder", _Decoder), ("ended", c_uint8), ("taken", c_uint64), ("corrected", c_uint64),
                ("rejected", c_uint64), ("overlong", c_uint64)]


class _Written(Structure):
    _fields_ = [("status", c_uint32), ("length", c_size_t)]


class _Channel(Structure):
    _fields_ = [("held", c_uint8), ("place", c_void_p)]


class _Settings(Structure):
    _fields_ = [("vcid", c_uint8), ("width", c_uint8), ("buffer", c_uint8), ("first_vr", c_uint8), ("segmented", c_uint8)]


class _Queue(Structure):
    _fields_ = [("apid", c_uint16), ("capacity", c_uint16)]


class _Map(Structure):
    _fields_ = [("map", c_uint8), ("capacity", c_uint16)]


class _Limit(Structure):
    _fields_ = [("map", c_uint8), ("octets", c_uint32)]


class _Reply(Structure):
    _fields_ = [("status", c_uint32), ("queued", c_uint32), ("dropped", c_uint32), ("event", c_uint8), ("accepted", c_uint8),
                ("rest", c_uint8)]


class _Delivery(Structure):
    _fields_ = [("status", c_uint32), ("queued", c_uint32), ("dropped", c_uint32), ("rest", c_uint8)]


class _RackReply(Structure):
    _fields_ = [("status", c_uint32), ("queued", c_uint32), ("dropped", c_uint32), ("event", c_uint8), ("accepted", c_uint8),
                ("rest", c_uint8), ("vcid", c_uint8)]


class _CandidateReply(Structure):
    _fields_ = [("status", c_uint32), ("queued", c_uint32), ("dropped", c_uint32), ("event", c_uint8), ("accepted", c_uint8),
                ("rest", c_uint8), ("vcid", c_uint8), ("more", c_uint8), ("length", c_uint16)]


class _Place(Structure):
    _fields_ = [("status", c_uint32), ("place", c_size_t)]


class _Count(Structure):
    _fields_ = [("status", c_uint32), ("count", c_uint64)]


# The type that each function returns, and the types of its parameters.
CALLS: Dict[str, Tuple[Any, List[Any]]] = {
    "tcrx_text_at": (_Written, [c_uint32, c_void_p, c_size_t]),
    "tcrx_farm_start": (_FarmAnswer, [c_uint8, c_uint8]),
    "tcrx_farm_step": (_StepAnswer, [_Farm, c_uint8, c_uint8, c_uint8]),
    "tcrx_clcw": (_ClcwAnswer, [_Farm, c_uint8, c_uint8, c_uint8]),
    "tcrx_read_clcw": (_ClcwFields, [c_uint32]),
    "tcrx_read_frame_at": (_Frame, [c_char_p, c_size_t]),
    "tcrx_kind_at": (_KindAnswer, [c_char_p, c_size_t]),
    "tcrx_write_frame_at": (_Written, [_Header, c_char_p, c_size_t, c_void_p, c_size_t]),
    "tcrx_write_segment_at": (_Written, [_Header, c_uint8, c_uint16, c_uint32, c_char_p, c_size_t, c_void_p, c_size_t]),
    "tcrx_write_command_at": (_Written, [c_uint16, c_uint8, c_uint8, c_uint8, c_void_p, c_size_t]),
    "tcrx_add_fecf_at": (_Written, [c_char_p, c_size_t, c_void_p, c_size_t]),
    "tcrx_check_fecf_at": (_Written, [c_char_p, c_size_t, c_void_p, c_size_t]),
    "tcrx_write_packet_at": (_Written, [_PacketHeader, c_char_p, c_size_t, c_void_p, c_size_t]),
    "tcrx_read_packet_at": (_Packet, [c_char_p, c_size_t]),
    "tcrx_write_cltu_at": (_Written, [c_char_p, c_size_t, c_void_p, c_size_t]),
    "tcrx_cltu_octets_at": (_Decoded, [_Decoder, c_char_p, c_size_t, c_void_p, c_size_t]),
    "tcrx_cltu_search": (_Decoded, [_Decoder]),
    "tcrx_randomise_at": (_Written, [c_char_p, c_size_t, c_void_p, c_size_t]),
    "tcrx_write_tm_at": (_Written, [_TmHeader, c_uint8, c_uint32, c_uint16, c_void_p, c_size_t]),
    "tcrx_read_tm_at": (_Tm, [c_uint8, c_char_p, c_size_t]),
    "tcrx_storage_at": (_Count, [_Settings, POINTER(_Queue), c_size_t, POINTER(_Map), c_size_t]),
    "tcrx_storage_with_limits_at": (_Count, [_Settings, POINTER(_Queue), c_size_t, POINTER(_Map), c_size_t, c_uint32,
                                             POINTER(_Limit), c_size_t]),
    "tcrx_channel_new_at": (c_uint32, [POINTER(_Channel), _Settings, POINTER(_Queue), c_size_t, POINTER(_Map), c_size_t]),
    "tcrx_channel_new_with_limits_at": (c_uint32, [POINTER(_Channel), _Settings, POINTER(_Queue), c_size_t, POINTER(_Map),
                                                   c_size_t, c_uint32, POINTER(_Limit), c_size_t]),
    "tcrx_channel_frame_at": (_Reply, [POINTER(_Channel), c_char_p, c_size_t]),
    "tcrx_channel_release_at": (_Delivery, [POINTER(_Channel)]),
    "tcrx_channel_take_at": (_Written, [POINTER(_Channel), c_uint16, c_void_p, c_size_t]),
    "tcrx_channel_take_unit_at": (_Written, [POINTER(_Channel), c_uint8, c_void_p, c_size_t]),
    "tcrx_channel_clcw_at": (_ClcwAnswer, [POINTER(_Channel), c_uint8, c_uint8]),
    "tcrx_channel_report_at": (_FarmAnswer, [POINTER(_Channel)]),
    "tcrx_channel_buffered_at": (_Count, [POINTER(_Channel)]),
    "tcrx_channel_queued_at": (_Count, [POINTER(_Channel), c_uint16]),
    "tcrx_channel_units_at": (_Count, [POINTER(_Channel), c_uint8]),
    "tcrx_channel_events_at": (_Count, [POINTER(_Channel)]),
    "tcrx_channel_free_at": (c_uint32, [POINTER(_Channel)]),
    "tcrx_rack_frame_at": (_RackReply, [POINTER(_Channel), c_size_t, c_uint16, c_uint8, c_char_p, c_size_t]),
    "tcrx_rack_candidate_at": (_CandidateReply, [POINTER(_Channel), c_size_t, c_uint16, c_uint8, c_char_p, c_size_t]),
    "tcrx_rack_find_at": (_Place, [POINTER(_Channel), c_size_t, c_uint8]),
}
