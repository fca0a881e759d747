"""The shared library as ctypes sees it: the structs and calls of muoswyld_group.h, with the same names."""

import ctypes
import os
import pathlib
from ctypes import POINTER, Structure, c_bool, c_char_p, c_int, c_int32, c_size_t, c_uint8, c_uint16, c_uint32, c_uint64, c_void_p

_FILE = "libmuoswyld_group.so"


class CName(Structure):
    """`muoswyld_name`."""

    _fields_ = [("place", c_uint8), ("life", c_uint8)]


class CNames(Structure):
    """`muoswyld_names`."""

    _fields_ = [("lives", c_uint8 * 16)]


class CPosition(Structure):
    """`muoswyld_position`."""

    _fields_ = [("generation", c_uint32), ("number", c_uint32), ("index", c_uint32)]


class CFounding(Structure):
    """`muoswyld_founding`."""

    _fields_ = [("founders", CNames), ("voters", CNames), ("resilience", c_uint8), ("window", c_uint16), ("pb_up_to", c_uint16)]


class CNext(Structure):
    """`muoswyld_next`."""

    _fields_ = [("resilience", c_int32), ("window", c_int32), ("pb_up_to", c_int32), ("voters", CNames)]


class CDelivery(Structure):
    """`muoswyld_delivery`."""

    _fields_ = [
        ("kind", c_int),
        ("at", CPosition),
        ("name", CName),
        ("members", CNames),
        ("resilience", c_uint8),
        ("next", CFounding),
        ("message", c_void_p),
        ("length", c_size_t),
        ("owner", c_void_p),
    ]


COUNTS = (
    "datagrams_heard",
    "datagrams_sent",
    "malformed",
    "dropped",
    "other_group",
    "other_process",
    "letters_heard",
    "letters_sent",
    "messages_sent",
    "deliveries",
    "resets",
)


class CCounts(Structure):
    """`muoswyld_counts`."""

    _fields_ = [(name, c_uint64) for name in COUNTS]


class CInfo(Structure):
    """`muoswyld_info`."""

    _fields_ = [
        ("name", CName),
        ("generation", c_uint32),
        ("window", c_uint16),
        ("pb_up_to", c_uint16),
        ("role", c_int),
        ("knows_group", c_bool),
        ("leaves", c_bool),
        ("resilience", c_uint8),
        ("group", c_uint64),
        ("members", CNames),
        ("sequencer", CName),
        ("round", c_uint32),
        ("view_number", c_uint32),
        ("base", c_uint32),
        ("taken", c_uint32),
        ("accepted", c_uint32),
        ("top", c_uint32),
        ("waits_for", CNames),
        ("silent", CNames),
        ("slow", CNames),
        ("stopped", CNames),
        ("unsettled", c_uint64),
        ("waiting", c_uint64),
        ("round_trip", c_uint64),
        ("counts", CCounts),
    ]


# the calls of a machine
APPLY = ctypes.CFUNCTYPE(c_bool, c_void_p, POINTER(CPosition), c_void_p, c_size_t, c_void_p)
SNAPSHOT = ctypes.CFUNCTYPE(c_bool, c_void_p, c_void_p)
RESTORE = ctypes.CFUNCTYPE(c_bool, c_void_p, c_void_p, c_size_t)


class CMachine(Structure):
    """`muoswyld_machine`."""

    _fields_ = [("context", c_void_p), ("apply", APPLY), ("snapshot", SNAPSHOT), ("restore", RESTORE)]


class CAnswer(Structure):
    """`muoswyld_answer`."""

    _fields_ = [("what", c_int), ("token", c_uint64), ("bytes", c_void_p), ("length", c_size_t), ("owner", c_void_p)]


class CServiceInfo(Structure):
    """`muoswyld_service_info`."""

    _fields_ = [("is_ready", c_bool), ("applied", CPosition), ("holders", CNames), ("unsent", c_uint64)]


# each call: what it answers, and what it is given
_CALLS = {
    "status_text": (c_char_p, c_int),
    "group_version": (c_char_p,),
    "key_random": (c_int, c_void_p, c_size_t),
    "config_new": (c_int, c_char_p, c_char_p, POINTER(c_void_p)),
    "config_free": (None, c_void_p),
    "config_error": (c_char_p, c_void_p),
    "config_resilience": (c_int, c_void_p, c_uint8),
    "config_window": (c_int, c_void_p, c_uint16),
    "config_pb_up_to": (c_int, c_void_p, c_uint16),
    "config_address": (c_int, c_void_p, c_uint8, c_char_p),
    "config_bind": (c_int, c_void_p, c_char_p),
    "config_key": (c_int, c_void_p, c_char_p, c_size_t),
    "config_insecure": (c_int, c_void_p),
    "config_least": (c_int, c_void_p, c_uint8),
    "config_most_waiting": (c_int, c_void_p, c_size_t),
    "config_most_unreceived": (c_int, c_void_p, c_size_t),
    "config_datagram": (c_int, c_void_p, c_size_t),
    "config_spin": (c_int, c_void_p, c_uint32),
    "config_tick": (c_int, c_void_p, c_uint32),
    "config_journal": (c_int, c_void_p, c_char_p),
    "config_start_within": (c_int, c_void_p, c_int),
    "config_state": (c_int, c_void_p, c_char_p),
    "config_voters": (c_int, c_void_p, c_char_p),
    "config_told": (c_int, c_void_p),
    "config_echo": (c_int, c_void_p),
    "config_lease": (c_int, c_void_p, c_uint32, c_uint32),
    "config_command": (c_int, c_void_p, c_char_p, c_uint32),
    "config_succeed_at": (c_int, c_void_p, c_uint8, c_uint32),
    "config_next_life": (c_int, c_void_p, c_int),
    "group_found": (c_int, c_void_p),
    "group_start": (c_int, c_void_p, POINTER(c_void_p)),
    "group_create": (c_int, c_void_p, POINTER(c_void_p)),
    "group_join": (c_int, c_void_p, POINTER(c_void_p)),
    "group_free": (None, c_void_p),
    "group_submit": (c_int, c_void_p, c_char_p, c_size_t, c_int, POINTER(c_void_p)),
    "group_receive": (c_int, c_void_p, c_int, POINTER(CDelivery)),
    "group_descriptor": (c_int, c_void_p),
    "group_reset": (c_int, c_void_p, c_uint8, c_int, POINTER(c_uint32)),
    "group_succeed": (c_int, c_void_p, POINTER(CNext), c_int, POINTER(CPosition)),
    "group_stopped": (c_int, c_void_p, CName),
    "group_leave": (c_int, c_void_p, c_int),
    "group_info": (c_int, c_void_p, POINTER(CInfo)),
    "group_stop": (c_int, c_void_p),
    "group_ended": (c_int, c_void_p, c_int),
    "group_end_text": (c_char_p, c_void_p),
    "group_notice": (c_int, c_void_p, c_char_p, c_size_t),
    "ticket_wait": (c_int, c_void_p, c_int, POINTER(CPosition)),
    "ticket_free": (None, c_void_p),
    "delivery_clear": (None, POINTER(CDelivery)),
    "records_add": (c_int, c_void_p, c_char_p, c_size_t),
    "service_new": (c_int, c_void_p, POINTER(CMachine), POINTER(c_void_p)),
    "service_free": (None, c_void_p),
    "service_submit": (c_int, c_void_p, c_uint64, c_char_p, c_size_t),
    "service_barrier": (c_int, c_void_p, c_uint64),
    "service_next": (c_int, c_void_p, c_int, POINTER(CAnswer)),
    "service_status": (c_int, c_void_p, POINTER(CServiceInfo)),
    "service_end_text": (c_char_p, c_void_p),
    "answer_clear": (None, POINTER(CAnswer)),
}


def _loaded() -> ctypes.CDLL:
    """The library, which a wheel has beside this file; MUOSWYLD_LIBRARY names another one."""
    beside = pathlib.Path(__file__).with_name(_FILE)
    path = os.environ.get("MUOSWYLD_LIBRARY") or str(beside)
    if not os.path.exists(path):
        raise ImportError(f"{path} isn't there: install the package by `pip install ./bindings/python`, or name {_FILE} by MUOSWYLD_LIBRARY")
    library = ctypes.CDLL(path)
    for name, (answers, *given) in _CALLS.items():
        call = getattr(library, f"muoswyld_{name}")
        call.restype, call.argtypes = answers, given
    return library


LIBRARY = _loaded()
