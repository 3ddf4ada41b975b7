"""The C interface of libmezulobu, as mezulobu.h declares it: written by bindings/generate."""
import ctypes
from typing import Any, Dict, List, Tuple

VERSION = 0x00010005

NOBODY = ctypes.c_size_t(-1).value


class mezulobu_size(ctypes.Structure):
    _fields_ = [
        ("width", ctypes.c_uint32),
        ("height", ctypes.c_uint32),
    ]


class mezulobu_heap(ctypes.Structure):
    _fields_ = [
        ("contiguous", ctypes.c_bool),
        ("secure", ctypes.c_bool),
        ("cpu", ctypes.c_bool),
        ("ram", ctypes.c_bool),
        ("inaccessible", ctypes.c_bool),
    ]


class mezulobu_pair(ctypes.Structure):
    _fields_ = [
        ("modifier", ctypes.c_uint64),
        ("format", ctypes.c_uint32),
        ("reserved", ctypes.c_uint32),
    ]


class mezulobu_platform(ctypes.Structure):
    _fields_ = [
        ("struct_size", ctypes.c_size_t),
        ("heaps", ctypes.POINTER(mezulobu_heap)),
        ("n_heaps", ctypes.c_size_t),
        ("pairs", ctypes.POINTER(mezulobu_pair)),
        ("n_pairs", ctypes.c_size_t),
        ("colors", ctypes.POINTER(ctypes.c_uint32)),
        ("n_colors", ctypes.c_size_t),
    ]


class mezulobu_entry(ctypes.Structure):
    _fields_ = [
        ("struct_size", ctypes.c_size_t),
        ("modifier", ctypes.c_uint64),
        ("format", ctypes.c_uint32),
        ("colors", ctypes.c_uint32),
        ("any_format", ctypes.c_bool),
        ("any_modifier", ctypes.c_bool),
        ("rows_end_at_pixels", ctypes.c_bool),
        ("min_size", mezulobu_size),
        ("max_size", mezulobu_size),
        ("size_alignment", mezulobu_size),
        ("min_pitch", ctypes.c_uint32),
        ("max_pitch", ctypes.c_uint32),
        ("pitch_divisor", ctypes.c_uint32),
        ("offset_divisor", ctypes.c_uint32),
        ("display_rect_alignment", mezulobu_size),
        ("required_min_size", mezulobu_size),
        ("required_max_size", mezulobu_size),
        ("max_pixels", ctypes.c_uint64),
    ]


class mezulobu_participant(ctypes.Structure):
    _fields_ = [
        ("struct_size", ctypes.c_size_t),
        ("usage", ctypes.c_uint8),
        ("contiguous", ctypes.c_bool),
        ("secure", ctypes.c_bool),
        ("cpu", ctypes.c_bool),
        ("ram", ctypes.c_bool),
        ("inaccessible", ctypes.c_bool),
        ("camping", ctypes.c_uint32),
        ("dedicated_slack", ctypes.c_uint32),
        ("shared_slack", ctypes.c_uint32),
        ("min_count", ctypes.c_uint32),
        ("max_count", ctypes.c_uint32),
        ("min_bytes", ctypes.c_uint64),
        ("max_bytes", ctypes.c_uint64),
        ("heaps", ctypes.c_uint64),
        ("entries", ctypes.POINTER(mezulobu_entry)),
        ("n_entries", ctypes.c_size_t),
    ]


class mezulobu_plane(ctypes.Structure):
    _fields_ = [
        ("offset", ctypes.c_uint64),
        ("rows", ctypes.c_uint64),
        ("pitch", ctypes.c_uint32),
        ("reserved", ctypes.c_uint32),
    ]


class mezulobu_layout(ctypes.Structure):
    _fields_ = [
        ("bytes", ctypes.c_uint64),
        ("n_planes", ctypes.c_uint32),
        ("reserved", ctypes.c_uint32),
        ("planes", mezulobu_plane * 4),
    ]


class mezulobu_image(ctypes.Structure):
    _fields_ = [
        ("modifier", ctypes.c_uint64),
        ("format", ctypes.c_uint32),
        ("color", ctypes.c_uint32),
        ("width", ctypes.c_uint32),
        ("height", ctypes.c_uint32),
        ("layout", mezulobu_layout),
    ]


class mezulobu_settings(ctypes.Structure):
    _fields_ = [
        ("struct_size", ctypes.c_size_t),
        ("bytes", ctypes.c_uint64),
        ("heap", ctypes.c_size_t),
        ("count", ctypes.c_uint32),
        ("coherency", ctypes.c_uint32),
        ("image", mezulobu_image),
    ]


class mezulobu_refusal(ctypes.Structure):
    _fields_ = [
        ("struct_size", ctypes.c_size_t),
        ("who", ctypes.c_size_t),
        ("index", ctypes.c_size_t),
        ("heap", ctypes.c_size_t),
        ("modifier", ctypes.c_uint64),
        ("format", ctypes.c_uint32),
        ("color", ctypes.c_uint32),
        ("coherency", ctypes.c_uint32),
        ("kind", ctypes.c_uint32),
        ("field", ctypes.c_uint32),
        ("alone", ctypes.c_uint32),
    ]


CALLS: Dict[str, Tuple[Any, List[Any]]] = {
    "mezulobu_run": (
        ctypes.c_int,
        [ctypes.c_char_p, ctypes.c_size_t, ctypes.c_void_p, ctypes.POINTER(ctypes.c_size_t),
         ctypes.c_void_p, ctypes.POINTER(ctypes.c_size_t)],
    ),
    "mezulobu_check": (
        ctypes.c_int,
        [ctypes.c_char_p, ctypes.c_size_t, ctypes.c_char_p, ctypes.c_size_t, ctypes.c_void_p,
         ctypes.POINTER(ctypes.c_size_t)],
    ),
    "mezulobu_explain": (
        ctypes.c_int,
        [ctypes.c_char_p, ctypes.c_size_t, ctypes.c_char_p, ctypes.c_bool, ctypes.c_void_p,
         ctypes.POINTER(ctypes.c_size_t)],
    ),
    "mezulobu_explain_json": (
        ctypes.c_int,
        [ctypes.c_char_p, ctypes.c_size_t, ctypes.c_char_p, ctypes.c_bool, ctypes.c_void_p,
         ctypes.POINTER(ctypes.c_size_t)],
    ),
    "mezulobu_negotiate": (
        ctypes.c_int,
        [ctypes.POINTER(mezulobu_platform), ctypes.POINTER(mezulobu_participant), ctypes.c_size_t,
         ctypes.POINTER(mezulobu_settings), ctypes.POINTER(mezulobu_refusal)],
    ),
    "mezulobu_field_name": (
        ctypes.c_char_p,
        [ctypes.c_uint32],
    ),
    "mezulobu_fault_name": (
        ctypes.c_char_p,
        [ctypes.c_uint32],
    ),
    "mezulobu_planes": (
        ctypes.c_int,
        [ctypes.c_uint32, ctypes.c_uint64, ctypes.c_uint32, ctypes.c_uint32,
         ctypes.POINTER(mezulobu_layout)],
    ),
    "mezulobu_status_name": (
        ctypes.c_char_p,
        [ctypes.c_int],
    ),
    "mezulobu_status_text": (
        ctypes.c_char_p,
        [ctypes.c_int, ctypes.c_char_p],
    ),
    "mezulobu_version": (
        ctypes.c_uint32,
        [],
    ),
    "mezulobu_allocator_new": (
        ctypes.c_int,
        [ctypes.POINTER(mezulobu_platform), ctypes.POINTER(ctypes.c_void_p),
         ctypes.POINTER(mezulobu_refusal)],
    ),
    "mezulobu_allocator_new_record": (
        ctypes.c_int,
        [ctypes.c_char_p, ctypes.c_size_t, ctypes.POINTER(ctypes.c_void_p),
         ctypes.POINTER(ctypes.c_uint32)],
    ),
    "mezulobu_allocator_free": (
        None,
        [ctypes.c_void_p],
    ),
    "mezulobu_allocate_shared": (
        ctypes.c_int,
        [ctypes.c_void_p, ctypes.POINTER(ctypes.c_void_p)],
    ),
    "mezulobu_allocate_shared_limited": (
        ctypes.c_int,
        [ctypes.c_void_p, ctypes.c_uint32, ctypes.POINTER(ctypes.c_void_p)],
    ),
    "mezulobu_token_duplicate": (
        ctypes.c_int,
        [ctypes.c_void_p, ctypes.POINTER(ctypes.c_void_p)],
    ),
    "mezulobu_token_create_group": (
        ctypes.c_int,
        [ctypes.c_void_p, ctypes.POINTER(ctypes.c_void_p)],
    ),
    "mezulobu_token_bind": (
        ctypes.c_int,
        [ctypes.POINTER(ctypes.c_void_p), ctypes.POINTER(ctypes.c_void_p)],
    ),
    "mezulobu_token_release": (
        ctypes.c_int,
        [ctypes.POINTER(ctypes.c_void_p)],
    ),
    "mezulobu_token_close": (
        ctypes.c_int,
        [ctypes.POINTER(ctypes.c_void_p)],
    ),
    "mezulobu_group_create_child": (
        ctypes.c_int,
        [ctypes.c_void_p, ctypes.POINTER(ctypes.c_void_p)],
    ),
    "mezulobu_group_all_children_present": (
        ctypes.c_int,
        [ctypes.c_void_p],
    ),
    "mezulobu_group_release": (
        ctypes.c_int,
        [ctypes.POINTER(ctypes.c_void_p)],
    ),
    "mezulobu_group_close": (
        ctypes.c_int,
        [ctypes.POINTER(ctypes.c_void_p)],
    ),
    "mezulobu_collection_set_constraints": (
        ctypes.c_int,
        [ctypes.c_void_p, ctypes.POINTER(mezulobu_participant), ctypes.POINTER(mezulobu_refusal)],
    ),
    "mezulobu_collection_set_constraints_record": (
        ctypes.c_int,
        [ctypes.c_void_p, ctypes.c_char_p, ctypes.c_size_t, ctypes.POINTER(ctypes.c_uint32)],
    ),
    "mezulobu_collection_attach_token": (
        ctypes.c_int,
        [ctypes.c_void_p, ctypes.POINTER(ctypes.c_void_p)],
    ),
    "mezulobu_collection_release": (
        ctypes.c_int,
        [ctypes.POINTER(ctypes.c_void_p)],
    ),
    "mezulobu_collection_close": (
        ctypes.c_int,
        [ctypes.POINTER(ctypes.c_void_p)],
    ),
    "mezulobu_record_fault": (
        ctypes.c_int,
        [ctypes.c_uint32, ctypes.c_char_p, ctypes.c_size_t, ctypes.c_void_p,
         ctypes.POINTER(ctypes.c_size_t)],
    ),
    "mezulobu_collection_check": (
        ctypes.c_int,
        [ctypes.c_void_p, ctypes.POINTER(mezulobu_settings)],
    ),
    "mezulobu_collection_wait": (
        ctypes.c_int,
        [ctypes.c_void_p, ctypes.c_int, ctypes.POINTER(mezulobu_settings)],
    ),
    "mezulobu_collection_fd": (
        ctypes.c_int,
        [ctypes.c_void_p],
    ),
    "mezulobu_token_set_name": (
        ctypes.c_int,
        [ctypes.c_void_p, ctypes.c_char_p],
    ),
    "mezulobu_group_set_name": (
        ctypes.c_int,
        [ctypes.c_void_p, ctypes.c_char_p],
    ),
    "mezulobu_collection_set_name": (
        ctypes.c_int,
        [ctypes.c_void_p, ctypes.c_char_p],
    ),
    "mezulobu_token_name": (
        ctypes.c_int,
        [ctypes.c_void_p, ctypes.c_void_p, ctypes.POINTER(ctypes.c_size_t)],
    ),
    "mezulobu_group_name": (
        ctypes.c_int,
        [ctypes.c_void_p, ctypes.c_void_p, ctypes.POINTER(ctypes.c_size_t)],
    ),
    "mezulobu_collection_name": (
        ctypes.c_int,
        [ctypes.c_void_p, ctypes.c_void_p, ctypes.POINTER(ctypes.c_size_t)],
    ),
    "mezulobu_collection_node": (
        ctypes.c_int,
        [ctypes.c_void_p, ctypes.POINTER(ctypes.c_uint32)],
    ),
    "mezulobu_collection_name_of": (
        ctypes.c_int,
        [ctypes.c_void_p, ctypes.c_uint32, ctypes.c_void_p, ctypes.POINTER(ctypes.c_size_t)],
    ),
    "mezulobu_collection_selection": (
        ctypes.c_int,
        [ctypes.c_void_p, ctypes.POINTER(ctypes.c_uint8), ctypes.POINTER(ctypes.c_size_t)],
    ),
    "mezulobu_collection_refusal": (
        ctypes.c_int,
        [ctypes.c_void_p, ctypes.POINTER(mezulobu_refusal)],
    ),
    "mezulobu_collection_script": (
        ctypes.c_int,
        [ctypes.c_void_p, ctypes.c_void_p, ctypes.POINTER(ctypes.c_size_t), ctypes.c_void_p,
         ctypes.POINTER(ctypes.c_size_t)],
    ),
    "mezulobu_collection_explain": (
        ctypes.c_int,
        [ctypes.c_void_p, ctypes.c_void_p, ctypes.POINTER(ctypes.c_size_t)],
    ),
    "mezulobu_collection_explain_json": (
        ctypes.c_int,
        [ctypes.c_void_p, ctypes.c_void_p, ctypes.POINTER(ctypes.c_size_t)],
    ),
}
