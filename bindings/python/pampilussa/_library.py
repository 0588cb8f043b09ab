"""The shared library, found and called: numbers and NumPy arrays in, the answer's lower half out, or Refused.

ctypes gives the interpreter lock free while a function of the library runs, so other threads go on."""
import ctypes
import ctypes.util
import os
from pathlib import Path
from typing import Any, Callable, Dict, List, Union

import numpy as np

from .refused import Refused

Argument = Union[int, float, np.ndarray]

NAME = "libplanner.so"
ROOM = " u32[&]" * 4
REFINED = " u32[&] u32[&] u32[&] f64[&] i32[&] u32[&] u32[&] f64[&]" + " u32[&]" * 10 + " u32&"

# What each function takes: a number, a list that is read `[]`, a list that is written `[&]`, an array of fixed length `&`. A test holds this to include/planner.h.
SIGNATURES: Dict[str, str] = {
    "planner_torus": "u32 u32 f64[] u32&",
    "planner_klein": "u32 u32 f64[] u32&",
    "planner_moebius": "u32 f64 f64 u32&",
    "planner_quasi_uniform": "u32 u32 u32[] f64[] u32&",
    "planner_reduce": "u32 u32 u32[]",
    "planner_crossing": "u32 u32 u32[] u32&",
    "planner_nvertices": "u32 u32[]",
    "planner_is_orientation_preserving": "u32 u32[]",
    "planner_cell_words": "u32 u32[] u32[&]" + ROOM,
    "planner_triangulate_ordered": "u32 u32[] u32[&] u32[&]" + ROOM,
    "planner_edge_lengths_sq": "u32 u32[] f64[] f64[&]" + ROOM,
    "planner_edge_length_sq": "u32 u32 u32 u32[] f64[] f64&",
    "planner_grid_corners": "u32 u32[]",
    "planner_chained_corners": "u32 u32[]",
    "planner_geojson": "u32 i32 i32 u32[] u8[&]" + ROOM,
    "planner_chained_reduce": "u32 u32 u32[] u32[&]",
    "planner_chained_nvertices": "u32 u32[] u32[&]",
    "planner_chained_classes": "u32 u32[] u32[&] u32[&]",
    "planner_chained_closed_classes": "u32 u32[] u32[&] u32[&]",
    "planner_chained_cell_words": "u32 u32[] u32[&]" + ROOM,
    "planner_swath": "u32 u32[] u32[] u32[&]",
    "planner_cells": "u32 u32[] u32[&]" + ROOM,
    "planner_edges": "u32 u32[] u32[&]" + ROOM,
    "planner_facets": "u32 u32[] u32[&] u32[&]" + ROOM,
    "planner_border": "u32 u32[] u32[&]" + ROOM,
    "planner_orientation": "u32 u32[] i32[&]" + ROOM,
    "planner_orientation_looks": "u32 u32[] i32[&]" + ROOM + " u32&",
    "planner_orient_by": "u32 u32[] i32[]" + ROOM,
    "planner_ordering": "u32 u32[] u32[] u32[&]" + ROOM,
    "planner_induced_orientation": "u32 u32[] u32[]" + ROOM,
    "planner_refine": "u32 u32 u32[]" + REFINED,
    "planner_refine_with": "u32 u32 u32[] u32[]" + REFINED,
    "planner_refine_by_steps": "u32 u32 u32[]" + REFINED,
    "planner_refine_with_by_steps": "u32 u32 u32[] u32[]" + REFINED,
    "planner_drop_cells": "u32 u32[] u32[] u32[&] u32[&]" + ROOM + " u32&",
    "planner_incidence": "u32 u32[] u32[&] u32[&]" + ROOM,
    "planner_faces": "u32 u32 u32[] u32[&]" + ROOM,
    "planner_boundary": "u32 u32 u32[] i32[&] u32[&] u32[&]" + ROOM,
    "planner_matrix_market": "u32 u32 u32[] u8[&]" + ROOM,
    "planner_corners": "u32 u32 u32[&]",
    "planner_corners_stepping": "u32 u32 u32[&]",
    "planner_write_mesh": "u32 u32[] u32[] u32[] u8[&]" + ROOM,
    "planner_read_mesh": "u8[] u32[&] u32[&] u32[&]" + ROOM + " u32&",
    "planner_child_of": "u32 u32[] f64[] i32[] f64& i32&",
    "planner_birth_of": "u32 u32 u32[] u32[] f64[] u32& u32& f64&",
}
# The functions that tell how long the lists of a call must be: what each takes, and how many lengths it writes.
NEEDS: Dict[str, int] = {
    "planner_need_cell_words": 5, "planner_need_triangulate_ordered": 6, "planner_need_edge_lengths_sq": 5, "planner_need_geojson": 5, "planner_need_chained_classes": 2,
    "planner_need_cells": 5, "planner_need_edges": 5, "planner_need_facets": 6, "planner_need_border": 5, "planner_need_orientation": 5, "planner_need_orient_by": 4,
    "planner_need_ordering": 5, "planner_need_induced_orientation": 4, "planner_need_incidence": 6, "planner_need_faces": 5, "planner_need_boundary": 7,
    "planner_need_matrix_market": 5, "planner_need_drop_cells": 6, "planner_need_refine": 18, "planner_need_corners": 1, "planner_need_write_mesh": 5,
    "planner_need_read_mesh": 7,
}
TAKES = {"planner_need_refine": "u32 u32 size", "planner_need_corners": "u32 u32", "planner_need_write_mesh": "u32 size size size", "planner_need_read_mesh": "size"}
SIGNATURES.update((name, TAKES.get(name, "u32 size") + " size&") for name in NEEDS)
DTYPES = {"u8": np.uint8, "u32": np.uint32, "i32": np.int32, "f64": np.float64}
NUMBERS = {"size": ctypes.c_size_t, "u32": ctypes.c_uint32, "i32": ctypes.c_int32, "f64": ctypes.c_double}


def places() -> List[str]:
    """Where the shared library is looked for, first to last."""
    here = Path(__file__).resolve().parent
    named = [os.environ["PAMPILUSSA_LIBRARY"]] if "PAMPILUSSA_LIBRARY" in os.environ else []
    built = here.parents[2] / "target" / "staticlib" / NAME if len(here.parents) > 2 else here / NAME
    system = ctypes.util.find_library("planner")
    return named + [str(here / NAME), str(built)] + ([system] if system else [])


def loaded() -> ctypes.CDLL:
    """The shared library, loaded."""
    tried = places()
    for path in tried:
        if os.path.exists(path) or os.sep not in path:
            return ctypes.CDLL(path)
    raise ImportError("%s is not at %s; build it by tools/shared, or set PAMPILUSSA_LIBRARY to its path" % (NAME, " or ".join(tried)))


_library: Any = None
_functions: Dict[str, Callable[..., int]] = {}


def has(name: str) -> bool:
    """Whether the library that is found has this function; an older one may lack the newest."""
    try:
        function(name)
    except AttributeError:
        return False
    return True


def function(name: str) -> Callable[..., int]:
    """The library's function of that name, with its types."""
    global _library
    if name not in _functions:
        if _library is None:
            _library = loaded()
        found = getattr(_library, name)
        types: List[Any] = []
        for part in SIGNATURES[name].split():
            if part.endswith("[]") or part.endswith("[&]"):
                types += [ctypes.c_void_p, ctypes.c_size_t]
            else:
                types.append(ctypes.c_void_p if part.endswith("&") else NUMBERS[part])
        found.argtypes, found.restype = types, None if name in NEEDS else ctypes.c_uint64
        _functions[name] = found
    return _functions[name]


def call(name: str, *given: Argument, **about: Any) -> int:
    """The answer of a call, the lower half of what it returns; a refusal is raised, with `about` for its sentence."""
    passed: List[Any] = []
    for kind, value in zip(SIGNATURES[name].split(), given):
        if isinstance(value, np.ndarray):
            if value.dtype != DTYPES[kind.rstrip("[&]")] or not value.flags.c_contiguous:
                raise TypeError("%s: a list of %s is %s" % (name, kind, value.dtype))
            passed += [value.ctypes.data] if kind.endswith("&") and "[" not in kind else [value.ctypes.data, value.size]
        else:
            passed.append(value)
    answer = function(name)(*passed)
    if answer >> 32:
        raise Refused(answer >> 32, answer & 0xFFFFFFFF, **about)
    return answer & 0xFFFFFFFF


def needed(call_name: str, *given: int) -> List[int]:
    """How long the lists of that call must be, in the order of its parameters; given are, for most calls, the dimension and the number of corners of the words."""
    name = "planner_need_" + call_name
    lengths = np.zeros(NEEDS[name], np.uintp)
    function(name)(*given, lengths.ctypes.data)
    return [int(x) for x in lengths]


def room(need: List[int]) -> List[np.ndarray]:
    """Working lists of these lengths; their values do not matter."""
    return [np.empty(n, np.uint32) for n in need]


def whole(value: Any, what: str) -> int:
    """A whole number of 32 bits, or ValueError."""
    number = int(value)
    if number != value or not 0 <= number < 2 ** 32:
        raise ValueError("%s is %r; it must be a whole number from 0 to 4,294,967,295" % (what, value))
    return number


def numbers(values: Any, what: str) -> np.ndarray:
    """A flat list of whole numbers of 32 bits, not copied where it is one already."""
    array = np.asarray(values)
    if array.dtype == np.uint32:
        return np.ascontiguousarray(array).reshape(-1)
    if array.size == 0:
        return np.empty(0, np.uint32)
    if array.dtype.kind not in "iu":
        raise TypeError("%s must be whole numbers, and are %s" % (what, array.dtype))
    if array.min() < 0 or array.max() >= 2 ** 32:
        raise ValueError("%s must be from 0 to 4,294,967,295" % what)
    return np.ascontiguousarray(array, np.uint32).reshape(-1)
