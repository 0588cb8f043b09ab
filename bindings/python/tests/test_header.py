"""What the package declares against include/planner.h: names, types, refusal names and limits."""
import re
from pathlib import Path

import pampilussa._library as library
import pampilussa.refused as refused
import pytest

HEADER = Path(__file__).resolve().parents[3] / "include" / "planner.h"
TYPES = {"uint32_t": "u32", "int32_t": "i32", "double": "f64", "uint8_t": "u8", "size_t": "size"}


def declared():
    """To each function of the header what it takes, written as SIGNATURES is."""
    text = re.sub(r"/\*.*?\*/", " ", HEADER.read_text(), flags=re.S)
    found = {}
    for name, given in re.findall(r"(?:uint64_t|void)\s+(planner_\w+)\(([^)]*)\);", text):
        parts, pieces = [], [" ".join(x.split()) for x in given.split(",")]
        while pieces:
            piece = pieces.pop(0)
            kind = TYPES[re.sub(r"const ", "", piece).split()[0].rstrip("*")]
            if "*" in piece:
                assert re.match(r"size_t \w+$", pieces.pop(0))
                parts.append(kind + ("[]" if piece.startswith("const") else "[&]"))
            else:
                parts.append(kind + ("&" if "[" in piece else ""))
        found[name] = " ".join(parts)
    return found


@pytest.mark.skipif(not HEADER.exists(), reason="the header is not beside the package")
def test_signatures():
    header = declared()
    both = set(header) & set(library.SIGNATURES)
    assert {name: header[name] for name in both} == {name: library.SIGNATURES[name] for name in both}
    assert {name for name in library.SIGNATURES if library.has(name)} <= set(header)
    print("not in the package:", sorted(set(header) - set(library.SIGNATURES)))


@pytest.mark.skipif(not HEADER.exists(), reason="the header is not beside the package")
def test_refusal_names():
    names = {int(number): name for name, number in re.findall(r"PLANNER_(\w+) = (\d+)", HEADER.read_text()) if number != "0"}
    assert {number: refused.NAMES.get(number) for number in names} == names
    assert set(refused.SENTENCES) == set(refused.NAMES)
