"""declared.py HEADER FILE...: the raw declarations of the Rust crate against the C header: the same functions with the same types in the same order. The last line is
'declared N functions, 0 differences'."""
import re
import sys

C_TYPES = {"uint8_t": "u8", "uint32_t": "u32", "uint64_t": "u64", "int32_t": "i32", "double": "f64", "size_t": "usize"}


def of_header(text):
    """To each function of the header its types, as Rust writes them."""
    found = {}
    text = re.sub(r"/\*.*?\*/", " ", text, flags=re.S)
    for name, given in re.findall(r"(?:uint64_t|void)\s+(planner_\w+)\s*\(([^)]*)\)\s*;", text):
        types = []
        for piece in (" ".join(x.split()) for x in given.split(",")):
            kind = C_TYPES[piece.replace("const ", "").split()[0].rstrip("*")]
            pointer = "*" in piece or "[" in piece
            types.append(("*const " if piece.startswith("const") else "*mut ") + kind if pointer else kind)
        found[name] = types
    return found


def of_rust(text):
    """The same from the Rust's declarations."""
    return {name: [x.split(":")[1].strip() for x in given.split(",") if x.strip()] for name, given in re.findall(r"\bfn (planner_\w+)\s*\(([^)]*)\)(?:\s*->\s*u64)?;", text, flags=re.S)}


def main():
    header, rust = of_header(open(sys.argv[1]).read()), of_rust("\n".join(open(path).read() for path in sys.argv[2:]))
    wrong = 0
    for name, types in sorted(rust.items()):
        if header.get(name) != types:
            wrong += 1
            print("DIFFERENCE %s: the Rust has %s, the header %s" % (name, types, header.get(name)))
    for name in sorted(set(header) - set(rust)):
        print("not in the Rust: " + name)
    print("declared %d functions, %d differences" % (len(rust), wrong))
    sys.exit(1 if wrong or not rust else 0)


if __name__ == "__main__":
    main()
