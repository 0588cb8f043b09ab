"""The planner's C functions, called from Python on lists that are fenced: an access past either end is a segmentation fault."""
import ctypes as C
import mmap
import struct
from array import array

PAGE = 4096
_libc = C.CDLL(None)
_libc.mprotect.argtypes = [C.c_void_p, C.c_size_t, C.c_int]

CODES = {"u8": ("B", 1), "u32": ("I", 4), "i32": ("i", 4), "f64": ("Q", 8)}   # a float is handled as its bit pattern


class Fence:
    """Memory between two pages that nobody may touch, lent again and again; a list ends where the second page begins."""

    def __init__(self, size):
        self.size = -(-max(size, 1) // PAGE) * PAGE
        self.map = mmap.mmap(-1, self.size + 2 * PAGE)
        self.base = C.addressof(C.c_char.from_buffer(self.map))
        _libc.mprotect(self.base, PAGE, 0)
        _libc.mprotect(self.base + PAGE + self.size, PAGE, 0)
        self.end = PAGE + self.size

    def view(self, nbytes):
        return memoryview(self.map)[self.end - nbytes:self.end]

    def address(self, nbytes):
        return self.base + self.end - nbytes


class Port:
    def __init__(self, path, record=None):
        self.lib = C.CDLL(path)
        self.free = {}
        self.record = open(record, "wb") if record else None

    def write_down(self, name, numbers, lists, fixed, answer, after):
        """One call for `lent.c`: its name, its whole numbers and floats, and each list before and after."""
        whole = [x for x in numbers if not isinstance(x, float)]
        floats = [x for x in numbers if isinstance(x, float)]
        parts = list(lists) + list(fixed)
        f = self.record
        f.write(struct.pack("<64sQIIII", name.encode(), answer, len(whole), len(floats), len(lists), len(fixed)))
        f.write(struct.pack("<%dQ" % len(whole), *whole) + struct.pack("<%dd" % len(floats), *floats))
        for (kind, before), now in zip(parts, after):
            code, width = CODES[kind]
            f.write(struct.pack("<II", width, len(before)) + array(code, before).tobytes() + array(code, now).tobytes())

    def has(self, name):
        return hasattr(self.lib, name)

    def _fence(self, nbytes):
        k = max(nbytes, 1).bit_length()
        kept = self.free.setdefault(k, [])
        return (kept.pop() if kept else Fence(1 << k)), k

    def pointers(self, address, length):
        return [C.c_void_p(address), C.c_size_t(length)]

    def name(self, name):
        return name

    def call(self, name, numbers, lists, fixed=()):
        """Calls NAME on numbers (python ints as u32, floats as f64), then lists of (kind, values), then arrays of fixed length of (kind, values).
        Gives the 64-bit answer and what every list and array holds afterwards."""
        args, lent = [], []
        for x in numbers:
            args.append(C.c_double(x) if isinstance(x, float) else C.c_uint32(x))
        for part, is_list in ((lists, True), (fixed, False)):
            for kind, values in part:
                code, width = CODES[kind]
                nbytes = width * len(values)
                fence, k = self._fence(nbytes)
                view = fence.view(nbytes).cast(code) if nbytes else None
                if view is not None:
                    view[:] = array(code, values)
                lent.append((view, fence, k))
                args += self.pointers(fence.address(nbytes), len(values)) if is_list else [C.c_void_p(fence.address(nbytes))]
        f = getattr(self.lib, self.name(name))
        f.restype = C.c_uint64
        answer = f(*args)
        after = []
        for view, fence, k in lent:
            after.append(view.tolist() if view is not None else [])
            if view is not None:
                view.release()
            self.free[k].append(fence)
        if self.record:
            self.write_down(name, numbers, lists, fixed, answer, after)
        return answer, after
