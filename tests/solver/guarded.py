"""Memory that a C function is called with, so that an access outside of it ends the process."""
import ctypes
import mmap

SIDES = ["before", "after"]


class Guarded:
    """Some pages between two that can be neither read nor written."""

    def __init__(self, size):
        self.inside = -(-size // mmap.PAGESIZE) * mmap.PAGESIZE
        self.memory = mmap.mmap(-1, self.inside + 2 * mmap.PAGESIZE)
        self.address = ctypes.addressof(ctypes.c_char.from_buffer(self.memory))
        self.protect(0, mmap.PAGESIZE, 0)
        self.protect(mmap.PAGESIZE + self.inside, mmap.PAGESIZE, 0)

    def protect(self, start, length, rights):
        mprotect = ctypes.CDLL(None, use_errno=True).mprotect
        if mprotect(ctypes.c_void_p(self.address + start), ctypes.c_size_t(length), rights) != 0:
            raise OSError(ctypes.get_errno(), "mprotect")

    def start_of(self, length, side):
        """Where some bytes begin that lie flush against the page before or after."""
        return mmap.PAGESIZE + (self.inside - length if side == "after" else 0)

    def put(self, content, side):
        """Writes bytes there, and gives their address."""
        start = self.start_of(len(content), side)
        self.memory[start : start + len(content)] = content
        return self.address + start

    def put_to_read(self, content, side):
        """The same, and leaves the pages so that they can only be read."""
        self.protect(mmap.PAGESIZE, self.inside, mmap.PROT_READ | mmap.PROT_WRITE)
        address = self.put(content, side)
        self.protect(mmap.PAGESIZE, self.inside, mmap.PROT_READ)
        return address

    def content(self, length, side):
        start = self.start_of(length, side)
        return self.memory[start : start + length]
