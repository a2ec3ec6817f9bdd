"""The memory of a program: as counted by a library that is loaded before the C library (memory.c), and as the system reports
it."""
import mmap
import os
import struct

# The words of the page that the library shares: five counts, and then the address and the octets of each large block.
COUNTS, LARGE = 5, 250
SIZE = 8 * (COUNTS + 2 * LARGE)
PAGE = os.sysconf("SC_PAGE_SIZE")


class Memory:
    """The counts of a program that is started with `environment`."""

    def __init__(self, tools, path):
        with open(path, "wb") as it:
            it.write(bytes(SIZE))
        with open(path, "r+b") as it:
            self.words = mmap.mmap(it.fileno(), SIZE)
        self.environment = {"MEMORY": path, "LD_PRELOAD": tools.built("memory.so")}

    def counts(self):
        """Returns the octets and blocks that are held, the most octets that were held at once, the requests, and the large
        blocks that weren't listed."""
        return struct.unpack_from("=5q", self.words)

    def large(self):
        """Returns the places of present and former large blocks, as addresses and octets; overlapping places are one."""
        words = struct.unpack_from(f"={2 * LARGE}q", self.words, 8 * COUNTS)
        found = []
        for address, octets in sorted(it for it in zip(words[::2], words[1::2]) if it[0] and it[1]):
            end = address + octets
            if found and address < sum(found[-1]):
                address, before = found.pop()
                end = max(end, address + before)
            found.append((address, end - address))
        return found


def resident_octets(process, blocks):
    """Returns the number of octets of these blocks that have memory, because they were touched."""
    found = 0
    with open(f"/proc/{process}/pagemap", "rb") as it:
        for address, octets in blocks:
            first, last = address // PAGE, (address + octets - 1) // PAGE
            it.seek(8 * first)
            entries = it.read(8 * (last + 1 - first))
            # The highest bit of an entry says that its page is there.
            found += PAGE * sum(entry >> 63 for (entry,) in struct.iter_unpack("=Q", entries))
    return found
