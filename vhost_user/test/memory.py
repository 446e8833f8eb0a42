# SPDX-License-Identifier: Apache-2.0
"""A guest's memory, for the tests of vhost-user-rpmb: in two regions, each a file of its own, at user addresses that
have nothing to do with the guest's.
"""
import ctypes
import mmap
import os
import struct

FAR = 5 << 32


class Region:
    """A part of guest memory: a file whose first bytes are none of it."""

    def __init__(self, guest, size, user, offset):
        self.guest, self.size, self.user, self.offset = guest, size, user, offset
        self.file = os.memfd_create("guest")
        os.ftruncate(self.file, size + offset)
        self.map = mmap.mmap(self.file, size + offset)

    def words(self):
        return struct.pack("<QQQQ", self.guest, self.size, self.user, self.offset)


class Memory:
    """Of a guest's `size` bytes the first `cut` lie in one region, and the others behind or far above it."""

    def __init__(self, size, cut, is_far=False):
        self.size, self.cut, self.gap = size, cut, FAR if is_far else 0
        self.regions = [Region(0, cut, 0x7F5500000000, 0x3000), Region(cut + self.gap, size - cut, 0x7F1100400000, 0)]

    def address(self, at):
        """That by which the device finds a byte."""
        return at if at < self.cut else at + self.gap

    def user(self, at):
        it = self.regions[at >= self.cut]
        return it.user + self.address(at) - it.guest

    def pieces(self, at, count):
        while count:
            it = self.regions[at >= self.cut]
            start = it.offset + self.address(at) - it.guest
            part = min(count, it.size + it.offset - start)
            assert part > 0, "it lies in the guest's memory"
            yield it.map, start, part
            at, count = at + part, count - part

    def put(self, at, content):
        for where, start, part in self.pieces(at, len(content)):
            if part in (2, 4, 8):  # (a slice is copied in any pieces, and an index has to be seen whole)
                kind = {2: ctypes.c_uint16, 4: ctypes.c_uint32, 8: ctypes.c_uint64}[part]
                kind.from_buffer(where, start).value = int.from_bytes(content[:part], "little")
            else:
                where[start:start + part] = content[:part]
            content = content[part:]

    def get(self, at, count):
        return b"".join(where[start:start + part] for where, start, part in self.pieces(at, count))

    def number(self, at, count):
        return int.from_bytes(self.get(at, count), "little")

    def close(self):
        for it in self.regions:
            os.close(it.file)
