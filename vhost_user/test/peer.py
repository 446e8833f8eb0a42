# SPDX-License-Identifier: Apache-2.0
"""A vhost-user front end, and the driver of a guest behind it, for the tests of vhost-user-rpmb.

The driver is that of `rpmbd run`: its areas stand where docs/FORMATS.md says ("The driver's layout").
"""
import array
import atexit
import os
import select
import socket
import struct
import subprocess
import time

from memory import Memory

(GET_FEATURES, SET_FEATURES, SET_OWNER, RESET_OWNER, SET_MEM_TABLE) = (1, 2, 3, 4, 5)
(SET_VRING_NUM, SET_VRING_ADDR, SET_VRING_BASE, GET_VRING_BASE) = (8, 9, 10, 11)
(SET_VRING_KICK, SET_VRING_CALL, SET_VRING_ERR, GET_PROTOCOL, SET_PROTOCOL) = (12, 13, 14, 15, 16)
(GET_QUEUE_NUM, SET_VRING_ENABLE, SET_BACKEND_REQ_FD, GET_CONFIG, SET_CONFIG) = (17, 18, 21, 24, 25)
(RESET_DEVICE, GET_MAX_MEM_SLOTS, ADD_MEM_REG, REM_MEM_REG, SET_STATUS, GET_STATUS) = (34, 36, 37, 38, 39, 40)
INDIRECT_DESC, EVENT_IDX, PROTOCOL = 1 << 28, 1 << 29, 1 << 30
VERSION_1, PACKED, IN_ORDER = 1 << 32, 1 << 34, 1 << 35
NEXT, WRITE, INDIRECT, AVAIL, USED = 1, 2, 4, 128, 32768
READABLE, WRITABLE = 8704, 8192
PAIR = READABLE + WRITABLE
SECONDS = 20


class Gone(Exception):
    """The back end closed the connection."""


class Socket:
    """The connection, and what is said over it."""

    def __init__(self, path):
        self.socket = socket.socket(socket.AF_UNIX, socket.SOCK_STREAM)
        self.socket.settimeout(SECONDS)
        self.socket.connect(path)
        self.has_ack, self.sent = False, 0

    def send(self, request, payload=b"", fds=(), flags=1, size=None):
        self.sent += 1
        head = struct.pack("<III", request, flags, len(payload) if size is None else size)
        control = [(socket.SOL_SOCKET, socket.SCM_RIGHTS, array.array("i", fds))] if fds else []
        try:
            self.socket.sendmsg([head + payload], control)
        except (BrokenPipeError, ConnectionResetError):
            raise Gone from None

    def get(self, count):
        got = b""
        while len(got) < count:
            try:
                more = self.socket.recv(count - len(got))
            except ConnectionResetError:
                more = b""
            if not more:
                raise Gone
            got += more
        return got

    def reply(self):
        request, flags, size = struct.unpack("<III", self.get(12))
        return request, flags, self.get(size)

    def ask(self, request, payload=b""):
        self.send(request, payload)
        got, flags, answer = self.reply()
        assert (got, flags) == (request, 5), (got, flags)
        return answer

    def number(self, request):
        return struct.unpack("<Q", self.ask(request))[0]

    def tell(self, request, payload=b"", fds=()):
        """A request without a reply: 0, or what its acknowledgement says."""
        self.send(request, payload, fds, 9 if self.has_ack else 1)
        return struct.unpack("<Q", self.reply()[2])[0] if self.has_ack else 0

    def must(self, request, payload=b"", fds=()):
        assert self.tell(request, payload, fds) == 0, f"request {request} was refused"


def u64(number):
    return struct.pack("<Q", number)


def state(number, index=0):
    return struct.pack("<II", index, number)


def aligned(at):
    return (at + 15) // 16 * 16


class Driver:
    """A guest's driver: it offers one chain and takes it back."""

    def __init__(self, table, path, is_far=False, cut=None, waits=False):
        self.size, self.memory_size = table.get("queue", 16), table.get("memory", 1 << 20)
        self.is_packed, self.has_tables = table.get("ring") == "packed", table.get("indirect", False)
        self.has_events, self.in_order = table.get("event_idx", True), table.get("in_order", False)
        self.waits = waits
        self.config = bytes([table["capacity"], table.get("max_wr_cnt", 16), table.get("max_rd_cnt", 16)])
        self.lay_out()
        # (a cut is a place of the rings and tables, or of all memory: no field crosses it)
        self.memory = Memory(self.memory_size, self.buffers if is_far or cut is None else self.place_of(cut), is_far)
        self.kick, self.call, self.error = (os.eventfd(0, os.EFD_NONBLOCK) for _ in range(3))
        self.negotiate(path)
        self.set_up()

    def lay_out(self):
        size = self.size
        self.driver_area = aligned(16 * size)
        self.device_area = aligned(self.driver_area + (4 if self.is_packed else 6 + 2 * size))
        self.tables = aligned(self.device_area + (4 if self.is_packed else 6 + 8 * size))
        self.buffers = aligned(self.tables + 32 * size)

    def place_of(self, cut):
        end = self.buffers if cut < 0.5 else self.memory_size - 64
        return 16 + int(end * (2 * cut % 1)) // 8 * 8

    def features(self):
        flags = (self.is_packed, PACKED), (self.has_tables, INDIRECT_DESC), (self.has_events, EVENT_IDX)
        return VERSION_1 | sum(bit for has, bit in (*flags, (self.in_order, IN_ORDER)) if has)

    def negotiate(self, path):
        link = self.link = Socket(path)
        self.requests, theirs = socket.socketpair()
        link.must(SET_OWNER)
        offered = link.number(GET_FEATURES)
        protocol = link.number(GET_PROTOCOL)
        assert not self.features() & ~offered and offered & PROTOCOL and protocol & 1 << 3
        link.must(SET_PROTOCOL, u64(protocol))
        link.has_ack = True
        assert link.number(GET_QUEUE_NUM) == 1
        link.must(SET_BACKEND_REQ_FD, b"", [theirs.fileno()])
        theirs.close()
        link.must(SET_FEATURES, u64(self.features() | PROTOCOL))
        config = link.ask(GET_CONFIG, struct.pack("<III", 0, 3, 0) + bytes(3))
        assert config[12:] == self.config, config
        regions = self.memory.regions
        if self.size % 3:
            table = struct.pack("<II", len(regions), 0) + b"".join(it.words() for it in regions)
            link.must(SET_MEM_TABLE, table, [it.file for it in regions])
        else:
            for it in regions:
                link.must(ADD_MEM_REG, bytes(8) + it.words(), [it.file])

    def set_up(self, base=0):
        """The queue begins, in areas that are zeros; a split one as if so many chains were used before."""
        self.offered = self.used = 0 if self.is_packed else base
        self.next = 0
        self.owner, self.flights, self.stuck = [None] * self.size, {}, None
        for at, end in ((0, self.driver_area), (self.driver_area, self.device_area), (self.device_area, self.tables)):
            self.memory.put(at, bytes(end - at))
        for at in () if self.is_packed else (self.driver_area + 2, self.device_area + 2):
            self.memory.put(at, struct.pack("<H", base))
        self.wish()
        self.start(0x80008000 if self.is_packed and not base else base)
        self.hear()

    def hear(self):
        """A back end that takes a queue calls for nothing: another one may have had it before."""
        if self.waits and select.select([self.call], [], [], 2)[0]:
            os.eventfd_read(self.call)

    def start(self, base):
        link, user = self.link, self.memory.user
        link.must(SET_VRING_NUM, state(self.size))
        link.must(SET_VRING_BASE, state(base))
        areas = user(0), user(self.device_area), user(self.driver_area)
        link.must(SET_VRING_ADDR, struct.pack("<IIQQQQ", 0, 0, *areas, 0))
        link.must(SET_VRING_ERR, u64(0), [self.error])
        link.must(SET_VRING_CALL, u64(0), [self.call])
        link.must(SET_VRING_KICK, u64(0), [self.kick])
        link.must(SET_VRING_ENABLE, state(1))

    def reset(self, base=0):
        self.link.must(RESET_DEVICE)
        self.set_up(base)

    def base(self):
        """Where the ring stands, behind all that is used, as SET_VRING_BASE says it."""
        if not self.is_packed:
            return self.memory.number(self.device_area + 2, 2)
        at = self.used
        while self.is_used(at):
            at = (at + self.flights[self.memory.number(self.slot(at)[0] + 12, 2)][1]) % (2 * self.size)
        return (at % self.size | (1 - at // self.size) << 15) * 0x10001

    def reconnect(self, path):
        """Another back end goes on with the ring as it stands. Gone or OSError: none is there."""
        self.link.socket.close()
        self.requests.close()
        self.negotiate(path)
        self.start(self.base())

    def wish(self):
        """With EVENT_IDX: an interrupt is wanted at the next used place."""
        if self.waits and self.has_events and self.is_packed:
            place = self.used % self.size | (1 - self.used // self.size % 2) << 15
            self.memory.put(self.driver_area, struct.pack("<HH", place, 2))
        elif self.waits and self.has_events:
            self.memory.put(self.driver_area + 4 + 2 * self.size, struct.pack("<H", self.used % 65536))

    # how it offers a chain

    def slot(self, place):
        """Of a packed ring: where a place stands, and the flags that offer it."""
        return 16 * (place % self.size), USED if place // self.size % 2 else AVAIL

    def describe(self, to, at, count, flags, other):
        where, marks = to
        words = (other, flags | marks) if self.is_packed else (flags | marks, other)
        it = struct.pack("<QIHH", self.memory.address(at), count, *words)
        self.memory.put(where, it[:8])
        self.memory.put(where + 8, it[8:])

    def write_parts(self, id_, last, readable, writable, first, second):
        pair, in_ring = self.buffers + PAIR * id_, not self.has_tables
        other = id_ if self.is_packed and in_ring else 0
        next_ = other if self.is_packed else last if in_ring else 1
        if writable:
            self.describe(second if readable else first, pair + READABLE, writable, WRITE, other)
        if readable and writable:
            self.describe(first, pair, readable, 0 if self.is_packed and self.has_tables else NEXT, next_)
        elif readable:
            self.describe(first, pair, readable, 0, other)

    def write_chain(self, id_, last, readable, writable, first, second):
        if not self.has_tables:
            return self.write_parts(id_, last, readable, writable, first, second)
        table = self.tables + 32 * id_
        self.write_parts(id_, last, readable, writable, (table, 0), (table + 16, 0))
        self.describe(first, table, 32 if readable and writable else 16, INDIRECT, id_ if self.is_packed else 0)

    def choose(self, is_two):
        is_next = self.in_order and not self.is_packed
        free = (it for it in range(self.size) if self.owner[it] is None)
        id_ = last = self.next if is_next else next(free)
        if is_two and not self.is_packed:
            last = (id_ + 1) % self.size if is_next else next(free)
        self.owner[id_] = self.owner[last] = id_
        self.next = (last + 1) % self.size
        return id_, last

    def offer(self, readable, writable):
        is_two = not self.has_tables and len(readable) > 0 and writable > 0
        id_, last = self.choose(is_two)
        places = 2 if is_two and self.is_packed else 1
        self.flights[id_] = last, places, writable, self.offered
        self.memory.put(self.buffers + PAIR * id_, readable)
        if self.is_packed:
            self.write_chain(id_, last, len(readable), writable, self.slot(self.offered), self.slot(self.offered + 1))
            self.offered = (self.offered + places) % (2 * self.size)
        else:
            index = self.memory.number(self.driver_area + 2, 2)
            self.write_chain(id_, last, len(readable), writable, (16 * id_, 0), (16 * last, 0))
            self.memory.put(self.driver_area + 4 + 2 * (index % self.size), struct.pack("<H", id_))
            self.memory.put(self.driver_area + 2, struct.pack("<H", (index + 1) % 65536))
            self.offered = (self.offered + 1) % 65536
        os.eventfd_write(self.kick, 1)

    # how it takes one back

    def is_used(self, at=None):
        at = self.used if at is None else at
        if self.is_packed:
            flags = self.memory.number(self.slot(at)[0] + 14, 2) & (AVAIL | USED)
            return flags == (AVAIL | USED if at < self.size else 0)
        return self.memory.number(self.device_area + 2, 2) != at

    def has_stopped(self):
        return self.link.number(GET_STATUS) & 64

    def wait(self):
        """Until a chain came back, or the device stopped, or has nothing more to give. Whether it stopped."""
        if self.waits and select.select([self.call, self.error], [], [], 2)[0]:
            assert self.is_used() or self.has_stopped(), "a call for nothing"
        end = time.monotonic() + 0.3
        while not self.is_used() and time.monotonic() < end and not self.has_stopped():
            time.sleep(0.0002)
        if self.has_stopped():
            assert os.eventfd_read(self.error) and self.requests.recv(12) == struct.pack("<III", 2, 1, 0)
            return True
        if not self.is_used():  # (its answer comes once the device has given all that it has)
            base, = struct.unpack("<4xI", self.link.ask(GET_VRING_BASE, state(0)))
            self.link.must(SET_VRING_BASE, state(base))
            self.link.must(SET_VRING_KICK, u64(0), [self.kick])
            if base in (0, 0x80008000):
                self.hear()
        elif self.waits:
            assert select.select([self.call], [], [], SECONDS)[0] and os.eventfd_read(self.call), "no call came"
        return False

    def reap(self):
        """Why no chain came back, or the bytes of its reply."""
        return ("needs-reset", None) if self.wait() else self.take()

    def take(self):
        """The same of what is there by now."""
        if not self.is_used():
            return "no-answer", None
        at = self.slot(self.used)[0] + 8 if self.is_packed else self.device_area + 4 + 8 * (self.used % self.size)
        first, second = struct.unpack("<II", self.memory.get(at, 8))
        id_, count = (second & 65535, first) if self.is_packed else (first, second)
        if id_ not in self.flights or self.owner[id_] != id_:
            return "bad-used", None
        last, places, writable, place = self.flights.pop(id_)
        if count > writable or (self.in_order and place != self.used):
            return "bad-used", None
        self.owner[id_] = self.owner[last] = None
        self.used = (self.used + places) % (2 * self.size if self.is_packed else 65536)
        self.wish()
        return None, self.memory.get(self.buffers + PAIR * id_ + READABLE, count)

    def exchange(self, readable, writable):
        """What a `chain` line of a run prints, without its guest."""
        if not self.stuck:
            self.offer(readable, writable)
            self.stuck, reply = self.reap()
        return (self.stuck, None) if self.stuck else (None, reply)

    def close(self):
        self.link.socket.close()
        self.requests.close()
        self.memory.close()
        for it in (self.kick, self.call, self.error):
            os.close(it)


class Daemon:
    """The back end over an image, with a socket for each guest."""

    def __init__(self, program, image, tables, folder, env=None):
        self.paths = [f"{folder}/guest{i}" for i in range(len(tables))]
        words = [program, "--image", image, "--format"]
        for path, it in zip(self.paths, tables):
            words += ["--capacity", str(it["capacity"]), "--max-write", str(it.get("max_wr_cnt", 16))]
            words += ["--max-read", str(it.get("max_rd_cnt", 16)), "--socket-path", path]
        how = {"stdout": subprocess.DEVNULL, "stderr": subprocess.PIPE, "env": {**os.environ, **(env or {})}}
        self.process = subprocess.Popen(words, **how)
        atexit.register(self.process.kill)  # (a test that fails leaves none)
        end = time.monotonic() + SECONDS
        while not self.listens() and self.process.poll() is None and time.monotonic() < end:
            time.sleep(0.005)

    def listens(self):
        """Whether the last of its sockets is there (one that an earlier run left doesn't listen)."""
        with socket.socket(socket.AF_UNIX) as it:
            return it.connect_ex(self.paths[-1]) == 0

    def end(self):
        """By TERM. What it said on standard error; AssertionError where it didn't end well."""
        self.process.terminate()
        try:
            said = self.process.communicate(timeout=SECONDS)[1].decode(errors="replace")
        except subprocess.TimeoutExpired:
            self.process.kill()
            self.process.communicate()
            raise AssertionError("the daemon doesn't end by TERM") from None
        assert self.process.returncode == 0, f"the daemon ended with {self.process.returncode}\n{said}"
        return said
