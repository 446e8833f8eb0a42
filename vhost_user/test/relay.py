# SPDX-License-Identifier: Apache-2.0
"""Stands between a front end that never connects again (User Mode Linux) and vhost-user-rpmb, which is ended and
started anew: passes messages and file descriptors, notes what was set, and sets it up again, as QEMU's `reconnect`
does.
"""
import array
import mmap
import os
import select
import socket
import struct
import threading
import time

from peer import (
    GET_FEATURES, GET_VRING_BASE, PACKED, SECONDS, SET_BACKEND_REQ_FD, SET_FEATURES, SET_MEM_TABLE, SET_OWNER,
    SET_PROTOCOL, SET_VRING_ADDR, SET_VRING_BASE, SET_VRING_CALL, SET_VRING_ENABLE, SET_VRING_ERR, SET_VRING_KICK,
    SET_VRING_NUM, Gone, Socket, state,
)

ORDER = (SET_OWNER, SET_PROTOCOL, SET_BACKEND_REQ_FD, SET_FEATURES, SET_MEM_TABLE, SET_VRING_NUM, SET_VRING_BASE,
         SET_VRING_ADDR, SET_VRING_ERR, SET_VRING_CALL, SET_VRING_KICK, SET_VRING_ENABLE)
GETS, NEED_REPLY = (1, 11, 15, 17, 24, 36, 40), 8


class Front(Socket):
    """The front end's connection, with the file descriptors of its messages."""

    def __init__(self, connection):
        self.socket, self.sent = connection, 0
        self.socket.settimeout(SECONDS)

    def message(self):
        fds = array.array("i")
        try:
            head, control, _, _ = self.socket.recvmsg(12, socket.CMSG_SPACE(64))
        except ConnectionResetError:
            head, control = b"", []
        if not head:
            raise Gone
        for _, _, its in control:
            fds.frombytes(its[:len(its) - len(its) % fds.itemsize])
        request, flags, size = struct.unpack("<III", head + self.get(12 - len(head)))
        return request, flags, self.get(size), list(fds)


class Relay(threading.Thread):
    """For one front end, at the socket `path`. `may_pack`: its ring may be packed; then each restart is announced by
    `pause`, since nothing else knows where that ring stands."""

    def __init__(self, path, back_path, may_pack=False):
        super().__init__(daemon=True)
        self.back_path, self.may_pack, self.lock = back_path, may_pack, threading.Lock()
        self.said, self.base, self.fault, self.restored = {}, None, None, 0
        self.listener = socket.socket(socket.AF_UNIX)
        self.listener.bind(path)
        self.listener.listen()
        self.front = self.back = None
        self.start()

    def run(self):
        try:
            self.front, self.back = Front(self.listener.accept()[0]), self.connect()
            while True:
                ready = select.select([self.front.socket, self.back.socket], [], [])[0]
                with self.lock:
                    if self.back.socket in ready:
                        assert not self.back.socket.recv(1), "a message that nobody asked for"
                        self.restore()
                    elif self.front.socket in ready:
                        self.hand_on(*self.front.message())
        except Gone:
            self.back.socket.close()  # (the guest halted)
        except BaseException as fault:
            self.fault = repr(fault)
            self.front.socket.close()

    def connect(self):
        end = time.monotonic() + SECONDS
        while True:
            try:
                return Socket(self.back_path)
            except OSError:
                assert time.monotonic() < end, "no program came"
                time.sleep(0.002)

    def has_ack(self):
        return SET_PROTOCOL in self.said and struct.unpack("<Q", self.said[SET_PROTOCOL][0])[0] & 1 << 3

    def hand_on(self, request, flags, payload, fds):
        if request in ORDER:
            for it in self.said.get(request, (b"", []))[1]:
                os.close(it)
            self.said[request] = payload, fds
        is_answered = request in GETS or flags & NEED_REPLY and self.has_ack()
        while True:
            try:
                self.back.send(request, payload, fds, flags)
                reply = self.back.reply() if is_answered else None
                break
            except Gone:
                self.restore()
        if is_answered:
            request, flags, payload = reply
            if request == GET_FEATURES and not self.may_pack:
                payload = struct.pack("<Q", struct.unpack("<Q", payload)[0] & ~PACKED)
            self.front.send(request, payload, (), flags)

    def restore(self):
        """The next program gets all that was set, and the place at which the ring stands."""
        end = time.monotonic() + SECONDS
        while True:
            self.back.socket.close()
            self.back = self.connect()
            try:
                for request in (it for it in ORDER if it in self.said):
                    payload, fds = self.said[request]
                    if request == SET_VRING_BASE and SET_VRING_KICK in self.said:
                        payload = state(self.place())
                    if request == SET_PROTOCOL:  # (without STATUS a base of 0 is a beginning)
                        payload = struct.pack("<Q", struct.unpack("<Q", payload)[0] | 1 << 16)
                    self.back.must(request, payload, fds)
                    self.back.has_ack = self.back.has_ack or request == SET_PROTOCOL and bool(self.has_ack())
                self.base = None
                self.restored += 1
                return
            except Gone:
                assert time.monotonic() < end, "no program stays"

    def place(self):
        """What the last program told, or the used index of a split ring, as it stands in the guest's memory."""
        if self.base is not None:
            return self.base
        is_packed = struct.unpack("<Q", self.said[SET_FEATURES][0])[0] & PACKED
        assert not is_packed, "a packed ring's program ended without an announcement"
        used, = struct.unpack("<16xQ", self.said[SET_VRING_ADDR][0][:24])
        payload, fds = self.said[SET_MEM_TABLE]
        for i, file in enumerate(fds):
            _, size, user, offset = struct.unpack("<QQQQ", payload[8 + 32 * i:40 + 32 * i])
            if user <= used < user + size:
                at = used + 2 - user + offset
                begin = at // mmap.ALLOCATIONGRANULARITY * mmap.ALLOCATIONGRANULARITY
                with mmap.mmap(file, mmap.PAGESIZE, offset=begin, access=mmap.ACCESS_READ) as page:
                    return struct.unpack("<H", page[at - begin:at - begin + 2])[0]
        raise AssertionError("the ring lies in no region")

    def pause(self):
        """Stops the ring: the program may be ended then."""
        with self.lock:
            self.base, = struct.unpack("<4xI", self.back.ask(GET_VRING_BASE, state(0)))
