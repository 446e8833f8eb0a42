# SPDX-License-Identifier: Apache-2.0
"""RPMB frames, for the tests of vhost-user-rpmb."""
import hashlib
import hmac
import struct


def frame(type_, count=1, nonce=bytes(16), counter=0, address=0, data=bytes(256), mac=bytes(32)):
    return bytes(196) + mac + data + nonce + struct.pack(">IHHHH", counter, address, count, 0, type_)


def signature(key, frames):
    bodies = b"".join(frames[i + 228:i + 512] for i in range(0, len(frames), 512))
    return hmac.new(key, bodies, hashlib.sha256).digest()


def write(key, counter, address, blocks):
    """The request of a write, and that of its result."""
    frames = b"".join(frame(3, len(blocks), counter=counter, address=address, data=it) for it in blocks)
    return frames[:-316] + signature(key, frames) + frames[-284:] + frame(5)
