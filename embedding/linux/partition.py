"""A partition of RPMB by VIRTIO 1.2, 5.12.6, and docs/FORMATS.md: what each request answers.

Nothing here was taken from the host's code, and its MACs are those of Python's own library."""
import hashlib
import hmac

FRAME, BLOCK = 512, 256
PROGRAM_KEY, GET_COUNTER, DATA_WRITE, DATA_READ, RESULT_READ = 1, 2, 3, 4, 5
OK, GENERAL, AUTH, COUNT, ADDR, WRITE, NO_KEY, EXPIRED = 0, 1, 2, 3, 4, 5, 7, 0x80
# (offset, length) of each field of struct virtio_rpmb_frame; numbers are in big endian
FIELDS = dict(stuff=(0, 196), key_mac=(196, 32), data=(228, 256), nonce=(484, 16),
              write_counter=(500, 4), address=(504, 2), block_count=(506, 2), result=(508, 2),
              req_resp=(510, 2))


def frame(**fields):
    out = bytearray(FRAME)
    for name, value in fields.items():
        at, length = FIELDS[name]
        out[at:at + length] = value.to_bytes(length, 'big') if isinstance(value, int) else value
    return bytes(out)


def field(f, name):
    at, length = FIELDS[name]
    value = f[at:at + length]
    return value if name in ('stuff', 'key_mac', 'data', 'nonce') else int.from_bytes(value, 'big')


def mac_of(key, frames):
    return hmac.new(key, b''.join(f[228:] for f in frames), hashlib.sha256).digest()


def signed(key, frames):
    """The frames, the last of them with the MAC of all."""
    last = frames[-1]
    return frames[:-1] + [last[:196] + mac_of(key, frames) + last[228:]]


class Partition:
    def __init__(self, capacity, max_wr_cnt, max_rd_cnt):
        self.blocks_in_all = 512 * capacity
        self.max_wr_cnt, self.max_rd_cnt = max_wr_cnt, max_rd_cnt
        self.key, self.counter, self.blocks, self.stored = None, 0, {}, None

    def copy(self):
        other = Partition(1, self.max_wr_cnt, self.max_rd_cnt)
        other.__dict__.update(self.__dict__)
        other.blocks = dict(self.blocks)
        return other

    def begin_session(self):
        """A reset: the outcome of the last write is asked in vain from now on."""
        self.stored = None

    def submit(self, readable, room):
        """The bytes of the answer to a chain of these readable bytes, with so much room."""
        kind, frames, combined = self.classify(readable, room)
        if kind == PROGRAM_KEY:
            return self.program_key(frames[0], combined)
        if kind == DATA_WRITE:
            return self.write(frames, combined)
        if room < FRAME:
            return b''
        if kind == GET_COUNTER:
            return self.answer([self.count(frames[0])])
        if kind == DATA_READ:
            return self.answer(self.read(frames[0], room))
        if kind == RESULT_READ and self.stored:
            return self.answer([frame(**self.stored)])
        return self.answer([frame(result=GENERAL)])

    def classify(self, readable, room):
        n, left = divmod(len(readable), FRAME)
        if left or n == 0 or n > self.max_wr_cnt + 1:
            return None, [], False
        frames = [readable[i * FRAME:(i + 1) * FRAME] for i in range(n)]
        kind, last = field(frames[0], 'req_resp'), field(frames[-1], 'req_resp')
        asks = last == RESULT_READ and room >= FRAME
        if kind == PROGRAM_KEY and (n == 1 or n == 2 and asks):
            return kind, frames[:1], n == 2
        if kind == DATA_WRITE and n >= 2 and asks:
            return kind, frames[:-1], True
        if kind == DATA_WRITE and (n == 1 or last != RESULT_READ):
            return kind, frames, False
        if kind in (GET_COUNTER, DATA_READ, RESULT_READ) and n == 1:
            return kind, frames, False
        return None, [], False

    def failure(self, readable, room, result):
        """The answer where a call of the disk failed: a frame without a MAC, where one was due."""
        kind, _, combined = self.classify(readable, room)
        due = combined if kind in (PROGRAM_KEY, DATA_WRITE) else room >= FRAME
        known = kind if kind in (PROGRAM_KEY, GET_COUNTER, DATA_WRITE, DATA_READ) else 0
        return frame(req_resp=known << 8, result=result) if due else b''

    def answer(self, frames):
        return b''.join(signed(self.key, frames) if self.key is not None else frames)

    def outcome(self, kind, request, result, combined, address):
        fields = dict(req_resp=kind << 8, result=result, write_counter=self.counter,
                      address=address, block_count=field(request, 'block_count'))
        self.stored = fields
        return self.answer([frame(**fields)]) if combined else b''

    def program_key(self, request, combined):
        result = OK
        if field(request, 'block_count') != 1:
            result = GENERAL
        elif self.key is not None:
            result = WRITE
        else:
            self.key, self.counter = field(request, 'key_mac'), 0
        return self.outcome(PROGRAM_KEY, request, result, combined, 0)

    def count(self, request):
        result = NO_KEY if self.key is None else OK
        if result == OK and field(request, 'block_count') != 1:
            result = GENERAL
        return frame(req_resp=0x200, nonce=field(request, 'nonce'), write_counter=self.counter,
                     block_count=field(request, 'block_count'), result=result)

    def write_verdict(self, frames):
        first = frames[0]
        blocks, address = field(first, 'block_count'), field(first, 'address')
        if self.key is None:
            return NO_KEY
        if not 0 < blocks <= self.max_wr_cnt or blocks != len(frames):
            return GENERAL
        for name in ('req_resp', 'write_counter', 'address', 'block_count'):
            if any(field(f, name) != field(first, name) for f in frames):
                return GENERAL
        if self.counter == 0xffffffff:
            return EXPIRED
        if address + blocks > self.blocks_in_all:
            return ADDR
        if field(frames[-1], 'key_mac') != mac_of(self.key, frames):
            return AUTH
        return OK if field(first, 'write_counter') == self.counter else COUNT

    def write(self, frames, combined):
        result, address = self.write_verdict(frames), field(frames[0], 'address')
        if result == OK:
            self.counter += 1
            for i, f in enumerate(frames):
                self.blocks[address + i] = field(f, 'data')
        return self.outcome(DATA_WRITE, frames[0], result, combined, address)

    def read(self, request, room):
        """The frames of a DATA_READ's answer, without their MAC."""
        blocks, address = field(request, 'block_count'), field(request, 'address')
        common = dict(req_resp=0x400, nonce=field(request, 'nonce'), address=address,
                      block_count=blocks)
        if self.key is None:
            return [frame(result=NO_KEY, **common)]
        if not 0 < blocks <= self.max_rd_cnt or room < FRAME * blocks:
            return [frame(result=GENERAL, **common)]
        if address + blocks > self.blocks_in_all:
            return [frame(result=ADDR, **common)]
        return [frame(data=self.blocks.get(address + i, bytes(BLOCK)), **common)
                for i in range(blocks)]
