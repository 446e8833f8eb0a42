"""Random requests, right and wrong in every way that a verdict of 5.12.6 looks at."""
import partition as p


def write_frames(r, key, counter, blocks, address):
    frames = [p.frame(req_resp=p.DATA_WRITE, write_counter=counter, address=address,
                      block_count=blocks, data=r.randbytes(256), stuff=r.randbytes(196))
              for _ in range(blocks)]
    return p.signed(key, frames)


def write(r, part, key):
    """A DATA_WRITE; in one of three it has a fault."""
    blocks = r.choice((1, 1, 1, 2, 3, part.max_wr_cnt, r.randint(1, part.max_wr_cnt)))
    blocks = min(blocks, part.max_wr_cnt)
    address = r.randrange(part.blocks_in_all - blocks + 1) if r.random() < 0.5 else r.randrange(8)
    counter, fault = part.counter, r.randrange(24)
    if fault == 0:
        counter = (counter + r.choice((-1, 1, 2, 1000))) % 2 ** 32
    if fault == 1:
        address = part.blocks_in_all - blocks + r.randint(1, 3)
    if fault == 2:
        key = r.randbytes(32)
    if fault == 3:
        blocks = part.max_wr_cnt + 1
    frames = write_frames(r, key, counter, blocks, min(address, 0xffff))
    if fault == 4:
        i = r.randrange(blocks)
        frames[i] = frames[i][:r.randrange(228, 512)] + r.randbytes(1) + frames[i][-200:]
        frames[i] = frames[i][:512].ljust(512, b'\0')
    if fault == 5:
        frames = frames[:-1] or frames + frames
    if fault == 6:
        i = r.randrange(blocks)
        frames[i] = frames[i][:508] + r.choice((b'\0\0\0\5', b'\0\0\0\1', b'\0\7\0\3'))
    asks = r.random() < 0.8
    closing = [p.frame(req_resp=p.RESULT_READ, stuff=r.randbytes(196))] if asks else []
    room = r.choice((512, 512, 512, 1024, 600)) if asks else r.choice((0, 0, 512, 64))
    if fault == 7:
        room = r.choice((0, 511))
    return b''.join(frames + closing), room


def read(r, part):
    blocks = r.choice((1, 1, part.max_rd_cnt, r.randint(1, part.max_rd_cnt), r.randrange(20)))
    room = 512 * blocks + r.choice((0, 0, 0, 0, 1, 512, -1))
    address = r.randrange(8) if r.random() < 0.6 else r.randrange(part.blocks_in_all + 3)
    request = p.frame(req_resp=p.DATA_READ, address=address & 0xffff, block_count=blocks,
                      nonce=r.randbytes(16), stuff=r.randbytes(196))
    return request, max(0, min(room, 8192))


def counter(r):
    request = p.frame(req_resp=p.GET_COUNTER, block_count=r.choice((1, 1, 1, 1, 0, 2)),
                      nonce=r.randbytes(16), stuff=r.randbytes(196))
    return request, r.choice((512, 512, 512, 513, 1024, 511, 0))


def program_key(r, part, key):
    request = p.frame(req_resp=p.PROGRAM_KEY, key_mac=key, block_count=r.choice((1, 1, 1, 0, 2)))
    if r.random() < 0.2:
        return request, r.choice((0, 512))
    closing = p.frame(req_resp=r.choice((5, 5, 5, 2)))
    return request + closing, r.choice((512, 512, 1024, 0))


def torn(r):
    """Anything: no whole frames, unknown types, too many frames, or only room."""
    n = r.choice((1, 511, 513, 1024, 8704, r.randint(1, 8704), 512 * r.randint(1, 17)))
    raw = bytearray(r.randbytes(n))
    if n >= 512 and r.random() < 0.7:
        raw[510:512] = bytes((0, r.randrange(8)))
    return bytes(raw), r.choice((0, 1, 512, 1024, r.randint(0, 8192)))


def one(r, part, key):
    """(readable bytes, room) of a request for this partition."""
    if part.key is None and r.random() < 0.5:
        return program_key(r, part, key)
    k = r.randrange(20)
    if k < 9:
        readable, room = write(r, part, key)
    elif k < 13:
        readable, room = read(r, part)
    elif k < 15:
        readable, room = counter(r)
    elif k < 17:
        readable, room = p.frame(req_resp=p.RESULT_READ), r.choice((512, 512, 1024, 100))
    elif k < 18:
        readable, room = program_key(r, part, r.randbytes(32))
    else:
        readable, room = torn(r)
    return (readable, room) if readable or room else (p.frame(req_resp=p.RESULT_READ), 512)
