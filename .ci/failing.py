"""Commands over an image of which one call fails, each call in turn: what is told, that no call is made behind the one
that failed, and what a stop then leaves. On images of both versions. So does `play`, which performs the same lines
through the library.

The lines are those of examples/seven_lines. What is wanted is made here, by docs/FORMATS.md.
"""
import hashlib
import hmac
import itertools
import shutil
import struct

from programs import DISK_FAULT, KEY, RESULT, Wrong, chain, each, frame, key_line, left

ONE = 'image = "board.img"\n[[guest]]\ncapacity = 1\n'
THREE = ONE + '[[guest]]\ncapacity = 1\nring = "packed"\nindirect = true\n[[guest]]\ncapacity = 1\n'
NONCE = int.from_bytes(bytes(range(16)), "big")
OUTSIDE = "store 0 1048576 00\nchain 0 - 16\n"
OUT_OF_RANGE = "rpmbd: 1 OutOfRange\n"
PLAY = ["play", "script.txt", "open", "board.img", "1,16,16,1048576,16,0,0,1,0,1"]
VERSIONS = (1, 2)
LINES = 7
CHANGES = (0, 1, 5)
"""Which of the lines program the key or write."""


def used(content, guest=0):
    return f"used {guest} {len(content)} {content.hex() or '-'}\n"


def reply(kind, counter=0, address=0, data=b"", nonce=0):
    body = data.ljust(256, b"\0") + nonce.to_bytes(16, "big") + struct.pack(">IHHHH", counter, address, 1, 0, kind)
    return bytes(196) + hmac.digest(KEY, body, hashlib.sha256) + body


def failure(kind, result=1):
    return bytes(508) + struct.pack(">HH", result, kind)


def write(counter, address, byte):
    return frame(3, counter, address, bytes([byte]) * 256)


def asked(guest=0):
    """A key, a write, the counter, the block, the result, a write without a reply, the counter."""
    counter, block = chain(guest, frame(2, nonce=NONCE)), chain(guest, frame(4, 0, 3, nonce=NONCE))
    silent, written = f"chain {guest} {write(1, 4, 0x33).hex()} 0\n", chain(guest, write(0, 3, 0x22), RESULT)
    return [key_line(guest), written, counter, block, chain(guest, RESULT), silent, counter]


def answers(guest):
    """Of each line what is told of it, and that where its request was held when a call failed, and where one had."""
    written, no_counter = reply(0x300, 1, 3), failure(0x200)
    rows = [
        (reply(0x100), failure(0x100, 5), failure(0x100)),
        (written, failure(0x300, 5), failure(0x300)),
        (reply(0x200, 1, nonce=NONCE), no_counter, no_counter),
        (reply(0x400, 0, 3, b"\x22" * 256, NONCE), failure(0x400), failure(0x400)),
        (written, failure(0), failure(0)),
        (b"", b"", b""),
        (reply(0x200, 2, nonce=NONCE), no_counter, no_counter),
    ]
    return [[used(it, guest) for it in row] for row in rows]


def told_by(printed, guest, most_held):
    """How many of the key and the writes are settled by what these lines show, and how many may have been accepted:
    right lines come first, then failures of what was held when a call failed, at most so many, and then of what came
    later."""
    rows = answers(guest)[: len(printed)]
    for held in range(len(rows) + 1):
        for late in range(min(len(rows), held + most_held), held - 1, -1):
            if printed == [row[(at >= held) + (at >= late)] for at, row in enumerate(rows)]:
                return tuple(sum(it < bound for it in CHANGES) for bound in (held, late))
    raise Wrong(f"guest {guest} was told\n{''.join(printed)}")


def listings(guest=0):
    """What `show` prints of a guest after none of the key and the writes, and after each."""
    blocks = [f"block {guest} {address} {byte * 256}\n" for address, byte in ((3, "22"), (4, "33"))]
    shown = [f"guest {guest} capacity 1 key yes counter {it}\n" + "".join(blocks[:it]) for it in range(3)]
    return [f"guest {guest} capacity 1 key no counter 0\n", *shown]


def fresh(version=1, guests=1):
    header = b"VRPMBIMG" + guests.to_bytes(2, "big") + b"\1" * guests
    return (header.ljust(512, b"\0") + bytes([version])).ljust(1024 + 166_400 * guests, b"\0")


def words(verb, version=1):
    flags = ["--image-version", "2"] * (verb == "format" and version == 2)
    return ["rpmbd", verb, *flags, "board.toml", *["script.txt"] * (verb in ("run", "serve"))]


def performed(room, named, script, image, call, board=ONE):
    """What a command over an image tells, of which this call fails, or none, its folder, and how many calls it made."""
    folder = room.folder({"board.toml": board, "script.txt": script, "board.img": image})
    *ended, calls = room.run(folder, named, f"disk {call}")
    return tuple(ended), folder, calls["disk"]


def some_of(places):
    """Combinations of the writes since the last sync: all of few; of many none, one, all but one, and all."""
    sizes = range(len(places) + 1) if len(places) <= 5 else (0, 1, len(places) - 1, len(places))
    return itertools.chain.from_iterable(itertools.combinations(places, it) for it in sizes)


def filled(image, places, content):
    """The image with other bytes at these places."""
    image = bytearray(image)
    for at, length in places:
        image[at : at + length] = content(at, length)
    return bytes(image)


def stops(folder):
    """The images that a stop may leave: what the last sync left, with some of the writes since, and with zeros, or
    bytes that open gates, at the places that were written since."""
    with open(f"{folder}/stop.synced", "rb") as it:
        synced = it.read()
    seen = left(folder)
    with open(f"{folder}/stop.places", encoding="ascii") as it:
        places = sorted({tuple(map(int, line.split())) for line in it})
    for made in some_of(places):
        yield filled(synced, made, lambda at, length: seen[at : at + length])
    for byte in (b"\0", b"\xa5"):
        yield filled(seen, places, lambda at, length, byte=byte: byte * length)


def show(room, image, board=ONE):
    """What `show` prints of an image, which has to open."""
    folder = room.folder({"board.toml": board, "board.img": image})
    status, printed, told, _ = room.run(folder, words("show"))
    shutil.rmtree(folder)
    if status or told:
        raise Wrong(f"an image that a stop left isn't opened: {told}")
    return printed


def check_left(room, folder, bounds, board=ONE):
    """Any stop leaves, of each guest, the partition after so many of its key and writes, at least and at most. How many
    stops."""
    each_guest = [listings(guest)[least : most + 1] for guest, (least, most) in enumerate(bounds)]
    wanted = {"".join(it) for it in itertools.product(*each_guest)}
    count = 0
    for count, image in enumerate(stops(folder), 1):
        shown = show(room, image, board)
        if shown not in wanted:
            raise Wrong(f"stop {count}, where {bounds} are settled and accepted: {shown}")
    return count


def opening(room, image, board=ONE):
    """How many calls an opening of this image makes: `show` makes no others."""
    return performed(room, words("show"), "", image, 0, board)[2]


def check_told(room, printed, folder, is_open, image, board=ONE, most_held=1):
    """The guests were told right lines and then failures, or nothing where the opening failed, which leaves the image
    as it was; and what any stop leaves holds what they were told. How many of each guest's key and writes are settled
    and accepted, and how many stops there were."""
    guests = board.count("[[guest]]")
    if len(printed) != is_open * LINES * guests:
        raise Wrong(f"{len(printed)} lines")
    if not is_open:
        if left(folder) != image:
            raise Wrong("an opening that failed changed the image")
        return ((0, 0),) * guests, 0
    bounds = tuple(told_by(printed[LINES * it : LINES * (it + 1)], it, most_held) for it in range(guests))
    return bounds, check_left(room, folder, bounds, board)


def check_run(room, image, call, calls, opened):
    """A run of which this call fails, or none where it makes fewer, makes no call behind it."""
    ran, folder, made = performed(room, words("run"), "".join(asked()), image, call)
    try:
        if (ran[0], ran[2]) != ((1, DISK_FAULT) if call <= calls else (0, "")) or made != min(call, calls):
            raise Wrong(f"{ran[0]}, {ran[2]!r}, after {made} calls")
        told = check_told(room, ran[1].splitlines(True), folder, call > opened, image)
    except Wrong as wrong:
        raise Wrong(f"rpmbd run, version {image[512]}, disk {call}: {wrong}") from None
    shutil.rmtree(folder)
    return told


def sweep_runs(room, version):
    """A run of seven lines, of which each call fails in turn. A change is settled while its own line waits, and nothing
    waits for the calls behind the last line. How many runs and stops."""
    image = fresh(version)
    calls, opened = performed(room, words("run"), "".join(asked()), image, 0)[2], opening(room, image)
    told = list(each(lambda it: check_run(room, image, it, calls, opened), range(1, calls + 2)))
    found = [bounds for (bounds,), _ in told]
    if sorted(set(found)) != [(0, 0), (0, 1), (1, 2), (2, 3), (3, 3)] or found != sorted(found):
        raise Wrong(f"rpmbd run, version {version}: settled and accepted, call by call: {found}")
    check_outside(room, version, 1 + found.index((1, 2)))
    return len(told), sum(count for _, count in told)


def check_outside(room, version, call):
    """A line that stores outside the memory ends a run: what was settled before stays; where this call of the second
    line failed, all is told by failures alone, since the run doesn't reach its end."""
    for failing, bounds in ((0, (2, 2)), (call, (1, 2))):
        script = "".join(asked()[:2]) + OUTSIDE
        ran, folder, _ = performed(room, words("run"), script, fresh(version), failing)
        if (ran[0], ran[2]) != (1, OUT_OF_RANGE) or told_by(ran[1].splitlines(True), 0, 1) != bounds:
            raise Wrong(f"rpmbd run, version {version}, disk {failing}, to a line outside the memory: {ran}")
        check_left(room, folder, [bounds])


def check_served(room, image, call, opened):
    """Three guests that are served at once, of whose image this call fails: whether it was made."""
    script = "".join(line for guest in range(3) for line in asked(guest))
    ran, folder, made = performed(room, words("serve"), script, image, call, THREE)
    broke = ran[2] == DISK_FAULT
    try:
        if ran[0] != broke or (not broke and ran[2]) or (made != call if broke else made >= call > 0):
            raise Wrong(f"{ran[0]}, {ran[2]!r}, after {made} calls")
        bounds, count = check_told(room, ran[1].splitlines(True), folder, call > opened, image, THREE, LINES)
        if not broke and bounds != ((3, 3),) * 3:
            raise Wrong(f"failures that no failed call explains: {bounds}")
    except Wrong as wrong:
        raise Wrong(f"rpmbd serve, version {image[512]}, disk {call}: {wrong}") from None
    shutil.rmtree(folder)
    return broke, count


def sweep_served(room, version):
    """Each call that fails in turn, until a run makes fewer. How many runs and stops."""
    image, count = fresh(version, 3), 0
    opened = opening(room, image, THREE)
    for call in itertools.count(1):
        broke, more = check_served(room, image, call, opened)
        count += more
        if not broke:
            return call, count


def check_played(room, image, call):
    """The lines played through the library, of which this call fails: whether it was made, and how many stops there
    were. An opening that failed has told nothing."""
    folder = room.folder({"script.txt": "".join(asked()), "board.img": image})
    status, printed, fault, calls = room.run(folder, PLAY, f"disk {call}")
    broke, count = calls["disk"] >= call, 0
    try:
        if printed or not broke:
            if (status, fault) != ((1, DISK_FAULT) if broke else (0, "")):
                raise Wrong(f"{status}, {fault!r}")
            count = check_left(room, folder, [told_by(printed.splitlines(True), 0, 1)])
        elif not status or left(folder) != image:
            raise Wrong("an opening that failed says nothing, or changed the image")
    except Wrong as wrong:
        raise Wrong(f"play, version {image[512]}, disk {call}: {wrong}") from None
    shutil.rmtree(folder)
    return broke, count


def sweep_played(room, version):
    """Each call that fails in turn, until a run makes fewer. How many runs and stops."""
    count = 0
    for call in itertools.count(1):
        broke, more = check_played(room, fresh(version), call)
        count += more
        if not broke:
            return call, count


def check_call(room, named, script, image, call, wanted, becomes):
    """A command over an image told what is wanted, made the call that failed and none behind it, and left the image as
    this, where it is told."""
    ran, folder, calls = performed(room, named, script, image, call)
    is_made = calls == call if wanted[2] == DISK_FAULT else calls < max(call, 1) or not call
    if ran != wanted or not is_made or (becomes is not None and left(folder) != becomes):
        raise Wrong(f"{' '.join(named)}, disk {call}: {ran}, after {calls} calls")


def sweep_command(room, named, image, told, after):
    """A command of which each call fails in turn, and none; what it leaves where none does. How many runs. (A format of
    version 2 makes an image of version 1 and tells so, and then upgrades it.)"""
    is_format = "format" in named
    calls = performed(room, named, "", image, 0)[2]
    plain = performed(room, words("format"), "", image, 0)[2] if is_format else calls
    cases = [(call, (1, "", DISK_FAULT), None if is_format else image) for call in range(1, plain + 1)]
    cases += [(call, (1, told, DISK_FAULT), None) for call in range(plain + 1, calls + 1)]
    told += "upgraded\n" * (calls > plain)
    for call, wanted, becomes in [*cases, (calls + 1, (0, told, ""), after)]:
        check_call(room, named, "", image, call, wanted, becomes)
    return calls + 1


def under_way(room):
    """Images of version 1 on which a write is under way: what reads give after a failed call of it."""
    calls = performed(room, words("run"), "".join(asked()), fresh(), 0)[2]
    for call in range(calls - 12, calls, 3):
        _, folder, _ = performed(room, words("run"), "".join(asked()), fresh(), call)
        yield left(folder)


def check_upgraded(room, image, call):
    """An upgrade of which this call fails: whatever a stop leaves has the partitions that the image had, and is
    upgraded then, once. Whether the call was made, and how many stops there were."""
    before = show(room, image)
    ran, folder, made = performed(room, words("upgrade"), "", image, call)
    failed = made == call
    if ran != ((1, "", DISK_FAULT) if failed else (0, "upgraded\n", "")):
        raise Wrong(f"rpmbd upgrade, disk {call}: {ran}, after {made} calls")
    count = 0
    # (a first sync that failed has changed nothing)
    for count, stopped in enumerate(stops(folder) if call > 1 else [left(folder)], 1):
        again = performed(room, words("upgrade"), "", stopped, 0)
        last = performed(room, words("upgrade"), "", left(again[1]), 0)
        told = "already 2\n" if stopped[512] == 2 else "upgraded\n"
        if again[0] != (0, told, "") or last[0] != (0, "already 2\n", ""):
            raise Wrong(f"rpmbd upgrade, disk {call}, stop {count}, and upgraded again: {again[0]}, {last[0]}")
        if {show(room, it) for it in (stopped, left(again[1]))} != {before}:
            raise Wrong(f"rpmbd upgrade, disk {call}, stop {count}: other partitions than {before}")
        for it in (again[1], last[1]):
            shutil.rmtree(it)
    shutil.rmtree(folder)
    return failed, count


def sweep_upgrades(room):
    """Each call of an upgrade that fails in turn, on images on which a write is under way. How many runs and stops."""
    runs = count = 0
    for image in under_way(room):
        for call in itertools.count(1):
            failed, more = check_upgraded(room, image, call)
            runs, count = runs + 1, count + more
            if not failed:
                break
    return runs, count


def sweep_calls_of_the_disk(room):
    """Each call of the image that fails in turn, and none behind the last; a bad line, before any call is made."""
    tried = [sweep(room, version) for version in VERSIONS for sweep in (sweep_runs, sweep_served, sweep_played)]
    tried.append(sweep_upgrades(room))
    runs, count = (sum(it) for it in zip(*tried))
    for version in VERSIONS:
        image = fresh(version)
        runs += sweep_command(room, words("format", version), bytes([0xEE]) * len(image), "formatted 167424\n", image)
        runs += sweep_command(room, words("show"), image, listings()[0], image)
    runs += sweep_command(room, words("upgrade"), fresh(2), "already 2\n", fresh(2))
    bad = "".join(asked()[:2]) + "chain 1 - 512\n"
    check_call(room, words("run"), bad, fresh(), 1, (1, "", "rpmbd: 20 BadScript line 3\n"), fresh())
    print(f"disk: {runs + 1} commands of which a call of the image fails, and {count} stops then")
