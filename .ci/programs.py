"""The programs of the sweeps: how one is run with a call refused, what they are given, and what they printed."""
import concurrent.futures
import hashlib
import hmac
import os
import re
import shlex
import shutil
import struct
import subprocess
import tempfile

SECONDS = 20
WORKERS = 2
KINDS = ("alloc", "io", "short", "open")
VERBS = ("run", "serve", "format", "show", "upgrade")
NO_MEMORY, FILE_FAULT, DISK_FAULT = (f"rpmbd: {it}\n" for it in ("2 NoMemory", "21 FileFault", "10 DiskFault"))
FAULTS = {"alloc": {NO_MEMORY}, "io": {FILE_FAULT, DISK_FAULT}, "short": {DISK_FAULT}, "open": {FILE_FAULT}}
BOARD = 'image = "board.img"\n[[guest]]\ncapacity = 1\n[[guest]]\ncapacity = 1\nring = "packed"\nindirect = true\n'
IN_ORDER = BOARD.replace("capacity = 1\n", "capacity = 1\nin_order = true\n")
ARCHIVE = "crates/rpmb_host/out/librpmb_host.a"
KEY = bytes([0x11]) * 32


class Wrong(Exception):
    """A run that isn't as it has to be."""


def fault_in(told):
    """What standard error told, but for the line behind a fault's, which says of which file it is and why."""
    first, *rest = told.splitlines(True)[:3] or [""]
    if not first.startswith("rpmbd: "):
        return told
    if len(rest) > 1 or (rest and ": " not in rest[0]):
        raise Wrong(f"no fault and its reason: {told!r}")
    return first


class Room:
    """A folder with the programs and the library that lets calls fail."""

    def __init__(self, top, given):
        self.top = top
        for name in ("rpmbd", "rpmb"):
            found = f"{given}/{name}" if given else f"crates/{name}/out/{name}"
            if not os.path.isfile(found):
                raise Wrong(f"there is no {found}: run rt ci first")
            shutil.copyfile(found, f"{top}/{name}")
            os.chmod(f"{top}/{name}", 0o755)
        self.shim = f"{top}/refuse.so"
        self.compile(self.shim, ".ci/refuse.c", "-shared", "-fPIC")
        if not os.path.isfile(ARCHIVE):
            raise Wrong(f"there is no {ARCHIVE}: run .ci/embedding first")
        kit = os.path.dirname(os.path.dirname(os.path.realpath(shutil.which("rt") or "rt")))
        self.compile(f"{top}/play", "embedding/play.c", ARCHIVE, f"{kit}/c/liblibc_c.a")

    def compile(self, made, *words):
        compiler = shlex.split(os.environ.get("CC") or "cc")
        if not shutil.which(compiler[0]):
            raise Wrong(f"there is no C compiler {compiler[0]}: set CC")
        subprocess.run([*compiler, "-O1", "-Wall", "-Wextra", "-Werror", "-o", made, *words], check=True)

    def folder(self, files):
        """A new folder with these files."""
        made = tempfile.mkdtemp(dir=self.top)
        for name, content in files.items():
            with open(f"{made}/{name}", "wb") as it:
                it.write(content if isinstance(content, bytes) else content.encode())
        return made

    def run(self, folder, words, refuse="", settings=(), **how):
        """What a program printed, and how many calls of each kind it made. Settings are further names of `refuse.c`,
        with their values."""
        count = f"{folder}/count"
        env = {"LD_PRELOAD": self.shim, "REFUSE": refuse, "REFUSE_COUNT": count, **dict(settings)}
        if refuse.startswith("disk"):
            env["REFUSE_STOP"] = f"{folder}/stop"
        how = {"stdin": subprocess.DEVNULL, "stdout": subprocess.PIPE, "stderr": subprocess.PIPE, **how}
        try:
            ran = subprocess.run([f"{self.top}/{words[0]}", *words[1:]], cwd=folder, env=env, timeout=SECONDS, **how)
        except subprocess.TimeoutExpired:
            raise Wrong(f"{' '.join(words)}, {refuse}: no end after {SECONDS} seconds") from None
        try:
            with open(count, encoding="ascii") as it:
                calls = dict(zip((*KINDS, "disk"), map(int, it.read().split())))
        except OSError:
            calls = {}
        decode = lambda it: (it or b"").decode(errors="replace")
        return ran.returncode, decode(ran.stdout), fault_in(decode(ran.stderr)), calls


def each(tried, numbers):
    """Tries each of these numbers, two at a time; the first that is wrong ends it."""
    with concurrent.futures.ThreadPoolExecutor(WORKERS) as pool:
        for found in pool.map(tried, numbers):
            yield found


def frame(kind, counter=0, address=0, data=b"", key=b"", nonce=0):
    """A frame (VIRTIO 1.2, 5.12.6) of one block; of a write with its MAC (RFC 2104)."""
    body = data.ljust(256, b"\0") + nonce.to_bytes(16, "big") + struct.pack(">IHHHH", counter, address, 1, 0, kind)
    if kind == 3:
        key = hmac.digest(KEY, body, hashlib.sha256)
    return bytes(196) + key.ljust(32, b"\0") + body


def chain(guest, *frames):
    return f"chain {guest} {b''.join(frames).hex()} 512\n"


RESULT = bytes(510) + b"\0\5"


def key_line(guest):
    return chain(guest, frame(1, key=KEY), RESULT)


def write_line(guest, counter):
    return chain(guest, frame(3, counter, counter % 512, bytes([counter % 256]) * 256), RESULT)


def script(rounds):
    """Two guests in turn program their keys, write so often, and ask for their counters."""
    lines = [key_line(0), key_line(1)]
    lines += [write_line(guest, counter) for counter in range(rounds) for guest in (0, 1)]
    return "".join([*lines, chain(0, frame(2, nonce=1)), "reset 1\n", chain(1, frame(2, nonce=2))])


def told_of(line):
    """The guest, the result and the counter of a line of a reply; None where it has no reply."""
    words = line.split(" ")
    if len(words) != 4 or words[0] != "used" or not re.fullmatch("([0-9a-f]{1024})+", words[3]):
        raise Wrong(f"half a line, or another one: {line[-60:]!r}")
    counter, _, _, result, kind = struct.unpack(">IHHHH", bytes.fromhex(words[3])[-12:])
    return int(words[1]), result, counter, kind


def shown(room, folder):
    """The counters of the partitions, by an undisturbed `rpmbd show`."""
    status, printed, told, _ = room.run(folder, ["rpmbd", "show", "board.toml"])
    if status:
        raise Wrong(f"{folder}: the image that is left isn't opened: {told}")
    found = re.findall(r"^guest (\d+) capacity 1 key (yes|no) counter (\d+)$", printed, re.M)
    return {int(guest): (key == "yes", int(counter)) for guest, key, counter in found}, printed


def check_held(room, folder, printed):
    """The image holds what the lines show."""
    counters, _ = shown(room, folder)
    for line in printed.splitlines():
        guest, result, counter, _ = told_of(line)
        if result == 0 and (not counters[guest][0] or counters[guest][1] < counter):
            raise Wrong(f"{folder}: guest {guest} was told {counter}, and the image has {counters[guest]}")


def check_lines(printed, whole):
    """Whole lines, each the one of an undisturbed run, until failures come in their place."""
    if printed and not printed.endswith("\n"):
        raise Wrong(f"half a line: {printed[-60:]!r}")
    lines, right, failed = printed.splitlines(), whole.splitlines(), set()
    if len(lines) > len(right):
        raise Wrong("more lines than an undisturbed run has")
    for line, wanted in zip(lines, right):
        guest, result, _, _ = told_of(line)
        if line != wanted:
            failed.add(guest)
            if result not in (1, 5):
                raise Wrong(f"another line: {line[-60:]!r}")
    return bool(failed)


def left(folder):
    with open(f"{folder}/board.img", "rb") as it:
        return it.read()


def image_of(room, rounds, version=1):
    """An image of this version on which both guests have written so often."""
    folder = room.folder({"board.toml": BOARD, "script.txt": script(rounds)})
    format_it = ["format", "--image-version", str(version), "board.toml"]
    for words in (format_it, ["run", "board.toml", "script.txt"]):
        if room.run(folder, ["rpmbd", *words])[0]:
            raise Wrong(f"rpmbd {words[0]} makes no image")
        if not rounds:
            break
    return left(folder)


def gated_image(room, image):
    """What a call that fails leaves of an image on which nobody has written: guest 0's gate of slot A is open."""
    for call in range(1, 100):
        folder = room.folder({"board.toml": BOARD, "script.txt": script(0), "board.img": image})
        room.run(folder, ["rpmbd", "run", "board.toml", "script.txt"], f"disk {call}")
        if left(folder)[1536] == 0xA5:
            return left(folder)
    raise Wrong("no failed call leaves an open gate")
