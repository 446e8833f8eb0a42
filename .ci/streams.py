"""Closed and full streams, lines told as they come, which of two faults is told, a limit of a file's length, and a
stop by TERM."""
import collections
import itertools
import os
import select
import signal
import subprocess
import threading

from programs import (
    BOARD,
    FILE_FAULT,
    KEY,
    SECONDS,
    VERBS,
    Wrong,
    check_held,
    fault_in,
    key_line,
    script,
    shown,
    told_of,
)


def closing(closed, words):
    """The words of a shell that starts a program with these of its streams closed."""
    shut = {0: "0<&-", 1: "1>&-", 2: "2>&-"}
    return ["sh", "-c", f'exec "$@" {" ".join(shut[it] for it in closed)}', "", *words]


def bare(room, folder, words, **how):
    """Runs a program as it is: its status, and what it printed."""
    how = {"stdin": subprocess.DEVNULL, "stdout": subprocess.PIPE, "stderr": subprocess.PIPE, **how}
    env = {"PATH": f"{room.top}:{os.environ['PATH']}"}
    ran = subprocess.run(words, cwd=folder, env=env, timeout=SECONDS, **how)
    return ran.returncode, (ran.stdout or b"").decode(), fault_in((ran.stderr or b"").decode())


def check_image(room, folder, name):
    """No byte of output stands in the image that this run left, and it opens."""
    with open(f"{folder}/board.img", "rb") as it:
        content = it.read()
    written = [it for it in (b"used 0", b"rpmbd:", b"formatted", b"guest 0", b"upgraded") if it in content]
    if written or len(content) != 1024 + 2 * (35_328 + 131_072):
        raise Wrong(f"{name}: output in the image, {written}")
    shown(room, folder)


def words_of(verb):
    return ["rpmbd", verb, "board.toml", *["script.txt"] * (verb in ("run", "serve"))]


def sweep_closed(room, files):
    """Each command with some of its streams closed. How many runs."""
    mixes = [mix for count in (1, 2, 3) for mix in itertools.combinations((0, 1, 2), count)]
    for verb, closed in itertools.product(VERBS, mixes):
        words = words_of(verb)
        whole, folder = bare(room, room.folder(files), words), room.folder(files)
        ran = bare(room, folder, closing(closed, words))
        wanted = (1, "", "" if 2 in closed else FILE_FAULT) if 1 in closed else whole
        name = f"rpmbd {verb} without its streams {closed}"
        if whole[0] or whole[2] or ran != wanted:
            raise Wrong(f"{name}: {ran[0]}, {ran[2]!r}")
        check_image(room, folder, name)
    return len(VERBS) * len(mixes)


def sweep_untold(room, files):
    """Each command whose output can't be written and whose fault can't be told. How many runs."""
    for verb, closed in itertools.product(VERBS, ((2,), (0, 2))):
        folder = room.folder(files)
        with open("/dev/full", "wb") as full:
            status = bare(room, folder, closing(closed, words_of(verb)), stdout=full)[0]
        name = f"rpmbd {verb}, output full, without its streams {closed}"
        if status != 1:
            raise Wrong(f"{name}: {status}")
        check_image(room, folder, name)
    return 2 * len(VERBS)


def unwritten(room, folder, words, kind):
    """Runs a program whose output can't be written."""
    if kind == "closed":
        return bare(room, folder, closing((1,), words))
    if kind == "full":
        with open("/dev/full", "wb") as full:
            return bare(room, folder, words, stdout=full)
    reader, writer = os.pipe()
    os.close(reader)
    try:
        return bare(room, folder, words, stdout=writer)
    finally:
        os.close(writer)


def sweep_unwritten(room, files):
    """Each program with output that can't be written. How many runs."""
    key, kinds = ["--guest", "0", "--key", KEY.hex()], ("full", "a pipe without a reader", "closed")
    programs = [*map(words_of, VERBS), ["rpmb", "program-key", *key], ["rpmb", "check", "board.toml"]]
    programs += [["rpmb", "write", *key, "--counter", "0", "--address", "0", "--data", "00" * 256]]
    programs += [["rpmbd", "--help"], ["rpmb", "--help"]]
    for words, kind in itertools.product(programs, kinds):
        folder, name = room.folder(files), f"{words[0]} {words[1]}, output {kind}"
        status, _, told = unwritten(room, folder, words, kind)
        if status != 1 or (told != FILE_FAULT if words[0] == "rpmbd" else not told.startswith("rpmb: FileFault")):
            raise Wrong(f"{name}: {status}, {told!r}")
        check_image(room, folder, name)
    return len(programs) * len(kinds)


def sweep_streams(room, image):
    """Streams that are closed, full, or without a reader."""
    count = 0
    # (what the shorter script prints is written at once, at the end)
    for rounds in (1, 3):
        files = {"board.toml": BOARD, "script.txt": script(rounds), "board.img": image}
        count += sweep_closed(room, files) + sweep_untold(room, files) + sweep_unwritten(room, files)
    print(f"streams: {count} runs with some of them closed, full or without a reader")


def sweep_coming(room):
    """`rpmb explain` says of each line what it is before the next one comes."""
    pairs = [("a note", "a note"), ("used 0 0 -", "guest 0, no frames: its request asked for none (--no-result), or needs WRITABLE 512 or more"), ("", "")] * 3
    how = {"stdin": subprocess.PIPE, "stdout": subprocess.PIPE, "bufsize": 0}
    program = subprocess.Popen([f"{room.top}/rpmb", "explain"], **how)
    with program:
        for line, wanted in pairs:
            program.stdin.write(f"{line}\n".encode())
            is_told = select.select([program.stdout], [], [], SECONDS)[0]
            told = program.stdout.readline().decode() if is_told else "nothing"
            if told != f"{wanted}\n":
                program.kill()
                raise Wrong(f"rpmb explain, of {line!r} alone: {told!r}")
        program.stdin.close()
        if program.wait(SECONDS):
            raise Wrong(f"rpmb explain, of lines that come one by one: {program.returncode}")
    print(f"coming: {len(pairs)} lines explained, each before the next one came")


def sweep_order(room, image):
    """Of two faults the one that is looked for first is told."""
    bad_board, bad_script, no_image = "guests = 1\n", "chain 0\n", b"\0" * 400_000
    cases = [
        ("a bad board, no script", {"board.toml": bad_board}, "19 BadBoard"),
        ("a bad board and script", {"board.toml": bad_board, "script.txt": bad_script}, "19 BadBoard"),
        ("no script, a bad image", {"board.toml": BOARD, "board.img": no_image}, "21 FileFault"),
        ("a bad script, no image", {"board.toml": BOARD, "script.txt": bad_script}, "21 FileFault"),
        (
            "a bad script and image",
            {"board.toml": BOARD, "script.txt": bad_script, "board.img": no_image},
            "20 BadScript line 1",
        ),
        (
            "a bad image alone",
            {"board.toml": BOARD, "script.txt": key_line(0), "board.img": no_image},
            "12 NotFormatted",
        ),
        ("nothing bad", {"board.toml": BOARD, "script.txt": "", "board.img": image}, ""),
    ]
    for verb in ("run", "serve"):
        for name, files, told in cases:
            ran = bare(room, room.folder(files), ["rpmbd", verb, "board.toml", "script.txt"])
            if ran != ((1, "", f"rpmbd: {told}\n") if told else (0, "", "")):
                raise Wrong(f"rpmbd {verb}, {name}: {ran}")
    print(f"faults: {2 * len(cases)} boards, scripts and images, of which the first fault is told")


def sweep_limits(room, image):
    """A file size limit: an image beyond it is refused before it is opened; of others what was printed is held."""
    files, count = {"board.toml": BOARD, "script.txt": script(3), "board.img": image}, collections.Counter()
    for verb, blocks in itertools.product(("run", "serve"), (0, 1, 2, 8, 64, 200, 400, 1_000)):
        folder = room.folder(files)
        shell = f"ulimit -f {blocks}; exec rpmbd {verb} board.toml script.txt"
        status, printed, told = bare(room, folder, ["bash", "-c", shell])
        expected = (1, FILE_FAULT) if blocks * 1024 < len(image) else (0, "")
        if (status, told) != expected:
            raise Wrong(f"rpmbd {verb}, ulimit -f {blocks}: {status}, {told!r}")
        check_held(room, folder, printed)
        count[status] += 1
    print(f"limits: {sum(count.values())} runs under a limit of a file's length, {count[0]} of them to their end")


def stopped(room, folder, after):
    """Ends a run into a pipe by TERM so many seconds after its first byte: the whole lines, and whether TERM ended it."""
    words = [f"{room.top}/rpmbd", "run", "board.toml", "script.txt"]
    how = {"stdin": subprocess.DEVNULL, "stdout": subprocess.PIPE, "stderr": subprocess.DEVNULL}
    with subprocess.Popen(words, cwd=folder, **how) as program:
        printed = program.stdout.read(1)
        threading.Timer(after, program.terminate).start()
        printed += program.stdout.read()
        ended = program.wait(SECONDS) == -signal.SIGTERM
    # (the last line may have been cut by the stop)
    return printed[: printed.rfind(b"\n") + 1].decode(), ended


def sweep_stops(room, image):
    """A TERM in the middle of a run: what was printed is held by the image, and of what it holds the line of one request
    at most wasn't printed."""
    lines, ended, missed = 0, 0, 0
    files = {"board.toml": BOARD, "script.txt": script(3_000), "board.img": image}
    for after in (0, 0.003, 0.01, 0.02, 0.03, 0.04, 0.06, 0.1, 0.15, 0.2, 0.3):
        folder = room.folder(files)
        printed, is_ended = stopped(room, folder, after)
        check_held(room, folder, printed)
        told = sum(kind in (0x100, 0x300) for _, _, _, kind in map(told_of, printed.splitlines()))
        kept = sum(has_key + counter for has_key, counter in shown(room, folder)[0].values())
        if not told <= kept <= told + 1:
            raise Wrong(f"TERM after {after} s: {kept} requests are kept, and {told} lines printed")
        lines, ended, missed = lines + told, ended + is_ended, missed + kept - told
    if not ended or not lines:
        raise Wrong("no run was stopped by TERM after a line")
    print(f"stops: {ended} runs ended by TERM, after {lines} lines; {missed} requests kept whose line wasn't printed")
