"""The file of an image: its folder is synced where it is made, its length counts under its lock, and no other file is
taken for it by the number alone."""
import itertools
import os

from failing import ONE, fresh, listings, words
from programs import DISK_FAULT, FILE_FAULT, KINDS, NO_MEMORY, Wrong, each, key_line

FORMATTED = (0, "formatted 167424\n", "")
NOT_FORMATTED = (1, "", "rpmbd: 12 NotFormatted\n")


def folders(folder):
    """The numbers of the folders that were synced."""
    path = f"{folder}/stop.folders"
    if not os.path.exists(path):
        return []
    with open(path, encoding="ascii") as it:
        return [int(line) for line in it]


def check_made(room, image, call):
    """A format whose file isn't there yet, of which this call fails. The first call is the sync of the file's folder;
    behind it come the 18 of any format."""
    folder = room.folder({"board.toml": ONE.replace("board.img", image)})
    os.mkdir(f"{folder}/images")
    ran = room.run(folder, words("format"), f"disk {call}")
    fault = FILE_FAULT if call == 1 else DISK_FAULT
    wanted = (1, "", fault) if call <= 19 else FORMATTED
    synced = [] if call == 1 else [os.stat(os.path.dirname(f"{folder}/{image}")).st_ino]
    if ran[:3] != wanted or (ran[3]["disk"] >= call) != (call <= 19) or folders(folder) != synced:
        raise Wrong(f"rpmbd format of no file {image}, disk {call}: {ran}, and folders synced: {folders(folder)}")


def check_kept(room, content):
    """Where the file is there, its folder is synced only if it has no byte yet: a stop may have left it so, before its
    name was kept."""
    folder = room.folder({"board.toml": ONE, "board.img": content})
    ran = room.run(folder, words("format"), "disk 0")
    synced = [] if content else [os.stat(folder).st_ino]
    if ran[:3] != FORMATTED or folders(folder) != synced:
        raise Wrong(f"rpmbd format of a file of {len(content)} bytes: {ran}, and folders synced: {folders(folder)}")


def check_length(room, verb, before, after):
    """The program that held the image until now has given it another length: it counts what it is under the lock."""
    content = (fresh() + b"\0")[:before]
    folder = room.folder({"board.toml": ONE, "script.txt": "", "board.img": content})
    ran = room.run(folder, words(verb), settings=[("REFUSE_LENGTH", str(after))])
    told = {"show": listings()[0], "upgrade": "upgraded\n"}.get(verb, "")
    if ran[:3] != ((0, told, "") if after == len(fresh()) else NOT_FORMATTED):
        raise Wrong(f"rpmbd {verb}, of {before} bytes, and of {after} under the lock: {ran}")


def check_twins(room, has_image):
    """Neither the board file nor what standard output writes into is the image, though each has its number on another
    device."""
    folder = room.folder({"board.toml": ONE, **({"board.img": fresh()} if has_image else {})})
    for verb, wanted in (("format", FORMATTED), ("show", (0, listings()[0], ""))):
        ran = room.run(folder, words(verb), settings=[("REFUSE_TWINS", "1")])
        if ran[:3] != wanted:
            raise Wrong(f"rpmbd {verb}, where all files have one number, each on a device of its own: {ran}")


def asked_to_format(room, answer, image, refuse=""):
    """What `format` at a terminal says over an image, with this answer, and what it leaves."""
    folder = room.folder({"board.toml": ONE, "board.img": image})
    person, terminal = os.openpty()
    os.write(person, f"{answer}\n".encode())
    ran = room.run(folder, words("format"), refuse, stdin=terminal)
    os.close(terminal)
    os.close(person)
    with open(f"{folder}/board.img", "rb") as it:
        return ran, it.read()


def with_key(room):
    """An image whose guest has a key."""
    folder = room.folder({"board.toml": ONE, "script.txt": key_line(0), "board.img": fresh()})
    if room.run(folder, words("run"))[0]:
        raise Wrong("rpmbd run makes no image with a key")
    with open(f"{folder}/board.img", "rb") as it:
        return it.read()


def check_asked(room, answer, image, lost):
    """A person who types `format` over an image with a key, or what is no image, is asked first; over an image without
    a key, or an empty file, it is made at once."""
    ran, after = asked_to_format(room, answer, image)
    told = f"board.img holds {lost}, gone after this. Type yes to go on: " if lost else ""
    is_made = not lost or answer == "yes"
    wanted = (0, FORMATTED[1], told) if is_made else (1, "", f"{told}{FILE_FAULT}board.img: is left as it is\n")
    if ran[:3] != wanted or after != (fresh() if is_made else image):
        raise Wrong(f"rpmbd format at a terminal, answered {answer}: {ran}")


def told_at_a_fault(told, lost):
    """Whether this is what `format` at a terminal may tell where a call fails, and the answer is no: a fault, or the
    question and the end that comes behind it. Where the image can't be read, the question says that."""
    if told in (NO_MEMORY, FILE_FAULT, DISK_FAULT):
        return True
    question, is_asked, end = told.partition(", gone after this. Type yes to go on: ")
    holds = {f"board.img holds {it}" for it in (lost, "what can't be read", "what is no image of this board")}
    ends = (FILE_FAULT, f"{FILE_FAULT}board.img: is left as it is\n", f"{NO_MEMORY}standard input: out of memory\n")
    return is_asked and question in holds and (end in ends or end.startswith(f"{FILE_FAULT}standard input: "))


def check_asked_at_a_fault(room, kind, image, lost):
    """Whichever call of a kind fails, what a file holds stays where the answer is no."""
    for number in itertools.count(1):
        ran, after = asked_to_format(room, "no", image, f"{kind} {number}")
        if ran[0] != 1 or ran[1] or after != image or not told_at_a_fault(ran[2], lost):
            raise Wrong(f"rpmbd format at a terminal, {kind} {number}: {ran}")
        if ran[3][kind] < number:
            return number


def sweep_image_files(room):
    """How an image's file is made, held and told from others."""
    made = [(image, call) for image in ("board.img", "images/board.img") for call in range(1, 21)]
    for _ in each(lambda it: check_made(room, *it), made):
        pass
    check_kept(room, b"short")
    check_kept(room, b"")
    length = len(fresh())
    lengths = list(itertools.product(("run", "serve", "show", "upgrade"), ((length + 1, length), (length, 5))))
    for verb, (before, after) in lengths:
        check_length(room, verb, before, after)
    for has_image in (False, True):
        check_twins(room, has_image)
    keyed = with_key(room)
    for answer in ("yes", "no", ""):
        check_asked(room, answer, keyed, "a key")
        for content in (fresh(), b""):
            check_asked(room, answer, content, "")
        for content in (b"a letter", fresh() + b"\0"):
            check_asked(room, answer, content, "what is no image of this board")
    held = [(keyed, "a key"), (b"a letter", "what is no image of this board")]
    kept = sum(check_asked_at_a_fault(room, kind, *it) for kind in KINDS for it in held)
    print(
        f"image files: {len(made)} made, {len(lengths)} given another length by who held them, 4 beside their twins, "
        f"{kept} kept by a no"
    )
