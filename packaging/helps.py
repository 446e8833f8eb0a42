"""What each program says by --help, command by command: of it manual pages and completions are made."""
import os
import re
import subprocess
import sys

TOP = os.path.dirname(os.path.dirname(os.path.abspath(__file__)))
PROGRAMS = {"rpmbd": "crates/rpmbd/out/rpmbd", "rpmb": "crates/rpmb/out/rpmb"}
BACK_END = "vhost_user/out/vhost-user-rpmb"


def fail(why):
    sys.exit(f"{sys.argv[0]}: {why}")


def said(*words):
    path = f"{TOP}/{words[0]}"
    if not os.path.isfile(path):
        fail(f"there is no {words[0]}: packaging/install says what makes it")
    return subprocess.run([path, *words[1:]], capture_output=True, text=True, check=True).stdout


class Help:
    """What a command says by --help, as clap prints it."""

    def __init__(self, name, *words):
        self.words, self.sections, self.rest = (name, *words), {}, []
        self.about, *blocks = said(PROGRAMS[name], *words, "--help").rstrip().split("\n\n")
        for block in blocks:
            first, *lines = block.split("\n")
            if first.startswith("Usage: "):
                self.usage = first.removeprefix("Usage: ")
            elif re.fullmatch(r"[A-Z]\w+:", first):
                self.sections[first[:-1]] = [re.split(r"\s{2,}", it.strip(), maxsplit=1) for it in lines]
            else:
                self.rest.append([first, *lines])

    def below(self):
        """The commands of it."""
        its = self.sections.get("Commands") or self.sections.get("Operations") or []
        # (the words before a command of `do` are a board's)
        words = [*self.words[1:], *(["BOARD"] if "Operations" in self.sections else [])]
        return [Help(self.words[0], *words, name) for name, _ in its if name != "help"]

    def arguments(self):
        """Its words and options, with what is said of each, but for the one that every command has."""
        return [it for name in ("Arguments", "Options") for it in self.sections.get(name, []) if not it[0].startswith("-h,")]


def back_end():
    """The usage of the back end, its options with what is said of each, and what stands behind them."""
    usage, options, *rest = said(BACK_END, "--help").rstrip().split("\n\n")
    return usage, [re.split(r"\s{2,}", it.strip(), maxsplit=1) for it in options.split("\n")], rest
