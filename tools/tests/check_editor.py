"""The grammars of editors know the reserved words, the man pages are well formed, and completion offers the program's words."""

from __future__ import annotations

import json
import re
import shutil
import subprocess
from pathlib import Path

from geost.tokens import RESERVED
from harness import TOOLS, TOP, Case, Cases, Setting, Skipped, want

VIM = TOOLS / "editor" / "geost.vim"
TEXTMATE = TOOLS / "editor" / "geost.tmLanguage.json"
COMPLETION = TOOLS / "editor" / "geost.bash"


def check_vim_words() -> None:
    lines = re.findall(r"^syntax keyword \w+ (.*)$", VIM.read_text(), re.MULTILINE)
    want(sorted(" ".join(lines).split()), sorted(RESERVED), "the words of the Vim grammar")


def check_textmate_words() -> None:
    patterns = json.loads(TEXTMATE.read_text())["patterns"]
    words = [word for pattern in patterns for group in re.findall(r"^\\b\(([a-z|]+)\)\\b$", pattern["match"]) for word in group.split("|")]
    want(sorted(words), sorted(RESERVED), "the words of the TextMate grammar")


def check_vim_colours(folder: Path) -> None:
    """Vim gives each reserved word of a text its group, and a name that only begins like one another group."""
    if shutil.which("vim") is None:
        raise Skipped("vim is not installed")
    text = folder / "words.geost"
    text.write_text("\n".join(RESERVED) + "\nboxes_of\n# end\n")
    found = folder / "groups"
    script = folder / "groups.vim"
    script.write_text(
        f"syntax on\nsource {VIM}\n"
        'let groups = map(range(1, line("$")), {_, l -> synIDattr(synID(l, 1, 1), "name")})\n'
        f"call writefile(groups, '{found}')\nqall!\n"
    )
    subprocess.run(["vim", "-u", "NONE", "-N", "-es", "-S", str(script), str(text)], stdin=subprocess.DEVNULL, timeout=60)
    if not found.exists():
        raise Skipped("this vim has no syntax colours")
    groups = found.read_text().split("\n")
    if not any(groups):
        raise Skipped("this vim has no syntax colours")
    plain = [word for word, group in zip(RESERVED, groups) if not group.startswith("geost") or group == "geostName"]
    want(plain, [], "reserved words without a group")
    want(groups[len(RESERVED) : len(RESERVED) + 2], ["geostName", "geostComment"], "the groups of a name and a comment")


def check_man(page: Path) -> None:
    if shutil.which("groff") is None:
        raise Skipped("groff is not installed")
    done = subprocess.run(["groff", "-man", "-ww", "-Tascii", str(page)], stdout=subprocess.PIPE, stderr=subprocess.PIPE)
    want(done.stderr.decode(), "", "what groff complains of")


def check_man_words() -> None:
    text = (TOOLS / "man" / "geost.5").read_text()
    listing = text[text.index(".SH RESERVED WORDS") : text.index(".SH SEE ALSO")].split()[3:]
    want(listing, RESERVED, "the reserved words of the man page")


def offered(bash: str, *words: str) -> list[str]:
    """What completion offers behind these words of a command line."""
    line = " ".join(["geost", *words, "''"])
    script = (
        f"source {COMPLETION}; COMP_WORDS=({line}); COMP_CWORD={len(words) + 1}; _geost;"
        " echo ${COMPREPLY[@]}"
    )
    done = subprocess.run([bash, "-c", script], stdout=subprocess.PIPE)
    return done.stdout.decode().split()


def check_completion(setting: Setting) -> None:
    """Completion offers the words that `geost help` names, and the program knows what it offers."""
    bash = shutil.which("bash")
    if bash is None:
        raise Skipped("bash is not installed")
    told = subprocess.run([TOP / "geost", "help"], stdout=subprocess.PIPE).stdout.decode()
    named = set(re.findall(r"geost (-*[a-z_]+)(?! boxes)\b", told)) - {"places"}
    want(set(offered(bash)), named, "the words that are offered first")
    own = {"help", "prove", "spread", "--version", "--program", "--proved"}
    for word in sorted(named - own):
        first = offered(bash, word)
        second = offered(bash, word, first[0]) if first else []
        words = [word, *first[:1], *second[:1]]
        status = 3 if word == "make" else 2
        want(setting.program.ask(words, b"").status, status, f"the status of {words}")


def check_statuses() -> None:
    """The man page and FORMAT.md have the same statuses."""
    table = re.findall(r"^\| (\d) \|", (TOP / "docs" / "FORMAT.md").read_text(encoding="utf-8"), re.MULTILINE)
    page = re.findall(r"^\.B (\d)$", (TOOLS / "man" / "geost.1").read_text(), re.MULTILINE)
    want(sorted(set(page)), sorted(set(table)), "the statuses")


def cases(setting: Setting, folder: Path) -> Cases:
    yield Case("editor: words of the Vim grammar", check_vim_words)
    yield Case("editor: words of the TextMate grammar", check_textmate_words)
    yield Case("editor: groups in Vim", lambda: check_vim_colours(folder))
    for page in sorted((TOOLS / "man").iterdir()):
        yield Case(f"editor: man page {page.name}", lambda page=page: check_man(page))
    yield Case("editor: reserved words of the man page", check_man_words)
    yield Case("editor: statuses of the man page", check_statuses)
    yield Case("editor: completion", lambda: check_completion(setting))
