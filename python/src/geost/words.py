"""What words of a command line that the program does not know may mean."""

from __future__ import annotations

import difflib
import re
from dataclasses import dataclass
from pathlib import Path

from geost.files import text_of


@dataclass(frozen=True)
class Counted:
    """A number among the words: its letter in docs/FORMAT.md, its bounds, and a usual one."""

    letter: str
    least: int
    most: int
    usual: int

    def outside(self, value: int) -> str:
        if self.letter == "D":
            return f"a dimension is {self.least} to {self.most}: write {self.usual} for the first"
        if value > self.most:
            return f"{value} is above {self.most}: write a lesser number"
        return f"the number is {self.least} at least: write {self.usual} to begin with"


STEPS = Counted("N", 1, 10**12, 1000)
DIMENSION = Counted("D", 1, 6, 1)
NUMBERS = {
    "first": (STEPS,),
    "all": (Counted("C", 1, 10**6, 10), STEPS),
    "judge": (),
    "check": (),
    "show": (),
    "draw": (),
    "make": (Counted("SEED", 0, 2**31 - 1, 1), Counted("N", 1, 10**12, 160)),
    "best": (DIMENSION, STEPS),
    "check_best": (DIMENSION, Counted("E", -2_000_000, 3_000_000, 10)),
    "load": (DIMENSION,),
    "why": (STEPS,),
    "to_json": (),
    "from_json": (),
    "first_json": (STEPS,),
}
COMMANDS = tuple(NUMBERS)


def known_forms() -> list[str]:
    """The forms of the words that docs/FORMAT.md gives."""
    document = text_of("docs/FORMAT.md")
    return list(dict.fromkeys(re.findall(r"`(geost [a-z_]+(?: [A-Z]+)*)`", document)))


def explain_words(words: list[str] | None) -> list[str]:
    """The lines that explain why words have no form: what to write instead, where the words are
    known, and the forms."""
    return [
        *([] if words is None else meant(words)),
        "the words on the command line have no known form; the forms are",
        *(f"    {form}" for form in known_forms()),
    ]


def meant(words: list[str]) -> list[str]:
    """What to write in place of the first word that is wrong."""
    if not words:
        return ["write a command first, such as `first 1000`"]
    command, *others = words
    if command not in COMMANDS:
        return in_place_of_command(command)
    files = [word for word in others if is_file_like(word)]
    if files:
        return [in_place_of_files([word for word in words if word not in files], files)]
    return in_place_of_numbers(command, others)


def in_place_of_files(words: list[str], files: list[str]) -> str:
    plain, named = " ".join(words), " ".join(files)
    piped = f"geost {plain} < {named}" if len(files) == 1 else f"cat {named} | geost {plain}"
    explained = f"tools/explain {plain} {named}"
    return f"texts are read from standard input: write `{piped}`, or `{explained}`"


def in_place_of_command(command: str) -> list[str]:
    near = difflib.get_close_matches(command.lower().lstrip("-"), COMMANDS, n=1)
    if command.lower() in COMMANDS or near:
        return [f"`{command}` is no command: write `{near[0] if near else command.lower()}`"]
    if command.lower().lstrip("-") in ("h", "help", "version"):
        return ["write `./geost help` or `./geost --version`"]
    if command.lower() in ("solve", "run", "find", "search", "place"):
        return [f"`{command}` is no command: write `first 1000` for the first layout"]
    if is_file_like(command):
        return [f"a command stands first: write `geost first 1000 < {command}`"]
    return [f"`{command}` is no command: write one of {', '.join(COMMANDS)}"]


def is_file_like(word: str) -> bool:
    return word.endswith((".geost", ".plan", ".txt")) or not word.isdigit() and Path(word).is_file()


def in_place_of_numbers(command: str, given: list[str]) -> list[str]:
    wanted = NUMBERS[command]
    told = [line for word, one in zip(given, wanted) for line in in_place_of_number(word, one)]
    if len(given) < len(wanted):
        usual = " ".join([command, *(str(one.usual) for one in wanted)])
        form = " ".join([command, *(one.letter for one in wanted)])
        told.append(f"a number is missing: write `{usual}` for `{form}`")
    elif len(given) > len(wanted) + (command == "all"):
        fewer = " ".join([command, *given[: len(wanted)]])
        told.append(f"there is a word too many: write `{fewer}`")
    return told


def in_place_of_number(word: str, wanted: Counted) -> list[str]:
    """What to write in place of a word that is no number within the bounds."""
    sign = -1 if wanted.least < 0 and word.startswith("-") else 1
    value = number_meant(word)
    if value is None:
        return [f"`{word}` is no number: write digits alone, such as {wanted.usual}"]
    if str(sign * value) != word:
        return [f"numbers are written as digits alone: write {sign * value} in place of `{word}`"]
    if not wanted.least <= sign * value <= wanted.most:
        return [wanted.outside(sign * value)]
    return []


def number_meant(word: str) -> int | None:
    """The number that a word such as `1e6`, `10^6`, `1_000`, `1,000`, `5k` or `007` may mean."""
    plain = re.sub(r"(?<=\d)[_,.' ](?=\d{3}\b)", "", word.lower().lstrip("+-"))
    if found := re.fullmatch(r"(\d+)(?:e\+?|\*?10\*\*|\*?10\^)(\d{1,2})", plain):
        return int(found[1] + "0" * int(found[2]))
    if found := re.fullmatch(r"(\d+)(?:\^|\*\*)(\d{1,2})", plain):
        return int(pow(int(found[1]), int(found[2])))
    if found := re.fullmatch(r"(\d+)(k|m|g|b)", plain):
        return int(found[1]) * {"k": 10**3, "m": 10**6, "g": 10**9, "b": 10**9}[found[2]]
    if found := re.fullmatch(r"(\d+)(?:\.0*)?", plain):
        return int(found[1])
    return None
