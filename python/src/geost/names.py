"""Names of data, which may be any text, and the names that a problem allows for them."""

from __future__ import annotations

import re
import unicodedata
from dataclasses import dataclass, field

from geost.tokens import LONGEST_NAME, RESERVED

ALLOWED = re.compile(r"[A-Za-z_][A-Za-z0-9_]*")
FIELDS = re.compile(r"id|sid|x[1-9]")
SPELLED = str.maketrans(
    {"ä": "ae", "ö": "oe", "ü": "ue", "Ä": "Ae", "Ö": "Oe", "Ü": "Ue", "ß": "ss"}
    | {"æ": "ae", "Æ": "Ae", "ø": "o", "Ø": "O", "å": "a", "Å": "A", "ł": "l", "Ł": "L"}
)


def is_field(name: str) -> bool:
    return FIELDS.fullmatch(name) is not None


def is_allowed(name: str, is_attribute: bool = False) -> bool:
    """Whether a problem allows the name as it is."""
    if len(name) > LONGEST_NAME or name in RESERVED or is_attribute and is_field(name):
        return False
    return ALLOWED.fullmatch(name) is not None


def name_for(words: str, is_attribute: bool) -> str:
    """A name of a problem that is like these words, at most 36 bytes long."""
    spelled = unicodedata.normalize("NFKD", words.translate(SPELLED))
    plain = re.sub(r"[^A-Za-z0-9]+", "_", spelled.encode("ascii", "ignore").decode()).strip("_")
    plain = plain[: LONGEST_NAME - 4].strip("_") or "item"
    if plain[0].isdigit() or plain in RESERVED or is_attribute and is_field(plain):
        plain = f"_{plain}"
    return plain


def names_for(titles: list[str], is_attribute: bool = False) -> list[str]:
    """A name for each of several words, each another one."""
    found: list[str] = []
    for title in titles:
        found.append(unused(name_for(title, is_attribute), found))
    return found


def unused(stem: str, taken: list[str] | set[str] | dict[str, str]) -> str:
    """The stem, with a number behind it where it is taken."""
    name, number = stem, 2
    while name in taken:
        name, number = f"{stem[: LONGEST_NAME - 4]}_{number}", number + 1
    return name


@dataclass
class Names:
    """The names of one kind, both ways: a name that is allowed stays, where no other has it."""

    is_attribute: bool = False
    spelled: dict[str, str] = field(default_factory=dict)
    given: dict[str, str] = field(default_factory=dict)

    def spell(self, given: str) -> str:
        """The name in the text of a problem, always the same one."""
        if given not in self.spelled:
            allowed = is_allowed(given, self.is_attribute)
            stem = given if allowed else name_for(given, self.is_attribute)
            if stem in self.given:
                stem = name_for(given, self.is_attribute)
            self.keep(given, unused(stem, self.given))
        return self.spelled[given]

    def keep(self, given: str, spelled: str) -> None:
        """From now on both stand for each other."""
        self.spelled[given], self.given[spelled] = spelled, given

    def of(self, spelled: str) -> str:
        """The name of the data for one of the text."""
        return self.given.get(spelled, spelled)
