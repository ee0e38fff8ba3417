"""Problems and layouts in JSON: the examples and random problems, the schemas, what is worked out by
hand, and what has not the form of a problem."""

from __future__ import annotations

import json
import time
from pathlib import Path

from check_absent import random_problem
from geost.text import print_layout, print_problem, read_layout
from harness import TOP, Case, Cases, Failed, Setting, Skipped, first_of, want

PROBLEMS = 100
STEPS = "10000"
LINE = """geost 1 dims 1 shape s box 0 size 2 ; object a as s at 0..3 ; object b as s at 0..3 ;
rule r : apart ; end
"""
VALUE = {
    "dims": 1,
    "geost": 1,
    "macros": [],
    "objects": [
        {"attributes": [], "name": "a", "ranges": [[[0, 3]]], "shapes": ["s"]},
        {"attributes": [], "name": "b", "ranges": [[[0, 3]]], "shapes": ["s"]},
    ],
    "order": ["a", "b"],
    "rules": [{"body": "apart", "name": "r"}],
    "shapes": [{"boxes": [{"offset": [0], "size": [2]}], "name": "s"}],
    "sides": ["low"],
}


def compact(value: object) -> str:
    return json.dumps(value, separators=(",", ":"), sort_keys=True, ensure_ascii=False) + "\n"


def check_hand(setting: Setting) -> None:
    ask = setting.program.ask
    want(ask(["to_json"], LINE.encode()).text, compact(VALUE), "the value")
    text = compact(VALUE).encode()
    want(ask(["from_json"], text).text, ask(["show"], LINE.encode()).text, "the problem")
    layout = {
        "layout": [
            {"name": "a", "origin": [0], "shape": "s"},
            {"name": "b", "origin": [2], "shape": "s"},
        ],
        "token": "1,0/1,2",
    }
    want(ask(["first_json", "4"], text).text, compact(layout), "the layout")
    want(ask(["first_json", "3"], text).text, '{"budget":3}\n', "three steps")


def check_wrong_forms(setting: Setting) -> None:
    """A key that is missing, one too many, numbers that are not whole, and texts that are no JSON."""
    wrong = [
        {key: value for key, value in VALUE.items() if key != "sides"},
        {**VALUE, "more": 1},
        {**VALUE, "dims": 1.0},
        {**VALUE, "dims": -1},
        {**VALUE, "sides": ["left"]},
        {**VALUE, "order": ["a-b"]},
        {**VALUE, "rules": [{"body": "apart ; rule q : true", "name": "r"}]},
        [],
        None,
    ]
    texts = [compact(value).encode() for value in wrong]
    for text in [*texts, b"", b"{", b"\xff", b"[" * 1000]:
        answer = setting.program.ask(["from_json"], text)
        want((answer.text, answer.status), ("refused 0 json\n", 2), repr(text[:60]))
    answer = setting.program.ask(["from_json"], compact({**VALUE, "geost": 3}).encode())
    want(answer.text, "refused 6 limit\n", "a version that is none")


def check_nesting(setting: Setting) -> None:
    """A text of a megabyte of brackets is refused at once."""
    began = time.perf_counter()
    answer = setting.program.ask(["from_json"], b"[" * 2**20)
    want(answer.text, "refused 0 json\n", "the answer")
    if time.perf_counter() - began > 10:
        raise Failed("it took more than ten seconds")


def schema(name: str) -> object:
    try:
        import jsonschema
    except ImportError:
        raise Skipped("python3-jsonschema is not installed") from None
    text = (TOP / "docs" / f"{name}.schema.json").read_text()
    return jsonschema.Draft202012Validator(json.loads(text))


def check_schemas(setting: Setting) -> None:
    problem, layout = schema("problem"), schema("layout")
    for file in sorted((TOP / "examples").glob("*.geost")):
        text = setting.program.ask(["to_json"], file.read_bytes()).text
        problem.validate(json.loads(text))  # type: ignore[attr-defined]
        found = setting.program.ask(["first_json", "100"], text.encode()).text
        layout.validate(json.loads(found))  # type: ignore[attr-defined]
    if problem.is_valid({**VALUE, "more": 1}) or problem.is_valid({**VALUE, "dims": 1.5}):  # type: ignore[attr-defined]
        raise Failed("the schema takes what has not the form")


def check_round(setting: Setting, text: bytes, what: str) -> None:
    """A problem to JSON and back, and its first layout as `first` finds it."""
    ask = setting.program.ask
    shown = ask(["show"], text).text
    value = ask(["to_json"], text).text
    want(value, compact(json.loads(value)), f"{what}: the spelling of the value")
    want(ask(["from_json"], value.encode()).text, shown, f"{what}: to JSON and back")
    first, found = ask(["first", STEPS], text), ask(["first_json", STEPS], value.encode())
    want(found.status, first.status, f"{what}: the status")
    said = json.loads(found.text)
    if "layout" in said:
        problem_layout = [
            (place["name"], place["shape"], tuple(place["origin"])) for place in said["layout"]
        ]
        lines = print_layout(read_layout(first_of(first.text).encode())).splitlines()[1:]
        spelled = [
            f"{name} absent" if shape == "absent" else f"{name} as {shape} at {' '.join(map(str, origin))}"
            for name, shape, origin in problem_layout
        ]
        want(spelled, lines, f"{what}: the layout")
    elif "none" in said:
        checked = ask(["check"], f"{shown}\n{said['none']}\n".encode()).text
        want(checked, "yes\n", f"{what}: the derivation")


def check_examples(setting: Setting) -> None:
    for file in sorted((TOP / "examples").glob("*.geost")):
        check_round(setting, file.read_bytes(), file.stem)


def check_random(setting: Setting) -> None:
    for number in range(PROBLEMS):
        text = print_problem(random_problem(f"json {number}"))
        check_round(setting, text.encode(), text)


def cases(setting: Setting, folder: Path) -> Cases:
    yield Case("json: by hand", lambda: check_hand(setting))
    yield Case("json: what has not the form", lambda: check_wrong_forms(setting))
    yield Case("json: a megabyte of brackets", lambda: check_nesting(setting))
    yield Case("json: the schemas", lambda: check_schemas(setting))
    yield Case("json: the examples to JSON and back", lambda: check_examples(setting))
    yield Case("json: random problems to JSON and back", lambda: check_random(setting))
