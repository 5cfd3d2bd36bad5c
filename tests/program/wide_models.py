"""Models at the limits, with what each command writes for them, worked out from the rules."""

from __future__ import annotations

from collections.abc import Iterable

from support import limits
from support.models import vertex


def padding(missing: int) -> str:
    """Write vertices that nothing schedules, in exactly so many bytes, with changes of N."""
    text: list[str] = []
    number = 0
    change = len("  set N := 1;\n")
    while missing > 0:
        name = f"F{number}"
        missing -= len(vertex(name))
        changes = missing // change if missing < 14_000 else limits.CHANGES
        missing -= change * changes
        if missing < 28:
            name += "F" * missing
            missing = 0
        text.append(vertex(name, *["set N := 1;"] * changes))
        number += 1
    return "".join(text)


def values(count: int, ones: int) -> list[int]:
    """List the values of so many variables, of which the first ones are 1."""
    return [int(number < ones) for number in range(count)]


def named(numbers: Iterable[int]) -> str:
    """Write values as a note does."""
    return "".join(f" X{number}={value}" for number, value in enumerate(numbers))


def wide_answers() -> dict[str, str]:
    """Work out what each command writes for a model of 2,000 vertices and variables.

    Each event stores 1 into a variable of its own, and schedules the next one.
    """
    count = limits.VARIABLES
    last = count - 1
    variables = [f"X{number}" for number in range(count)]
    declared = "".join(f"var {name} : 0..9 = 0;\n" for name in variables)
    watch = f"watch {', '.join(variables)};\n"
    vertices = "".join(
        vertex(
            f"V{number}",
            f"set X{number} := 1;",
            *([f"schedule V{number + 1} after 1;"] if number < last else []),
        )
        for number in range(count)
    )
    text = f"model WIDE;\n{declared}{watch}{vertices}end\n"
    saved = "".join(f"value X{number} {int(number < 3)}\n" for number in range(count))
    noted = ",".join(map(str, values(count, 2)))
    return {
        "check": "accepted WIDE\n",
        "print": text,
        "fuse": text,
        "narrow": text.replace("0..9", "0..1"),
        "reduce": text + "certificate\nend\n",
        "certify": "sound\n",
        "uses": "".join(f"X{n} readers - writers V{n} watched yes\n" for n in range(count)),
        "conflicts": "".join(f"V{n} V{n} variables\n" for n in range(count)),
        "describe": wide_description(variables),
        "run": f"at 0{named(values(count, 1))}\nat 1{named(values(count, 2))}\nbudget 3\n",
        "save": f"{text}snapshot\nseed 0 42\nclk 2\nevents 3\n{saved}noted {noted}\n"
        "pending 1 5 V3\nend\n",
        "resume": f"at 2{named(values(count, 3))}\nat 3{named(values(count, 4))}\nstopped 3\n",
        "replicate": wide_report(count),
    }


def wide_description(variables: list[str]) -> str:
    """Describe the model of 2,000 vertices and variables."""
    lines = ["This is the model WIDE."]
    lines += [f"The variable {v} is a whole number from 0 to 9 and starts at 0." for v in variables]
    lines += [f"Watched are {', '.join(variables)}.", "The first event is V0."]
    for number, name in enumerate(variables):
        lines += [f"Event V{number} takes no values.", f"When V{number} occurs, {name} becomes 1."]
        if number < len(variables) - 1:
            lines.append(
                f"After V{number}, event V{number + 1} is scheduled after 1 ticks with priority 5."
            )
    return "\n".join(lines) + "\n"


def wide_report(count: int) -> str:
    """Write the report of two runs of 2 ticks of the model of 2,000 vertices and variables."""
    spans = [f"X{n},{int(n < 1)},{int(n < 3)}," for n in range(count)]
    areas = [max(0, 2 - n) for n in range(count)]
    rows = [
        f"{run},{41 + run},stopped,2,{spans[n]}{int(n < 3)},{areas[n]},\n"
        for run in (1, 2)
        for n in range(count)
    ]
    totals = [f"total,,,,{spans[n]},{2 * areas[n]},\n" for n in range(count)]
    return limits.REPORT + "".join(rows + totals)


FULL_WORDS = f"--until {limits.UNTIL} --seed {limits.SEED} --start " + ",".join(
    map(str, range(1, limits.PARAMETERS + 1))
)


def full_answers(arrays: int) -> dict[str, str]:
    """Work out what each command writes for a model whose lists are as long as they may be.

    It has arrays, parameters, targets, carried values and starting values. The first event turns
    its sixteen values by one place, and stores the first of them into the last cell.
    """
    count = limits.PARAMETERS
    names = [f"P{number}" for number in range(count)]
    turned = names[1:] + names[:1]
    taken, last = ", ".join(names), f"A{arrays - 1}"
    declared = "".join(f"var A{a}[{limits.CELLS}] : 0..99 = 0;\n" for a in range(arrays))
    declared += "".join(f"var {name} : 0..99 = 0;\n" for name in names)
    text = (
        f"version 2;\nmodel FULL;\n{declared}watch {last}, P15;\n"
        + vertex(
            f"RUN({taken})",
            f"set {taken} := {', '.join(turned)};",
            f"set {last}[65535] := P0;",
            f"schedule TAKE({taken}) after {limits.UNTIL};",
        )
        + vertex(f"TAKE({taken})", f"cancel TAKE({taken});")
        + "end\n"
    )
    zeros = "0," * (limits.CELLS - 1)
    carried = [(number + 1) % count + 1 for number in range(count)]
    saved = "".join(f"value {name} {value}\n" for name, value in zip(names, carried))
    users = "".join(
        f"{name} readers RUN,TAKE writers RUN,TAKE watched {'yes' if name == 'P15' else 'no'}\n"
        for name in names
    )
    return {
        "check": "accepted FULL\n",
        "print": text,
        "fuse": text,
        "narrow": text,
        "reduce": text + "certificate\nend\n",
        "certify": "sound\n",
        "uses": f"{last} readers - writers RUN watched yes\n{users}",
        "describe": full_description(last, names, turned),
        "conflicts": "RUN RUN variables\nRUN TAKE variables,cancels\nTAKE TAKE variables,cancels\n",
        "replicate": full_report(last),
        "run": f"at 0 {last}={zeros}2 P15=1\nended {limits.UNTIL}\n",
        "save": f"{text}snapshot\nseed 4294967295 4294967295\nclk 0\nevents 1\n"
        f"value A0 {zeros}2\n{saved}"
        f"pending {limits.UNTIL} 5 TAKE({','.join(map(str, carried))})\nend\n",
    }


def full_description(last: str, names: list[str], turned: list[str]) -> str:
    """Describe the model whose lists are as long as they may be."""
    taken = ", ".join(names)
    becomes = " and ".join(f"{name} becomes {other}" for name, other in zip(names, turned))
    lines = [
        "This is the model FULL.",
        f"The array {last} of {limits.CELLS} cells is a whole number from 0 to 99 and starts at 0.",
        *(f"The variable {n} is a whole number from 0 to 99 and starts at 0." for n in names),
        f"Watched are {last}, P15.",
        "The first event is RUN.",
        f"Event RUN takes {taken}.",
        f"When RUN occurs, {becomes}.",
        f"When RUN occurs, {last}[65535] becomes P0.",
        f"After RUN, event TAKE is scheduled after {limits.UNTIL} ticks with priority 5, "
        f"carrying {taken}.",
        f"Event TAKE takes {taken}.",
        f"After TAKE, the next pending TAKE carrying {taken} is cancelled.",
    ]
    return "\n".join(lines) + "\n"


def full_report(last: str) -> str:
    """Write the report of one run of the model whose lists are as long as they may be."""
    area = 2 * limits.UNTIL
    text = [limits.REPORT]
    run = f"1,{limits.SEED},ended,{limits.UNTIL},"
    for head, zero, two, one in ((run, "0", "2", "1"), ("total,,,,", "", "", "")):
        text += [f"{head}{last}[{cell}],0,0,{zero},0,\n" for cell in range(limits.CELLS - 1)]
        text.append(f"{head}{last}[65535],2,2,{two},{area},\n")
        text.append(f"{head}P15,1,1,{one},{limits.UNTIL},\n")
    return "".join(text)
