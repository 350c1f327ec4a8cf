"""What is printed of scripts that were run beside a server."""

import json
from collections import Counter
from itertools import zip_longest

from beside.classes import CLASSES
from beside.compare import Difference
from beside.judge import Judgement

WIDEST = 60


def told(judgement: Judgement) -> str:
    """A script's line, and its differences below it."""
    if judgement.left_out:
        return f"{judgement.name}: left out, {judgement.left_out}"
    if not judgement.differences:
        return f"{judgement.name}: agrees, {judgement.lines} lines"
    return "\n".join([f"{judgement.name}: {summary(judgement)}", *map(told_difference, judgement.differences)])


def summary(judgement: Judgement) -> str:
    """In what a script differs, in a few words."""
    counts = Counter(difference.reason or "unexplained" for difference in judgement.differences)
    return "differs, " + ", ".join(f"{reason} {count}" for reason, count in sorted(counts.items()))


def told_difference(difference: Difference) -> str:
    """A difference as two columns below its line."""
    where = f"line {difference.place}, {difference.name} {difference.statement}" if difference.place else difference.name
    width = max(len("gx"), *(min(len(line), WIDEST) for line in difference.ours))
    rows = zip_longest(("gx", *difference.ours), ("server", *difference.theirs), fillvalue="")
    columns = [f"    {ours:<{width}} | {theirs}".rstrip() for ours, theirs in rows]
    return "\n".join([f"  {where}: {difference.reason or 'unexplained'}", *columns])


def counts_of(judgements: list[Judgement]) -> dict[str, object]:
    """How many scripts agree, differ and were left out, and for which reasons."""
    run = [judgement for judgement in judgements if not judgement.left_out]
    known = [judgement for judgement in run if judgement.status == 1]
    reasons = Counter(reason for judgement in known for reason in {difference.reason for difference in judgement.differences})
    return {
        "agree": sum(judgement.status == 0 for judgement in run),
        "known": len(known),
        "reasons": dict(sorted(reasons.items())),
        "unexplained": sum(judgement.status == 2 for judgement in run),
        "left out": dict(sorted(Counter(judgement.left_out for judgement in judgements if judgement.left_out).items())),
        "lines": sum(judgement.lines for judgement in run),
        "victims": sum(judgement.victims for judgement in run),
        "same victims": sum(judgement.same_victims for judgement in run),
    }


def listed(counts: dict[str, int]) -> str:
    """Counts by name, in parentheses; nothing where there are none."""
    return f" ({', '.join(f'{name} {count}' for name, count in counts.items())})" if counts else ""


def sentences(judgements: list[Judgement]) -> str:
    """What the classes that came up mean."""
    found = {difference.reason or "" for judgement in judgements for difference in judgement.differences}
    names = {name for reason in found for name in reason.split(" and ")}
    return "\n".join(f"{name}: {said}" for name, said in CLASSES.items() if name in names)


def totals(judgements: list[Judgement]) -> str:
    """The last lines of a run."""
    told_classes = sentences(judgements)
    return told_classes + "\n" * bool(told_classes) + last_line(judgements)


def last_line(judgements: list[Judgement]) -> str:
    """How many scripts agree, differ and were left out."""
    counts = counts_of(judgements)
    left = counts["left out"]
    victims = f", {counts['victims']} victims, {counts['same victims']} of them the server's too" if counts["victims"] else ""
    return (
        f"{counts['agree']} agree, {counts['known']} differ as known{listed(counts['reasons'])},"
        f" {counts['unexplained']} unexplained, {sum(left.values())} left out{listed(left)}; {counts['lines']} lines{victims}"
    )


def as_json(judgements: list[Judgement]) -> str:
    """All of it as one JSON value."""
    scripts = [
        {
            "script": judgement.name,
            "left out": judgement.left_out,
            "lines": judgement.lines,
            "status": judgement.status,
            "differences": [vars(difference) for difference in judgement.differences],
        }
        for judgement in judgements
    ]
    return json.dumps({"scripts": scripts, "counts": counts_of(judgements), "classes": CLASSES}, indent=2)
