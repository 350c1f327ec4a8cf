"""gx as the oracle: what it answers to a script, and whom its detector cancels."""

import os
import re
import subprocess
from dataclasses import dataclass, field
from pathlib import Path

from beside.answers import Answer, Row, answer_of, row_of
from beside.script import Script

REPOSITORY = Path(__file__).resolve().parents[2]
BUILT_HERE = REPOSITORY / "crates/gx/out/gx"
ENDED, REFUSED, STUCK = 0, 3, 8


class NoOracle(Exception):
    """There is no program gx, or it ended in a way that gives no answers; the text says which."""


class Refused(Exception):
    """gx refuses the script; the text is its line."""


@dataclass
class Verdicts:
    """What gx gives for a script: answers by the line's name, final tables, and the sessions cancelled in each round."""

    answers: dict[str, Answer] = field(default_factory=dict)
    tables: dict[str, list[Row]] = field(default_factory=dict)
    rounds: list[list[str]] = field(default_factory=list)


def find_gx(named: str | None) -> str:
    """The program to ask: the one named, that of GX_PROGRAM, or the one built in this repository."""
    program = named or os.environ.get("GX_PROGRAM") or str(BUILT_HERE)
    if not os.access(program, os.X_OK):
        how = "" if named else ": build it by (cd crates/gx && rt run < stdin), or name one by --gx or GX_PROGRAM"
        raise NoOracle(f"{program} is no program{how}")
    return program


def said_by(program: str, text: str) -> str:
    """What gx prints with --trace for the text of a script, in its fixed order."""
    run = subprocess.run([program, "--trace"], input=text.encode(errors="surrogateescape"), capture_output=True, check=False)
    said = run.stdout.decode()
    last = (said.strip().splitlines() or ["nothing"])[-1]
    if run.returncode == REFUSED:
        raise Refused(last)
    if run.returncode not in (ENDED, STUCK):
        raise NoOracle(f"{program} ended with status {run.returncode}: {last}")
    return said


def ask_gx(program: str, text: str) -> Verdicts:
    """What gx gives for the text of a script; of one that is never finished, what comes before its sessions are stuck."""
    return read_verdicts(said_by(program, text))


def ask_about(program: str, script: Script) -> Verdicts:
    """What gx gives for a script."""
    return ask_gx(program, script.text)


def ask_trace(program: str, script: Script) -> str:
    """The trace of gx's run of a script."""
    return f"\n{said_by(program, script.text)}".partition("\nrun ")[2]


def read_verdicts(said: str) -> Verdicts:
    """The answers, tables and rounds of what gx prints with --trace."""
    verdicts = Verdicts()
    printed, _, trace = f"\n{said}".partition("\nrun ")
    lines = printed.split("\n")[1:]
    at = 0
    while at < len(lines):
        head, at = lines[at], at + 1
        behind = at
        while behind < len(lines) and lines[behind].startswith("  "):
            behind += 1
        rows = tuple(row_of(line) for line in lines[at:behind])
        at = behind
        name, _, rest = head.partition(" ")
        if name == "stopped:":
            break
        if name == "table":
            verdicts.tables[rest.split()[0]] = list(rows)
        else:
            verdicts.answers[name] = answer_of(rest, rows)
    verdicts.rounds = rounds_of(trace)
    return verdicts


BEGIN = re.compile(r"^  begin (\d+) (\S+)$", re.MULTILINE)
RECHECK = re.compile(r"^  recheck \d+: victims ([\d ]+)$", re.MULTILINE)


def rounds_of(trace: str) -> list[list[str]]:
    """The sessions that each round of a trace cancels, in order; rounds that cancel nobody are left out."""
    session = dict(BEGIN.findall(trace))
    return [[session[gxid] for gxid in victims.split()] for victims in RECHECK.findall(trace)]
