"""One script beside a server: its run, what differs, and why."""

from dataclasses import dataclass, field, replace
from pathlib import Path

from beside.answers import VICTIM
from beside.compare import Difference, differences, expected
from beside.drive import ServerRun, Settings
from beside.oracle import Verdicts, ask_gx
from beside.script import Script, left_out, read_script, words_beside
from beside.stage import Server, Stage
from beside.variants import refused_with, variants

BEGIN_IN_BLOCK = "begin"


@dataclass
class Judgement:
    """What came of a script: left out for a reason, or the differences, of which those without a reason are unexplained.

    `victims` and `same_victims` count the lines in which gx's detector cancels a session, and those of them that the server
    refuses too.
    """

    name: str
    left_out: str | None = None
    lines: int = 0
    differences: list[Difference] = field(default_factory=list)
    victims: int = 0
    same_victims: int = 0

    @property
    def status(self) -> int:
        """0 where all agrees, 1 where only known differences are left, 2 where one is unexplained."""
        if any(difference.reason is None for difference in self.differences):
            return 2
        return 1 if self.differences else 0


def judge_file(path: Path, program: str, server: Server, settings: Settings) -> Judgement:
    """Runs the script of a file on both sides."""
    text = path.read_bytes().decode(errors="surrogateescape")
    return judge_text(str(path), text, words_beside(path), program, server, settings)


def judge_text(name: str, text: str, words: list[str], program: str, server: Server, settings: Settings) -> Judgement:
    """Runs a script on both sides: on gx first, which refuses what is no script."""
    verdicts = ask_gx(program, text)
    script = read_script(text)
    reason = left_out(script, words)
    if reason is not None:
        return Judgement(name, left_out=reason)
    with Stage(server, script, settings) as stage:
        run = stage.run(verdicts.rounds)
    return judge(name, script, verdicts, run, program)


def judge(name: str, script: Script, verdicts: Verdicts, run: ServerRun, program: str) -> Judgement:
    """Compares both sides, and looks for the reason of what differs; the answers of gx are those to the script as it stands."""
    found = differences(script, replace(expected(program, script), answers=verdicts.answers), run)
    if any(difference.reason is None for difference in found):
        reason = reason_of(script, verdicts, run, program)
        found = [difference if difference.reason else difference.known(reason) for difference in found]
    ours = {line for line, answer in verdicts.answers.items() if answer.refusal == VICTIM}
    return Judgement(
        name,
        lines=len(script.lines),
        differences=found + plain_begins(run),
        victims=len(ours),
        same_victims=len(ours & refused_with(VICTIM, run)),
    )


def plain_begins(run: ServerRun) -> list[Difference]:
    """The BEGINs in blocks that the server was sent without their level."""
    lines = [passage.line for passage in run.passages.values() if passage.is_plain]
    sent = ("BEGIN without its level",)
    return [Difference(line.place, line.name, line.written, ("BEGIN",), sent, BEGIN_IN_BLOCK) for line in lines]


def reason_of(script: Script, verdicts: Verdicts, run: ServerRun, program: str) -> str | None:
    """The classes of the changes under which gx gives all that the server gave; None where no such changes are known."""
    for variant in variants(script, run, verdicts.answers):
        if variant.explains(script, run, program):
            return " and ".join(variant.reasons)
    return None
