"""The command peer/watch."""

import argparse
import itertools
import sys
import time

from beside.connection import NoAnswer, ServerGone
from beside.draw import drawn
from beside.drive import Settings
from beside.judge import Judgement, judge_text
from beside.oracle import NoOracle, Refused, find_gx
from beside.report import told, totals
from beside.run_command import NO_RUN, add_server_options, end_on_signals, settings_of
from beside.shrink import shrunk
from beside.stage import Server


class Watcher:
    """Tries scripts on both sides."""

    def __init__(self, program: str, server: Server, settings: Settings) -> None:
        """The program gx, and the server."""
        self._program = program
        self._server = server
        self._settings = settings

    def judged(self, name: str, text: str) -> Judgement:
        """What comes of a script."""
        return judge_text(name, text, [], self._program, self._server, self._settings)

    def smallest(self, text: str) -> str:
        """The fewest lines of a script that differ without a known reason; the first line, with the segments, stays."""
        first, *lines = text.splitlines()

        def still(fewer: list[str]) -> bool:
            try:
                return self.judged("", "\n".join([first, *fewer]) + "\n").status == 2
            except Refused:
                return False

        return "\n".join([first, *shrunk(lines, still)]) + "\n"


def watch(options: argparse.Namespace) -> int:
    """Draws scripts until one differs without a known reason, or their number or time is over."""
    server, settings = settings_of(options)
    watcher = Watcher(find_gx(options.gx), server, settings)
    deadline = time.monotonic() + options.seconds if options.seconds else None
    seeds = itertools.count(options.seed) if options.count is None else range(options.seed, options.seed + options.count)
    judgements: list[Judgement] = []
    for seed in seeds:
        if deadline is not None and time.monotonic() > deadline:
            break
        text = drawn(seed)
        judgement = watcher.judged(f"number {seed}", text)
        judgements.append(judgement)
        if judgement.status == 2:
            smallest = watcher.smallest(text)
            print(told(judgement), "", "The fewest lines that still differ:", "", smallest, sep="\n")
            print(told(watcher.judged("these lines", smallest)))
            if options.out:
                with open(options.out, "w", encoding="utf-8") as out:
                    out.write(smallest)
            break
    print(totals(judgements))
    return max((judgement.status for judgement in judgements), default=0)


def main(words: list[str]) -> int:
    """Runs the command; its status is that of peer/run over the scripts that were drawn."""
    what = (
        "Draws scripts and runs them on gx and on a live server, until their answers differ without a known reason;"
        " and then leaves out lines as long as they differ."
    )
    first = "the first script's number (%(default)s); the next ones follow"
    parser = argparse.ArgumentParser(prog="peer/watch", description=what)
    add_server_options(parser)
    parser.add_argument("--seed", type=int, default=1, metavar="N", help=first)
    parser.add_argument("--count", type=int, metavar="N", help="how many scripts are drawn; else it goes on")
    parser.add_argument("--seconds", type=float, metavar="S", help="no script is drawn after this time")
    parser.add_argument("--out", metavar="FILE", help="where the lines that differ are written too")
    try:
        options = parser.parse_args(words)
    except SystemExit as end:
        return NO_RUN if end.code else 0
    end_on_signals()
    try:
        return watch(options)
    except (NoOracle, NoAnswer, ServerGone) as error:
        print(f"peer/watch: {error}", file=sys.stderr)
        return NO_RUN
    except KeyboardInterrupt:
        print("peer/watch: interrupted", file=sys.stderr)
        return 130
