"""The command peer/run."""

import argparse
import os
import signal
import sys
from pathlib import Path

from beside.connection import NoAnswer, ServerGone
from beside.drive import Settings
from beside.judge import Judgement, judge_file
from beside.oracle import NoOracle, Refused, find_gx
from beside.report import as_json, told, totals
from beside.stage import Server

NO_RUN = 3


def add_server_options(parser: argparse.ArgumentParser) -> None:
    """The options that peer/run and peer/watch share."""
    waits = "who tells who waits: the server's pg_blocking_pids, or half a second without an answer"
    first = "take a table's lock before a repeatable-read block's snapshot"
    limit = "how long a line may take that doesn't wait (%(default)g)"
    program = "the program gx: else that of GX_PROGRAM, or crates/gx/out/gx"
    parser.add_argument("--dsn", default=default_dsn(), help="the server, as libpq names it (here: %(default)r)")
    parser.add_argument("--waits", choices=("blockers", "timeout"), default="blockers", help=waits)
    parser.add_argument("--lock-first", action="store_true", help=first)
    parser.add_argument("--limit", type=float, default=30.0, metavar="SECONDS", help=limit)
    parser.add_argument("--gx", metavar="PATH", help=program)


def default_dsn() -> str:
    """The server of `peer/server start`, where it runs; else what libpq's own variables say."""
    folder = os.environ.get("GX_PEER_FOLDER") or f"{os.environ.get('TMPDIR') or '/tmp'}/gx-peer-{os.getuid()}"
    return f"host={folder} user=gx dbname=postgres" if os.path.isdir(folder) else ""


def settings_of(options: argparse.Namespace) -> tuple[Server, Settings]:
    """The server and the settings that the options name."""
    deadlocks = getattr(options, "deadlocks", "gx")
    return Server(options.dsn, options.waits), Settings(options.limit, deadlocks, options.lock_first)


def end_on_signals() -> None:
    """Lets a signal to end reach the program as an interrupt, so that it clears up."""

    def interrupt(number: int, frame: object) -> None:
        raise KeyboardInterrupt

    for number in (signal.SIGINT, signal.SIGTERM, signal.SIGHUP):
        signal.signal(number, interrupt)


def judge_all(options: argparse.Namespace) -> tuple[list[Judgement], int]:
    """Judges the scripts one after the other, and prints each as it comes; with the status."""
    program = find_gx(options.gx)
    server, settings = settings_of(options)
    judgements: list[Judgement] = []
    status = 0
    for path in options.script:
        try:
            judgement = judge_file(Path(path), program, server, settings)
        except (OSError, Refused, NoOracle, NoAnswer) as error:
            print(f"{path}: {error}", file=sys.stderr)
            status = NO_RUN
            continue
        except ServerGone as error:
            print(f"{path}: {error}", file=sys.stderr)
            return judgements, NO_RUN
        judgements.append(judgement)
        status = max(status, judgement.status)
        if not options.json:
            print(told(judgement), flush=True)
    return judgements, status


def main(words: list[str]) -> int:
    """Runs the command; its status is 0 where all agree, 1 with known differences alone, 2 with others, 3 without a run."""
    what = "Runs scripts of gx on a live server, and says where its answers differ from those of gx."
    deadlocks = "who cancels in a deadlock: the peer, whom gx names, or the server by itself"
    parser = argparse.ArgumentParser(prog="peer/run", description=what)
    add_server_options(parser)
    parser.add_argument("--deadlocks", choices=("gx", "server"), default="gx", help=deadlocks)
    parser.add_argument("--json", action="store_true", help="print one JSON value in place of text")
    parser.add_argument("script", nargs="+", metavar="SCRIPT")
    try:
        options = parser.parse_args(words)
    except SystemExit as end:
        return NO_RUN if end.code else 0
    end_on_signals()
    try:
        judgements, status = judge_all(options)
    except NoOracle as error:
        print(f"peer/run: {error}", file=sys.stderr)
        return NO_RUN
    except KeyboardInterrupt:
        print("peer/run: interrupted", file=sys.stderr)
        return 130
    if options.json:
        print(as_json(judgements))
    elif judgements:
        print(totals(judgements))
    return status
