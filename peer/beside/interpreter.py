"""The Python that the programs of this folder run in: one that has psycopg2."""

import importlib.util
import os
import sys

DEBIANS_PYTHON = "/usr/bin/python3"


def need_psycopg2() -> None:
    """Goes on in Debian's Python where this one has no psycopg2; ends the program with status 3 where neither has it."""
    if importlib.util.find_spec("psycopg2"):
        return
    if os.path.exists(DEBIANS_PYTHON) and not os.path.samefile(sys.executable, DEBIANS_PYTHON):
        os.execv(DEBIANS_PYTHON, [DEBIANS_PYTHON, *sys.argv])
    print("psycopg2 is missing: apt-get install python3-psycopg2", file=sys.stderr)
    sys.exit(3)
