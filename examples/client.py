#!/usr/bin/env python3
"""Prints the keys and the length of each problem of a file, as `matedesk solve --json` tells them.

  examples/client.py FILE        a line for each record: its number, its keys, #N
"""

import json
import subprocess
import sys
from pathlib import Path

BESIDE = Path(__file__).resolve().parent.parent / "matedesk"
MATEDESK = BESIDE if BESIDE.is_file() else "matedesk"


def told(reply):
    """What there is to say of a reply."""
    if "error" in reply:
        return reply["error"]
    if "bm" in reply:
        return f"{' '.join(reply['bm'])} #{reply['dm']}"
    return " ".join(reply["operations"]["c0"])


with subprocess.Popen([MATEDESK, "solve", "--json", sys.argv[1]], stdout=subprocess.PIPE, text=True) as solving:
    for line in solving.stdout:
        reply = json.loads(line)
        print(f"{reply['line']}: {told(reply)}")
# 1 says that a line was refused, which is printed.
sys.exit(solving.returncode if solving.returncode > 1 else 0)
