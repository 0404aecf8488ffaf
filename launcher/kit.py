#!/usr/bin/env python3
"""The kit on this machine, judged by the number of its logic: kits with one number prove the same.

usage: launcher/kit.py [WHO]     says in one line on standard error what was found and what is wanted, where they differ; WHO says it

The exit status is 0 where the number is the one that is wanted, 1 where it is another, and 2 where there is no command rt.
"""
import os
import re
import shutil
import subprocess
import sys

# The logic that the proofs are written for, and the kits of that logic that they were seen to pass with.
LOGIC = "dac8208d650f15bf"
SEEN = "rattle-kit-13b or rattle-kit-13f"
IS_RIGHT, IS_OTHER, IS_LACKING = range(3)


def find_rt():
    """The path of the command rt, or None. Where it is not on PATH, the place where kits are installed is tried."""
    rt = shutil.which("rt") or "/opt/rattle/bin/rt"
    return rt if os.access(rt, os.X_OK) else None


def judged():
    """Which of the three the kit is, and the line that says so: empty where it is the right one."""
    rt = find_rt()
    wanted = f"wanted is a kit with logic {LOGIC}, such as {SEEN}, with its bin/ on PATH"
    if not rt:
        return IS_LACKING, f"no command rt was found; {wanted}"
    try:
        said = subprocess.run([rt, "version"], stdin=subprocess.DEVNULL, capture_output=True, text=True, timeout=300, check=False).stdout
    except (OSError, subprocess.TimeoutExpired, ValueError) as error:
        return IS_LACKING, f"{rt} does not run ({error}); {wanted}"
    found = re.search(r"\blogic (\w+)", said)
    if found and found[1] == LOGIC:
        return IS_RIGHT, ""
    return IS_OTHER, f"found {said.strip() or 'a kit that names no logic'} ({rt}); {wanted}; what follows may fail for that alone"


def main(words):
    who = words[0] if words else "launcher/kit.py"
    status, line = judged()
    if line:
        print(f"{who}: {line}", file=sys.stderr, flush=True)
    return status


if __name__ == "__main__":
    sys.exit(main(sys.argv[1:]))
