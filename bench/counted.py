"""Counts instructions with callgrind. They are the same in each run, whatever else runs. valgrind has to be installed."""

import re
import subprocess
import sys
import tempfile


def callgrind(words, out="/dev/null"):
    """The command that runs these words under callgrind, which writes its counts to `out`."""
    return ["valgrind", "--tool=callgrind", "--callgrind-out-file=" + out, *words]


def instructions(words, given=b""):
    """The instructions of a run."""
    done = subprocess.run(callgrind(words), input=given, capture_output=True)
    if done.returncode:
        sys.exit("bench: %s ended with status %d" % (" ".join(words), done.returncode))
    return int(re.search(rb"Collected : (\d+)", done.stderr)[1])


def shares(out, names):
    """The instructions of each of these functions with all that it calls, from the counts of callgrind."""
    report = subprocess.run(["callgrind_annotate", "--inclusive=yes", "--threshold=100", out], capture_output=True, check=True).stdout.decode()
    found = {}
    for name in names:
        counts = re.findall(r"^\s*([\d,]+) .*:%s(?:::<\S*>)?(?:'\d+)? \[" % re.escape(name), report, re.M)
        if not counts:
            sys.exit("bench: %s isn't called" % name)
        found[name] = max(int(it.replace(",", "")) for it in counts)
    return found


def inclusive(words, given, names):
    """The instructions of each of these functions with all that it calls, in one run."""
    with tempfile.NamedTemporaryFile() as out:
        subprocess.run(callgrind(words, out.name), input=given, stdout=subprocess.DEVNULL, stderr=subprocess.DEVNULL, check=True)
        return shares(out.name, names)
