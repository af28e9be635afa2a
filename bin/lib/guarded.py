"""Starts a script again under bin/lib/guard, which ends all that it started when a signal ends it, and removes its folder
$TMPDIR."""
import os
import sys


def guarded():
    if os.environ.get("GUARDED") != str(os.getppid()):
        guard = os.path.join(os.path.dirname(os.path.realpath(__file__)), "guard")
        os.execv(guard, [guard, os.path.basename(sys.argv[0]), sys.executable, *sys.argv])
