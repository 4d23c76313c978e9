#!/usr/bin/env python3
"""Stands for the program in tests: answers an input that is stored with its stored replies, and nothing else."""
import sys
from pathlib import Path

sys.path.insert(0, str(Path(__file__).resolve().parent.parent))
from tests import stored  # noqa: E402

content = sys.stdin.buffer.read()
for session in stored.known():
    if session.content == content and sys.argv[1:] == ["desk"]:
        sys.stdout.write("".join(reply + "\n" for reply in session.replies))
        sys.exit(0)
sys.exit("stored_desk: this input is not stored")
