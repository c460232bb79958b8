#!/usr/bin/env python3
"""Writes stdin and stdout: each line with what is to be said of it, of the files beside it.

What is there was worked out from the public standards, from docs/API.md and by hand; it shares no code with the daemon. Run it
here after a change, and look at the difference.
"""
import pathlib
import sys

sys.path.append(str(pathlib.Path(__file__).parent.parent / "wire_runs"))

from lines import write
import texts  # (each adds its lines, in this order)
import programs
import tables
import kept
import copies

write(__file__)
