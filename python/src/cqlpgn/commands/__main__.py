"""A command by its name: `python3 -P -m cqlpgn.commands NAME WORDS..` is cqlpgn-NAME."""

from __future__ import annotations

import sys

from .begin import begin

if len(sys.argv) < 2 or not sys.argv[1].isidentifier():
    sys.exit("the words are: NAME WORDS..")
name = sys.argv.pop(1)
sys.argv[0] = "cqlpgn-" + name
begin(name)
