"""Texts as rdf prints them, of a table of four entries: pt 10 25 40 5, w 1 2 1 -3, jets 3;4, none, 50, 1;1;1."""

from __future__ import annotations

COUNT = "n = 4\n"
VARIED_COUNT = "n = 2\nn[pt:down] = 1\nn[pt:up] = 3\n"
WIDE_SUM = "s = 18446744073709551614\n"
NO_VALUES = "n = 0\nm = none\nt = none\nx = -1\n"
TAKE = "t = 10 25 40 5\nx = 62\n"
TRUTHS = "b = true false true true\n"
PARTIALS = "partial n over 0-1 = 2\npartial n over 0-3 = 4\nn = 4\n"
WEIGHTED = "h = histo1d 4\n  under 0 0\n  [0,10) -3 9\n  [10,25) 1 1\n  over 3 5\n"
ELEMENTS = "h = histo1d 4\n  under 0 0\n  [0,2) 3 3\n  [2,50) 2 2\n  over 1 1\n"
MAP = """\
h = histo2d 4 3
  under under 0 0
  under [0,2) 0 0
  under over 0 0
  [0,20) under 1 1
  [0,20) [0,2) 1 1
  [0,20) over 0 0
  [20,50) under 0 0
  [20,50) [0,2) 1 1
  [20,50) over 1 1
  over under 0 0
  over [0,2) 0 0
  over over 0 0
"""
REPORT = """\
r: a pass=3 all=4 eff=75.00 cumulative=75.00
r: b pass=1 all=3 eff=33.33 cumulative=25.00
"""
EMPTY_REPORT = """\
r: a pass=0 all=0 eff=none cumulative=none
r: b pass=0 all=0 eff=none cumulative=none
"""
NO_FILTERS = "r: no named filters\n"
FAULT = "fault at entry 0 in s[pt:up]: F2 ZeroDivisor"

# Made up: a histogram of three bins with two variations, one bin of nominal empty.
VARIED = """\
h = histo1d 5
  under 2 2
  [0,10) 4 16
  [10,30) 0 0
  [30,40) 8 8
  over 1 1
h[jes:down] = histo1d 5
  under 1 1
  [0,10) 2 4
  [10,30) 3 3
  [30,40) 8 8
  over 0 0
h[jes:up] = histo1d 5
  under 3 3
  [0,10) 6 6
  [10,30) 1 1
  [30,40) 40 40
  over 4 4
"""

REFUSALS = (
    "usage: rdf SCRIPT TABLE",
    "usage: rdf SCRIPT TABLE [--slots N] [--cluster N] [--watch K] [--make] [--friend FILE] [--key NAME] [--missing N]",
    "read failed: s.txt",
    "no file a.csv",
    "script refused: longer than 65536 bytes",
    "script refused: not built",
    "script refused at line 1 place 13: S1 Syntax",
    "script refused at line 1 place 20: E2 BadNumber",
    "script refused at line 2: S9 VariedRedefine",
    "table refused: longer than 67108864 bytes",
    "table refused at header field 0: B1 Header",
    "table refused at entry 3: B2 FieldCount",
    "table refused at entry 0 field 2: B4 BadVec",
    "friend refused: longer than 67108864 bytes",
    "friend refused at header field 1: B1 Header",
    "friend refused: J1 NoKey",
    "friend refused at entry 2: J4 Duplicate",
    "usage: rdf_shard run SCRIPT TABLE SIZE LO HI | merge SCRIPT FILE",
    "span refused",
    "file p 1 refused at line 7",
    "file p1 differs",
    "cluster 1 isn't covered once",
    "files longer than 134217728 bytes",
    "table b.csv refused at entry 0 field 2: B4 BadVec",
    "table b.csv refused: longer than 67108864 bytes",
    "fault in file 1 at entry 2 in n: F2 ZeroDivisor",
    "file 1 isn't covered once",
    "part longer than 134217728 bytes",
    FAULT,
)
