"""Streams that several tests import."""

from __future__ import annotations

# one commit on main with a file
FIRST = b"""\
commit refs/heads/main
mark :1
committer A <a@x> 1 +0000
data 2
v1
M 100644 inline test.txt
data 10
version 1
"""
FIRST_COMMIT = b"02d6adf1689e06135d2b4b4d471f1ae489887b53"

# that commit behind a line of progress, and a tag of it
VERSION = (
    b"progress x\n"
    + FIRST
    + b"""
tag v1
from :1
tagger A <a@x> 2 +0000
data 3
one"""
)

# two branches, one with a submodule, which are merged, and a tag
MERGED = b"""\
commit refs/heads/a
mark :1
committer A <a@x> 1 +0000
data 1
p
M 100644 inline f
data 6
hello

commit refs/heads/b
mark :2
committer A <a@x> 2 +0000
data 1
q
M 160000 d670460b4b4aece5915caf5c68d12f560a9fe3e4 sub
commit refs/heads/a
mark :3
committer A <a@x> 3 +0000
data 1
m
merge :2
tag t
from :3
tagger A <a@x> 4 +0000
data 1
t
"""

# files of all modes, a commit that no ref holds, and an encoding
MODES = b"""\
blob
data 4
lost
commit refs/heads/lost
committer A <a@x> 1 +0000
data 0
commit refs/heads/main
mark :1
author A <a@x> 1 +0000
committer B <b@x> 2 +0000
encoding x
data 0
M 755 inline d/e
data 1
v
M 120000 inline d0
data 1
w
M 644 inline d.t
data 1
v
M 644 inline "\\303\\244"
data 1
v
reset refs/heads/lost
"""

# files whose order is odd, of all modes
WIDE = b"""\
commit refs/heads/main
committer A <a@x> 1 +0000
data 0
M 100755 inline a.b
data 6
hello
M 100644 inline a/test.txt
data 10
version 1
M 120000 inline a0
data 6
hello
M 160000 d670460b4b4aece5915caf5c68d12f560a9fe3e4 sub
M 100644 inline "a b\\"\\303\\251"
data 6
hello
"""

BLOBS = b"""\
blob
mark :1
data 13
test content

blob
data 0
blob
original-oid x
data 16
what is up, doc?"""

# what other programs write, and an import refuses
ROUGH = b"""\
feature export-marks=m
blob
mark :1
data 1
x
commit refs/heads/m
mark :2
committer <a@b> 1 +0000
data 1
m
M 100644 :1 "a

reset refs/heads/gone
from 0000000000000000000000000000000000000000

"""
ROUGH_LINES = b"""\
feature export-marks=m
blob
mark :1
data 19
author <a> 1 +0000
commit refs/heads/a
author <a> -1 +0000
committer A <a> 1 +0000
data 2
"a
M 100644 :1 "a

reset refs/heads/b
from 0000000000000000000000000000000000000000

"""
MENDED = b"""\
blob
mark :1
data 1
x
commit refs/heads/m
mark :2
committer  <a@b> 1 +0000
data 1
m
M 100644 :1 "\\"a"

reset refs/heads/gone

"""
