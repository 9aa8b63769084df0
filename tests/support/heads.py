"""Two sample files, and what `head` prints of one."""

from __future__ import annotations

from support.built import SAMPLES

V1 = (SAMPLES / "v1.hdt").read_bytes()
THREE = (SAMPLES / "three.hdt").read_bytes()
HEAD_END = 218
# More bytes than any reader gives or any writer takes.
ALL = 2**64 - 1

# What `head` prints of the sample: five lines, and then the header body.
V1_HEAD = (
    b"global <http://purl.org/HDT/hdt#HDTv1>\n"
    b"properties \n"
    b"header ntriples\n"
    b"properties length=150;\n"
    b"length 150\n" + V1[68:HEAD_END]
)
