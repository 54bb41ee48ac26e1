"""Function files of few keys, in both versions of the format: under seed 0, with the usual ratios and the usual b."""


def file_of(version, *parts):
    """The bytes of a file of a version."""
    return b"CMPHDMP%d" % version + bytes.fromhex(" ".join(parts))


# The functions of the keys "" and "a" by CHM, by BDZ_PH and by BRZ, and of "" alone by CHM and by BDZ.
CHM_TWO = file_of(2, "01000000", "02000000", "10e41f00", "00000000", "04")
CHM_ONE = file_of(2, "01000000", "01000000", "10e41f00", "00000000", "00")
BDZ_ONE = file_of(2, "02000700", "01000000", "b0c41200", "00000000", "f3ff03", "00000000")
BDZ_PH_TWO = file_of(2, "03000000", "02000000", "b0c41200", "00000000", "0000")
BRZ_TWO = file_of(2, "04008000", "02000000", "b0c41200", "00000000", "0200", "00000000", "c3ff03")

# The same functions in version 1, each by its file of version 2.
OLDER = {
    CHM_TWO: file_of(1, "01000000", "02000000", "10e41f00", "00000000", "04"),
    CHM_ONE: file_of(1, "01000000", "01000000", "10e41f00", "00000000", "00"),
    BDZ_ONE: file_of(1, "02070000", "01000000", "b0c41200", "00000000", "f3ff03", "00000000"),
    BDZ_PH_TWO: file_of(1, "03000000", "02000000", "b0c41200", "00000000", "0000"),
    BRZ_TWO: file_of(1, "04800000", "02000000", "b0c41200", "00000000", "02", "00000000", "c3ff03"),
}

TWO = b"\na\n"
TWO_ANSWERS = b" -> 0\na -> 1\n"
# The report of two empty keys by CHM.
TWO_EQUAL = b"core chm seed 0 edges 2\nedge 1 4 1\nedge 2 4 1\nequal 1 2\n"
# An algorithm, its keys, their function, and what a query writes of them.
FUNCTIONS = [
    ("chm", TWO, CHM_TWO, TWO_ANSWERS),
    ("bdz", b"\n", BDZ_ONE, b" -> 0\n"),
    ("bdz_ph", TWO, BDZ_PH_TWO, b" -> 1\na -> 2\n"),
    ("brz", TWO, BRZ_TWO, TWO_ANSWERS),
]


def changed(dump, at, piece):
    """A file with other bytes, given as hexadecimal digits, from an offset on."""
    new = bytes.fromhex(piece)
    return dump[:at] + new + dump[at + len(new):]


def image_len(keys, ratio):
    """How many bytes the cells of a bucket take."""
    third = -(-ratio * keys // 3_000_000)
    third += third % 2 == 0
    return -(-3 * max(3, third) // 4) if keys else 0


def in_version_1(dump):
    """The function of a file of version 2 as a file of version 1."""
    ratio, at, body = int.from_bytes(dump[16:20], "little"), 24, dump[24:]
    if dump[8] == 4:
        body = b""
        while at < len(dump):
            keys = int.from_bytes(dump[at:at + 2], "little")
            end = at + 6 + image_len(keys, ratio)
            body, at = body + bytes([keys]) + dump[at + 2:end], end
    return b"CMPHDMP1" + dump[8:9] + dump[10:11] + bytes(2) + dump[12:24] + body
