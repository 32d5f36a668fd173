#!/usr/bin/env python3
"""Writes the small inputs of the header lister and, beside each, what it must print.

usage: make.py [DIRECTORY]     (without one: the directory of this script)

Every expected text below is written by hand from the scope document ("Numbers given
back", "Opening", "Header lister") and from request 4, which gives a refusal its third number:
where the header of the section lies that is named, or the string table. No reader of such
files computed it. For each NAME the script writes NAME.xcoff (the input) and NAME.txt (the
text). Running it again gives the same bytes.

All header bytes that opening does not look at hold EE, so that a reader that takes a
wrong place shows. Only the document's own example has zeros there.
"""
import os
import struct
import sys

PAD, DWARF, TEXT, DATA, BSS = 0x0008, 0x0010, 0x0020, 0x0040, 0x0080
EXCEPT, INFO, TDATA, TBSS, LOADER = 0x0100, 0x0200, 0x0400, 0x0800, 0x1000
DEBUG, TYPCHK, OVRFLO, DELETED = 0x2000, 0x4000, 0x8000, 0xFFFFFFFF

TOP = {32: 2**32, 64: 2**64}    # one past the largest address


def end(bits, sections):
    """Length of file header and section headers, no auxiliary header."""
    return {32: 20 + 40 * sections, 64: 24 + 72 * sections}[bits]


def sec(flags, addr=0, size=0, ptr=0, vaddr=None, name=b".sect"):
    """One section header; addr is s_paddr and, unless vaddr is given, s_vaddr too."""
    return name, addr, addr if vaddr is None else vaddr, size, ptr, flags


def xcoff(bits, *sections, symptr=0, nsyms=0, opthdr=0, count=None, magic=None,
          tail=b"", unread=0xEE):
    """File header, opthdr bytes, section headers, tail."""
    u = lambda n: bytes([unread]) * n
    magic = {32: 0x01DF, 64: 0x01F7}[bits] if magic is None else magic
    count = len(sections) if count is None else count
    if bits == 32:
        out = struct.pack(">HH4sLLH2s", magic, count, u(4), symptr, nsyms, opthdr, u(2))
    else:
        out = struct.pack(">HH4sQH2sL", magic, count, u(4), symptr, opthdr, u(2), nsyms)
    out += u(opthdr)
    for name, paddr, vaddr, size, ptr, flags in sections:
        if bits == 32:
            out += struct.pack(">8sLLLL12sL", name, paddr, vaddr, size, ptr, u(12), flags)
        else:
            out += struct.pack(">8sQQQQ24sL4s", name, paddr, vaddr, size, ptr, u(24), flags, u(4))
    return out + tail


CASES = {}


def case(name, data, want):
    assert name not in CASES and len(data) <= 65536 and want.endswith("\n"), name
    CASES[name] = data, want


def both(name, build, want32, want64=None):
    """One case in each format; build takes 32 or 64. One text: the same for both."""
    case(name + "-32", build(32), want32)
    case(name + "-64", build(64), want32 if want64 is None else want64)


def named(number, section, opthdr=(0, 0)):
    """A refusal that names a section, in both formats, with the place of its header."""
    return ["refused %d %d %d\n" % (number, section, end(bits, section - 1) + extra)
            for bits, extra in zip((32, 64), opthdr)]


# ---------------------------------------------------------------- the document's example

example = xcoff(32, sec(TEXT, 0x10000000, 4, 60, name=b".text"),
                tail=b"\x60\x00\x00\x00", unread=0)
assert len(example) == 64
case("example-32", example, """\
XCOFF32 1 0
1 text 10000000 4
""")
case("example-64", xcoff(64, sec(TEXT, 0x10000000, 4, 96, name=b".text"),
                         tail=b"\x60\x00\x00\x00", unread=0), """\
XCOFF64 1 0
1 text 0000000010000000 4
""")

# ---------------------------------------------------------------- accepted: sections

# The shortest files: a file header alone.
both("ok-no-sections", lambda b: xcoff(b), """\
XCOFF32 0 0
""", """\
XCOFF64 0 0
""")

# Every kind word and a deleted section. Those with raw data share the four bytes at the end.
both("ok-kinds", lambda b: xcoff(
    b,
    sec(PAD, 0, 4, end(b, 14)),
    sec(DWARF, 0, 3, end(b, 14)),
    sec(TEXT, 0x10000000, 4, end(b, 14)),
    sec(DATA, 0x20000000, 2, end(b, 14) + 2),
    sec(BSS, 0x20000002, 4096),
    sec(EXCEPT, 6, 1, end(b, 14)),
    sec(INFO, 7, 0, end(b, 14)),
    sec(TDATA, 8, 4, end(b, 14)),
    sec(TBSS, 12, 100),
    sec(LOADER, 0x20001002, 4, end(b, 14)),
    sec(DEBUG, 11, 4, end(b, 14)),
    sec(TYPCHK, 10, 1, end(b, 14)),
    sec(OVRFLO, 0x11170, 0),
    sec(DELETED, 0xDEADBEEF, 12),
    tail=bytes(4)), """\
XCOFF32 14 0
1 pad 00000000 4
2 dwarf 00000000 3
3 text 10000000 4
4 data 20000000 2
5 bss 20000002 4096
6 except 00000006 1
7 info 00000007 0
8 tdata 00000008 4
9 tbss 0000000c 100
10 loader 20001002 4
11 debug 0000000b 4
12 typchk 0000000a 1
13 ovrflo 00011170 0
14 deleted deadbeef 12
""", """\
XCOFF64 14 0
1 pad 0000000000000000 4
2 dwarf 0000000000000000 3
3 text 0000000010000000 4
4 data 0000000020000000 2
5 bss 0000000020000002 4096
6 except 0000000000000006 1
7 info 0000000000000007 0
8 tdata 0000000000000008 4
9 tbss 000000000000000c 100
10 loader 0000000020001002 4
11 debug 000000000000000b 4
12 typchk 000000000000000a 1
13 ovrflo 0000000000011170 0
14 deleted 00000000deadbeef 12
""")

# The most sections there may be.
both("ok-32-sections", lambda b: xcoff(b, *[sec(INFO, n, 100 * n) for n in range(1, 33)]), """\
XCOFF32 32 0
1 info 00000001 100
2 info 00000002 200
3 info 00000003 300
4 info 00000004 400
5 info 00000005 500
6 info 00000006 600
7 info 00000007 700
8 info 00000008 800
9 info 00000009 900
10 info 0000000a 1000
11 info 0000000b 1100
12 info 0000000c 1200
13 info 0000000d 1300
14 info 0000000e 1400
15 info 0000000f 1500
16 info 00000010 1600
17 info 00000011 1700
18 info 00000012 1800
19 info 00000013 1900
20 info 00000014 2000
21 info 00000015 2100
22 info 00000016 2200
23 info 00000017 2300
24 info 00000018 2400
25 info 00000019 2500
26 info 0000001a 2600
27 info 0000001b 2700
28 info 0000001c 2800
29 info 0000001d 2900
30 info 0000001e 3000
31 info 0000001f 3100
32 info 00000020 3200
""", """\
XCOFF64 32 0
1 info 0000000000000001 100
2 info 0000000000000002 200
3 info 0000000000000003 300
4 info 0000000000000004 400
5 info 0000000000000005 500
6 info 0000000000000006 600
7 info 0000000000000007 700
8 info 0000000000000008 800
9 info 0000000000000009 900
10 info 000000000000000a 1000
11 info 000000000000000b 1100
12 info 000000000000000c 1200
13 info 000000000000000d 1300
14 info 000000000000000e 1400
15 info 000000000000000f 1500
16 info 0000000000000010 1600
17 info 0000000000000011 1700
18 info 0000000000000012 1800
19 info 0000000000000013 1900
20 info 0000000000000014 2000
21 info 0000000000000015 2100
22 info 0000000000000016 2200
23 info 0000000000000017 2300
24 info 0000000000000018 2400
25 info 0000000000000019 2500
26 info 000000000000001a 2600
27 info 000000000000001b 2700
28 info 000000000000001c 2800
29 info 000000000000001d 2900
30 info 000000000000001e 3000
31 info 000000000000001f 3100
32 info 0000000000000020 3200
""")

# Deleted: not examined, whatever its pointer, addresses and size; the next one is read as ever.
case("ok-deleted-wild-32", xcoff(
    32,
    sec(DELETED, 0xFEDCBA98, 0xFFFFFFFF, 0xFFFFFFFF, vaddr=1),
    sec(TEXT, 0x10000000, 4, 100),
    tail=bytes(4)), """\
XCOFF32 2 0
1 deleted fedcba98 4294967295
2 text 10000000 4
""")
case("ok-deleted-wild-64", xcoff(
    64,
    sec(DELETED, 0xFEDCBA9876543210, 2**64 - 1, 2**64 - 1, vaddr=1),
    sec(TEXT, 0x10000000, 4, 168),
    tail=bytes(4)), """\
XCOFF64 2 0
1 deleted fedcba9876543210 18446744073709551615
2 text 0000000010000000 4
""")

# Dwarf: the high half is not looked at.
both("ok-dwarf-high-half", lambda b: xcoff(
    b,
    sec(0x00000010, 1, 1), sec(0x00010010, 2, 2), sec(0x00020010, 3, 3),
    sec(0x000B0010, 4, 4), sec(0x80000010, 5, 5), sec(0xFFFF0010, 6, 6)), """\
XCOFF32 6 0
1 dwarf 00000001 1
2 dwarf 00000002 2
3 dwarf 00000003 3
4 dwarf 00000004 4
5 dwarf 00000005 5
6 dwarf 00000006 6
""", """\
XCOFF64 6 0
1 dwarf 0000000000000001 1
2 dwarf 0000000000000002 2
3 dwarf 0000000000000003 3
4 dwarf 0000000000000004 4
5 dwarf 0000000000000005 5
6 dwarf 0000000000000006 6
""")

# The kind comes from the flags; names are not looked at, whatever bytes they hold.
both("ok-names", lambda b: xcoff(
    b,
    sec(DATA, 0x20000000, 0, name=b".text"),
    sec(TEXT, 0x10000000, 0, name=b""),
    sec(BSS, 0x30000000, 0, name=b"\xff\x0a\x00\x20eigh")), """\
XCOFF32 3 0
1 data 20000000 0
2 text 10000000 0
3 bss 30000000 0
""", """\
XCOFF64 3 0
1 data 0000000020000000 0
2 text 0000000010000000 0
3 bss 0000000030000000 0
""")

# The same kind more than once, in any order.
both("ok-two-texts", lambda b: xcoff(
    b, sec(BSS, 0x20000000, 8), sec(TEXT, 0x10000000, 1), sec(LOADER, 0, 2),
    sec(TEXT, 0x10000000, 3)), """\
XCOFF32 4 0
1 bss 20000000 8
2 text 10000000 1
3 loader 00000000 2
4 text 10000000 3
""", """\
XCOFF64 4 0
1 bss 0000000020000000 8
2 text 0000000010000000 1
3 loader 0000000000000000 2
4 text 0000000010000000 3
""")

# Address digits and sizes. Info has no address rule; pointer 0, so no raw data to bound.
case("ok-numbers-32", xcoff(
    32,
    sec(INFO, 0xFFFFFFFF, 0xFFFFFFFF), sec(INFO, 0x01234567, 0x80000000),
    sec(INFO, 0x89ABCDEF, 0x7FFFFFFF), sec(INFO, 0x0000000A, 1000000000),
    sec(INFO, 0x80000000, 999999999), sec(INFO, 0, 10), sec(INFO, 9, 9)), """\
XCOFF32 7 0
1 info ffffffff 4294967295
2 info 01234567 2147483648
3 info 89abcdef 2147483647
4 info 0000000a 1000000000
5 info 80000000 999999999
6 info 00000000 10
7 info 00000009 9
""")
case("ok-numbers-64", xcoff(
    64,
    sec(INFO, 2**64 - 1, 2**64 - 1), sec(INFO, 0x0123456789ABCDEF, 2**63),
    sec(INFO, 0xFEDCBA9876543210, 2**63 - 1), sec(INFO, 0x0000000100000000, 2**32),
    sec(INFO, 0x00000000FFFFFFFF, 2**32 - 1), sec(INFO, 2**63, 10000000000000000000),
    sec(INFO, 0xA, 9999999999999999999), sec(INFO, 0, 0)), """\
XCOFF64 8 0
1 info ffffffffffffffff 18446744073709551615
2 info 0123456789abcdef 9223372036854775808
3 info fedcba9876543210 9223372036854775807
4 info 0000000100000000 4294967296
5 info 00000000ffffffff 4294967295
6 info 8000000000000000 10000000000000000000
7 info 000000000000000a 9999999999999999999
8 info 0000000000000000 0
""")

# Raw data that ends with the file, an empty one at the very end, one over the headers.
both("ok-raw-edges", lambda b: xcoff(
    b,
    sec(TEXT, 0x10000000, 4, end(b, 3)),
    sec(DATA, 0x20000000, 0, end(b, 3) + 4),
    sec(LOADER, 0, 50, 1),
    tail=bytes(4)), """\
XCOFF32 3 0
1 text 10000000 4
2 data 20000000 0
3 loader 00000000 50
""", """\
XCOFF64 3 0
1 text 0000000010000000 4
2 data 0000000020000000 0
3 loader 0000000000000000 50
""")

# Pointer 0: no raw data, so the size is not held against the file.
both("ok-no-raw", lambda b: xcoff(
    b,
    sec(TEXT, 0x10000000, 0x1000000), sec(DATA, 0x20000000, 0x1000001),
    sec(DEBUG, 0, 0xFFFFFFFF)), """\
XCOFF32 3 0
1 text 10000000 16777216
2 data 20000000 16777217
3 debug 00000000 4294967295
""", """\
XCOFF64 3 0
1 text 0000000010000000 16777216
2 data 0000000020000000 16777217
3 debug 0000000000000000 4294967295
""")

# bss, tbss and ovrflo have no raw data even with a pointer; tbss and ovrflo no address rule.
case("ok-bss-pointer-32", xcoff(
    32,
    sec(BSS, 0x20000000, 0x10000000, 0xFFFFFFF0),
    sec(TBSS, 0xFFFFFFFF, 0xFFFFFFFF, 0xFFFFFFFF, vaddr=0),
    sec(OVRFLO, 0x11170, 0xFFFFFFFF, 0xFFFFFFFF, vaddr=5)), """\
XCOFF32 3 0
1 bss 20000000 268435456
2 tbss ffffffff 4294967295
3 ovrflo 00011170 4294967295
""")
case("ok-bss-pointer-64", xcoff(
    64,
    sec(BSS, 0x20000000, 0x100000000, 2**64 - 16),
    sec(TBSS, 2**64 - 1, 2**64 - 1, 2**64 - 1, vaddr=0),
    sec(OVRFLO, 0x11170, 2**64 - 1, 2**64 - 1, vaddr=5)), """\
XCOFF64 3 0
1 bss 0000000020000000 4294967296
2 tbss ffffffffffffffff 18446744073709551615
3 ovrflo 0000000000011170 18446744073709551615
""")

# address + size = 2^32 (2^64) is still accepted.
case("ok-address-top-32", xcoff(
    32,
    sec(TEXT, 0xF0000000, 0x10000000), sec(DATA, 0xFFFFFFFC, 4, 220),
    sec(BSS, 1, 0xFFFFFFFF), sec(TEXT, 0xFFFFFFFF, 0), sec(DATA, 0xFFFFFFFF, 1),
    tail=bytes(4)), """\
XCOFF32 5 0
1 text f0000000 268435456
2 data fffffffc 4
3 bss 00000001 4294967295
4 text ffffffff 0
5 data ffffffff 1
""")
case("ok-address-top-64", xcoff(
    64,
    sec(TEXT, 0xF000000000000000, 2**60), sec(DATA, 2**64 - 4, 4, 456),
    sec(BSS, 1, 2**64 - 1), sec(TEXT, 2**64 - 1, 0), sec(DATA, 2**64 - 1, 1),
    sec(TEXT, 0xFFFFFFFF, 2),       # passes 2^32, which is no edge here
    tail=bytes(4)), """\
XCOFF64 6 0
1 text f000000000000000 1152921504606846976
2 data fffffffffffffffc 4
3 bss 0000000000000001 18446744073709551615
4 text ffffffffffffffff 0
5 data ffffffffffffffff 1
6 text 00000000ffffffff 2
""")

# The other kinds have no address rule: s_vaddr may differ, the sum may pass the top.
both("ok-address-other-kinds", lambda b: xcoff(
    b, *[sec(kind, TOP[b] - 1, 2, vaddr=3) for kind in
         (PAD, DWARF, EXCEPT, INFO, TDATA, TBSS, LOADER, DEBUG, TYPCHK, OVRFLO)]), """\
XCOFF32 10 0
1 pad ffffffff 2
2 dwarf ffffffff 2
3 except ffffffff 2
4 info ffffffff 2
5 tdata ffffffff 2
6 tbss ffffffff 2
7 loader ffffffff 2
8 debug ffffffff 2
9 typchk ffffffff 2
10 ovrflo ffffffff 2
""", """\
XCOFF64 10 0
1 pad ffffffffffffffff 2
2 dwarf ffffffffffffffff 2
3 except ffffffffffffffff 2
4 info ffffffffffffffff 2
5 tdata ffffffffffffffff 2
6 tbss ffffffffffffffff 2
7 loader ffffffffffffffff 2
8 debug ffffffffffffffff 2
9 typchk ffffffffffffffff 2
10 ovrflo ffffffffffffffff 2
""")

# The section headers stand after the auxiliary header, however long it is.
both("ok-opthdr", lambda b: xcoff(
    b, sec(TEXT, 0x10000000, 0), opthdr={32: 72, 64: 120}[b]), """\
XCOFF32 1 0
1 text 10000000 0
""", """\
XCOFF64 1 0
1 text 0000000010000000 0
""")
both("ok-opthdr-odd", lambda b: xcoff(b, sec(DATA, 0x20000000, 0), opthdr=1), """\
XCOFF32 1 0
1 data 20000000 0
""", """\
XCOFF64 1 0
1 data 0000000020000000 0
""")

# ---------------------------------------------------------------- accepted: symbols, strings

SYMBOL = bytes(12) + b"\x00\x01" + bytes(2) + b"\x02"     # 17 bytes; the auxiliary count follows


# No symbols: f_symptr is not looked at and there is no string table, whatever follows.
both("ok-no-symbols", lambda b: xcoff(
    b, sec(TEXT, 0x10000000, 0), symptr=TOP[b] - 1, nsyms=0, tail=b"\x00\x00\x00\x01"), """\
XCOFF32 1 0
1 text 10000000 0
""", """\
XCOFF64 1 0
1 text 0000000010000000 0
""")

# Four entries, three of them auxiliaries of the first. The file ends there: no strings.
both("ok-symbols", lambda b: xcoff(
    b, sec(TEXT, 0x10000000, 0), symptr=end(b, 1), nsyms=4,
    tail=SYMBOL + b"\x03" + bytes(54)), """\
XCOFF32 1 4
1 text 10000000 0
""", """\
XCOFF64 1 4
1 text 0000000010000000 0
""")

# Opening does not read entries: this one claims 255 auxiliaries and section 0101.
both("ok-symbol-unread", lambda b: xcoff(
    b, symptr=end(b, 0), nsyms=1, tail=bytes(12) + b"\x01\x01" + bytes(3) + b"\xff"), """\
XCOFF32 0 1
""", """\
XCOFF64 0 1
""")

# f_symptr 0 is a plain offset: a table from the first byte to the last, over the headers.
both("ok-symbols-over-headers", lambda b: xcoff(
    b, sec(TEXT, 0x10000000, 0), symptr=0, nsyms={32: 4, 64: 6}[b], tail=bytes(12)), """\
XCOFF32 1 4
1 text 10000000 0
""", """\
XCOFF64 1 6
1 text 0000000010000000 0
""")

# Five hundred entries.
both("ok-symbols-500", lambda b: xcoff(
    b, symptr=end(b, 0), nsyms=500, tail=500 * (SYMBOL + b"\x00")), """\
XCOFF32 0 500
""", """\
XCOFF64 0 500
""")


def strings(bits, after):
    """One symbol entry, then these bytes where the string table starts."""
    return xcoff(bits, sec(TEXT, 0x10000000, 0), symptr=end(bits, 1), nsyms=1,
                 tail=SYMBOL + b"\x00" + after)


for name, after in (
        ("length-0", b"\x00\x00\x00\x00"),
        ("length-0-more", b"\x00\x00\x00\x00more"),
        ("length-4", b"\x00\x00\x00\x04"),
        ("length-4-more", b"\x00\x00\x00\x04more"),
        ("length-7", b"\x00\x00\x00\x07ab\x00"),
        ("length-7-more", b"\x00\x00\x00\x07ab\x00more")):
    both("ok-strings-" + name, lambda b: strings(b, after), """\
XCOFF32 1 1
1 text 10000000 0
""", """\
XCOFF64 1 1
1 text 0000000010000000 0
""")

# ---------------------------------------------------------------- 1 SHORT, item 0

case("short-0-bytes", b"", "refused 1 0 0\n")
case("short-1-byte", b"\x01", "refused 1 0 0\n")
case("short-1-byte-no-magic", b"\x7f", "refused 1 0 0\n")
case("short-2-bytes-32", xcoff(32)[:2], "refused 1 0 0\n")
case("short-2-bytes-64", xcoff(64)[:2], "refused 1 0 0\n")
case("short-19-bytes-32", xcoff(32)[:19], "refused 1 0 0\n")
case("short-20-bytes-64", xcoff(64)[:20], "refused 1 0 0\n")
case("short-23-bytes-64", xcoff(64)[:23], "refused 1 0 0\n")
both("short-headers", lambda b: xcoff(b, sec(TEXT))[:-1], "refused 1 0 0\n")
both("short-32-headers", lambda b: xcoff(b, *[sec(INFO)] * 32)[:-1], "refused 1 0 0\n")
both("short-opthdr", lambda b: xcoff(b, sec(TEXT), opthdr=72)[:-1], "refused 1 0 0\n")
both("short-opthdr-alone", lambda b: xcoff(b, opthdr=1)[:-1], "refused 1 0 0\n")
both("short-opthdr-ffff", lambda b: xcoff(b, opthdr=0xFFFF)[:end(b, 0) + 8], "refused 1 0 0\n")

# ---------------------------------------------------------------- 2 MAGIC, item 0

for magic in (0x0000, 0x01DE, 0x01EF, 0x01F8, 0x02DF, 0xDF01, 0xF701):
    case("magic-%04x" % magic, xcoff(64, sec(TEXT), magic=magic), "refused 2 0 0\n")
case("magic-01ef-2-bytes", b"\x01\xef", "refused 2 0 0\n")
case("magic-00df-19-bytes", xcoff(32, magic=0x00DF)[:19], "refused 2 0 0\n")

# ---------------------------------------------------------------- 3 LIMIT, item 1 sections

both("limit-33", lambda b: xcoff(b, *[sec(INFO)] * 33), "refused 3 1 0\n")
both("limit-32768", lambda b: xcoff(b, sec(INFO), count=0x8000), "refused 3 1 0\n")
both("limit-65535", lambda b: xcoff(b, sec(INFO), count=0xFFFF), "refused 3 1 0\n")

# ---------------------------------------------------------------- 4 KIND, item the section

for flags in (
        0x00000000, 0x00000001, 0x00000002, 0x00000004,     # no kind
        0x00000018, 0x00000030, 0x00000060, 0x00000C00,     # two kinds
        0x00008020, 0x0000FFFF, 0x0000FFDF,
        0xFFFF0000, 0x00200000, 0xFFFFFFFE, 0x7FFFFFFF,
        0x00020030,                                         # dwarf's high half, two kinds
        0x00010020, 0x00010080, 0x00011000,                 # high half not 0
        0x80000400, 0xFFFF8000, 0x00010008):
    both("kind-%08x" % flags, lambda b: xcoff(b, sec(flags)), *named(4, 1))

both("kind-second", lambda b: xcoff(b, sec(TEXT), sec(0x60), sec(DATA)), *named(4, 2))
both("kind-32nd", lambda b: xcoff(b, *[sec(INFO)] * 31, sec(0)), *named(4, 32))
both("kind-after-deleted", lambda b: xcoff(b, sec(DELETED), sec(0xFFFF), sec(0)), *named(4, 2))
# The section headers, and so their places, come after the auxiliary header.
both("kind-opthdr", lambda b: xcoff(b, sec(TEXT), sec(0), opthdr={32: 72, 64: 120}[b]),
     *named(4, 2, (72, 120)))
both("kind-opthdr-odd", lambda b: xcoff(b, sec(0), opthdr=1), *named(4, 1, (1, 1)))

# ---------------------------------------------------------------- 5 BOUNDS, item the section


def raw(bits, ptr, size, kind=INFO):
    """One section with this raw data; the file has four bytes after its headers."""
    return xcoff(bits, sec(kind, 0, size, ptr), tail=bytes(4))


both("bounds-raw-one-past", lambda b: raw(b, end(b, 1), 5), *named(5, 1))
both("bounds-raw-one-past-late", lambda b: raw(b, end(b, 1) + 4, 1), *named(5, 1))
both("bounds-pointer-past", lambda b: raw(b, end(b, 1) + 5, 0), *named(5, 1))
both("bounds-pointer-half", lambda b: raw(b, TOP[b] // 2, 0), *named(5, 1))
both("bounds-sum-top", lambda b: raw(b, TOP[b] - 16, 16), *named(5, 1))
both("bounds-sum-past-top", lambda b: raw(b, TOP[b] - 16, 32), *named(5, 1))
both("bounds-size-largest", lambda b: raw(b, 16, TOP[b] - 1), *named(5, 1))
case("bounds-pointer-high-half-64", raw(64, 2**32, 0), "refused 5 1 24\n")
case("bounds-size-high-half-64", raw(64, 96, 2**32), "refused 5 1 24\n")
both("bounds-second", lambda b: xcoff(
    b, sec(TEXT), sec(DATA, 0x20000000, 4, end(b, 3) - 3), sec(0)), *named(5, 2))

# Every kind with raw data, some in one format and some in the other.
case("bounds-pad-32", raw(32, 60, 5, PAD), "refused 5 1 20\n")
case("bounds-dwarf-64", raw(64, 96, 5, DWARF), "refused 5 1 24\n")
case("bounds-text-32", raw(32, 60, 5, TEXT), "refused 5 1 20\n")
case("bounds-data-64", raw(64, 96, 5, DATA), "refused 5 1 24\n")
case("bounds-except-32", raw(32, 60, 5, EXCEPT), "refused 5 1 20\n")
case("bounds-tdata-64", raw(64, 96, 5, TDATA), "refused 5 1 24\n")
case("bounds-loader-32", raw(32, 60, 5, LOADER), "refused 5 1 20\n")
case("bounds-debug-64", raw(64, 96, 5, DEBUG), "refused 5 1 24\n")
case("bounds-typchk-32", raw(32, 60, 5, TYPCHK), "refused 5 1 20\n")

# ---------------------------------------------------------------- 5 BOUNDS, item 0: symbols


def symbols(bits, symptr, nsyms, tail=b""):
    return xcoff(bits, sec(TEXT, 0x10000000, 0), symptr=symptr, nsyms=nsyms, tail=tail)


both("bounds-symbols-one-past", lambda b: symbols(b, end(b, 1), 1, bytes(17)), "refused 5 0 0\n")
both("bounds-symbols-at-end", lambda b: symbols(b, end(b, 1), 1), "refused 5 0 0\n")
both("bounds-symbols-pointer-past", lambda b: symbols(b, end(b, 1) + 1, 1), "refused 5 0 0\n")
# A sum that drops 2^32 (2^64) would end the table exactly at the file's end.
both("bounds-symbols-sum", lambda b: symbols(b, TOP[b] - 12, {32: 4, 64: 6}[b]), "refused 5 0 0\n")
# So would 18 times the count without what passes 2^32: 14 bytes, 0 bytes.
both("bounds-symbols-product", lambda b: symbols(b, end(b, 1) - 14, 0x0E38E38F), "refused 5 0 0\n")
both("bounds-symbols-80000000", lambda b: symbols(b, end(b, 1), 0x80000000), "refused 5 0 0\n")
both("bounds-symbols-ffffffff", lambda b: symbols(b, 20, 0xFFFFFFFF), "refused 5 0 0\n")
case("bounds-symbols-high-half-64", symbols(64, 2**32 + 96, 1, bytes(18)), "refused 5 0 0\n")

# ---------------------------------------------------------------- 5 BOUNDS, item 0: strings

both("bounds-strings-1-left", lambda b: strings(b, b"\x00"), "refused 5 0 0\n")
both("bounds-strings-2-left", lambda b: strings(b, b"\x00\x00"), "refused 5 0 0\n")
both("bounds-strings-3-left", lambda b: strings(b, b"\x00\x00\x00"), "refused 5 0 0\n")
both("bounds-strings-length-5", lambda b: strings(b, b"\x00\x00\x00\x05"), "refused 5 0 0\n")
both("bounds-strings-length-8", lambda b: strings(b, b"\x00\x00\x00\x08ab\x00"), "refused 5 0 0\n")
both("bounds-strings-80000000", lambda b: strings(b, b"\x80\x00\x00\x00"), "refused 5 0 0\n")
both("bounds-strings-ffffffff", lambda b: strings(b, b"\xff\xff\xff\xff"), "refused 5 0 0\n")

# ---------------------------------------------------------------- 6 ADDRESS, item the section

both("address-differs-text", lambda b: xcoff(
    b, sec(TEXT, 0x10000000, 0, vaddr=0x10000001)), *named(6, 1))
both("address-differs-data", lambda b: xcoff(
    b, sec(DATA, 0x20000000, 0, vaddr=0x1FFFFFFF)), *named(6, 1))
both("address-differs-bss", lambda b: xcoff(
    b, sec(BSS, 0x30000000, 0, vaddr=0)), *named(6, 1))
both("address-differs-high-bit", lambda b: xcoff(
    b, sec(TEXT, 0x10000000, 0, vaddr=TOP[b] // 2 + 0x10000000)), *named(6, 1))
# address + size one past 2^32 (2^64).
both("address-top-text", lambda b: xcoff(b, sec(TEXT, TOP[b] - 15, 16)), *named(6, 1))
both("address-top-data", lambda b: xcoff(b, sec(DATA, TOP[b] - 1, 2)), *named(6, 1))
both("address-top-bss", lambda b: xcoff(b, sec(BSS, 2, TOP[b] - 1)), *named(6, 1))
both("address-top-largest", lambda b: xcoff(b, sec(TEXT, TOP[b] - 1, TOP[b] - 1)), *named(6, 1))
# A bss has no raw data to bound; its address is still judged.
both("address-bss-with-pointer", lambda b: xcoff(
    b, sec(BSS, TOP[b] - 16, 17, TOP[b] - 1)), *named(6, 1))
both("address-second", lambda b: xcoff(
    b, sec(TEXT, 0x10000000, 0), sec(DATA, 0x20000000, 0, vaddr=0x10000000), sec(BSS)),
    *named(6, 2))

# ---------------------------------------------------------------- 7 STRINGS, item 0

AFTER_ONE_ENTRY = "refused 7 0 78\n", "refused 7 0 114\n"   # 18 bytes after the headers

both("strings-length-1", lambda b: strings(b, b"\x00\x00\x00\x01"), *AFTER_ONE_ENTRY)
both("strings-length-2", lambda b: strings(b, b"\x00\x00\x00\x02"), *AFTER_ONE_ENTRY)
both("strings-length-3", lambda b: strings(b, b"\x00\x00\x00\x03"), *AFTER_ONE_ENTRY)
both("strings-length-3-more", lambda b: strings(b, b"\x00\x00\x00\x03more"), *AFTER_ONE_ENTRY)

# A symbol table from the first byte on, over the headers: the string table follows it.
both("strings-over-headers", lambda b: xcoff(
    b, sec(TEXT, 0x10000000, 0), symptr=0, nsyms={32: 4, 64: 6}[b],
    tail=bytes(12) + b"\x00\x00\x00\x02"), "refused 7 0 72\n", "refused 7 0 108\n")

# ---------------------------------------------------------------- the order of refusals

BAD_TEXT = 0x00010020       # KIND


def far(bits):
    """A pointer past any file."""
    return TOP[bits] - 1


# SHORT (file header) before LIMIT; LIMIT before SHORT (section headers) and before KIND.
case("order-short-limit-32", xcoff(32, count=33)[:19], "refused 1 0 0\n")
case("order-short-limit-64", xcoff(64, count=33)[:23], "refused 1 0 0\n")
both("order-limit-short", lambda b: xcoff(b, count=33), "refused 3 1 0\n")
both("order-limit-kind", lambda b: xcoff(b, *[sec(0)] * 33), "refused 3 1 0\n")
# SHORT before everything in the sections, and before the symbols.
both("order-short-kind", lambda b: xcoff(b, sec(0), sec(TEXT))[:-1], "refused 1 0 0\n")
both("order-short-symbols", lambda b: xcoff(
    b, sec(TEXT), symptr=far(b), nsyms=1)[:-1], "refused 1 0 0\n")
# In one section: KIND, BOUNDS, ADDRESS.
both("order-kind-bounds-address", lambda b: xcoff(
    b, sec(BAD_TEXT, TOP[b] - 1, 2, far(b), vaddr=0)), *named(4, 1))
both("order-bounds-address", lambda b: xcoff(
    b, sec(TEXT, TOP[b] - 1, 2, far(b), vaddr=0)), *named(5, 1))
# All of section 1 before all of section 2.
both("order-address1-kind2", lambda b: xcoff(
    b, sec(TEXT, 1, 0, vaddr=0), sec(BAD_TEXT)), *named(6, 1))
both("order-address1-bounds2", lambda b: xcoff(
    b, sec(BSS, TOP[b] - 1, 2), sec(INFO, 0, 0, far(b))), *named(6, 1))
both("order-bounds1-kind2", lambda b: xcoff(
    b, sec(INFO, 0, 0, far(b)), sec(0)), *named(5, 1))
# All sections before symbols and strings.
both("order-kind2-symbols", lambda b: xcoff(
    b, sec(TEXT), sec(0), symptr=far(b), nsyms=1), *named(4, 2))
both("order-bounds2-symbols", lambda b: xcoff(
    b, sec(TEXT), sec(DATA, 0, 0, far(b)), symptr=far(b), nsyms=1), *named(5, 2))
both("order-address2-symbols", lambda b: xcoff(
    b, sec(TEXT), sec(DATA, 1, 0, vaddr=2), symptr=far(b), nsyms=1), *named(6, 2))
both("order-address1-strings", lambda b: xcoff(
    b, sec(DATA, 1, 0, vaddr=2), symptr=end(b, 1), nsyms=1,
    tail=SYMBOL + b"\x00" + b"\x00\x00\x00\x02"), *named(6, 1))

# ----------------------------------------------------------------


def main():
    where = sys.argv[1] if len(sys.argv) > 1 else os.path.dirname(os.path.abspath(__file__))
    for name, (data, want) in CASES.items():
        with open(os.path.join(where, name + ".xcoff"), "wb") as f:
            f.write(data)
        with open(os.path.join(where, name + ".txt"), "wb") as f:
            f.write(want.encode("ascii"))
    print("%d inputs written" % len(CASES))


if __name__ == "__main__":
    main()
