#!/usr/bin/env python3
"""What the header lister must print of a file, made from llvm-readobj's listing of it.

usage: expected.py LISTING     (named NAME.txt)

LISTING holds what `llvm-readobj --file-headers --sections FILE` prints, once or more often
(then all must agree); other text in it is passed over. Only facts that llvm-readobj printed
are used: magic, number of symbol entries, and of each section its type flag, physical
address and size. A file that is refused at opening has its line in REFUSED, written by
hand from the scope document, with the place of the header that is named: 20 (24) bytes of
file header, 72 (120) of auxiliary header as the listing shows it, and 40 (72) for each
section before. The script stops if a listing shows a cause to refuse and the name is not
there.
"""
import os
import re
import sys

# By name without -32 or -64: the line in XCOFF32 and in XCOFF64, and what the listing shows.
REFUSED = {
    "exe-oldmagic": ("refused 2 0 0", "refused 2 0 0"),         # magic 01EF; llvm-readobj and objdump refuse it too
    "objcopy-badkind": ("refused 4 5 252", "refused 4 5 432"),  # section 5 has type 0x8020, two kinds
    "objcopy-lma": ("refused 6 2 132", "refused 6 2 216"),      # section 2, data: physical and virtual address differ
    "shr-topquirk": ("refused 6 1 92", "refused 6 1 144"),      # section 1, data: address + size passes 2^32 (2^64)
    "yaml-sections33": ("refused 3 1 0", "refused 3 1 0"),      # 33 sections
}

FORMATS = {0x1DF: ("XCOFF32", 8), 0x1F7: ("XCOFF64", 16)}     # name, address digits
KINDS = {0x0008: "pad", 0x0010: "dwarf", 0x0020: "text", 0x0040: "data", 0x0080: "bss",
         0x0100: "except", 0x0200: "info", 0x0400: "tdata", 0x0800: "tbss", 0x1000: "loader",
         0x2000: "debug", 0x4000: "typchk", 0x8000: "ovrflo"}


def number(text):
    """The number in `0x40`, `46` or `STYP_TEXT (0x20)`."""
    found = re.search(r"0x([0-9A-Fa-f]+)", text)
    return int(found.group(1), 16) if found else int(text)


def tables(listing):
    """For each run of llvm-readobj in the listing: its file header and its sections."""
    found, fields = [], None
    for line in listing.splitlines():
        if line == "FileHeader {":
            fields = {}
            found.append((fields, []))
        elif line == "  Section {" and found:
            fields = {}
            found[-1][1].append(fields)
        elif line in ("}", "]", "  }"):
            fields = None
        elif fields is not None:
            pair = re.fullmatch(r" +(\w+): (.*)", line)
            if pair:
                fields.setdefault(pair.group(1), pair.group(2))    # the first of a name counts
    return found


def expected(header, sections):
    name, digits = FORMATS[number(header["Magic"])]
    if number(header["NumberOfSections"]) != len(sections) or len(sections) > 32:
        sys.exit("number of sections")
    lines = ["%s %d %d" % (name, len(sections), number(header["SymbolTableEntries"]))]
    for index, section in enumerate(sections, 1):
        # A deleted section has no Type line (`Flags: Reserved`, half of them); none is in the corpus.
        kind = KINDS.get(number(section.get("Type", "0")))
        if kind is None or number(section["Index"]) != index:
            sys.exit("section %d: type or index" % index)
        # Of an overflow section llvm-readobj prints s_paddr as NumberOfRelocations.
        address = number(section["NumberOfRelocations" if kind == "ovrflo" else "PhysicalAddress"])
        size = number(section["Size"])
        if kind in ("text", "data", "bss") and (
                address != number(section["VirtualAddress"]) or address + size > 16 ** digits):
            sys.exit("section %d: address" % index)
        lines.append("%d %s %0*x %d" % (index, kind, digits, address, size))
    return "\n".join(lines)


def main():
    name = os.path.splitext(os.path.basename(sys.argv[1]))[0]
    stem = re.sub(r"-(32|64)$", "", name)
    if stem in REFUSED:
        print(REFUSED[stem][name.endswith("-64")])
        return
    with open(sys.argv[1], encoding="latin-1") as f:
        texts = {expected(*table) for table in tables(f.read())}
    if len(texts) != 1:
        sys.exit("%s: %d different tables" % (name, len(texts)))
    print(texts.pop())


if __name__ == "__main__":
    main()
