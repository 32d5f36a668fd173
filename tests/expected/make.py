#!/usr/bin/env python3
"""Makes verdicts.txt and facts.txt of this folder.

usage: make.py CORPUS
       make.py --entries LISTING      the facts `rel` of one file, from what llvm-readobj --relocs --expand-relocs prints

CORPUS holds verdicts.txt and listings/NAME.txt (or NAME.txt.xz), one for each file NAME of ../corpus and ../pairs (see
README.md here). Listings are what llvm-readobj 19 and 14, GNU objdump and GNU nm print; where two of them print the
same fact, they must agree. Nothing here reads an XCOFF file itself, but the strings of import ids: no tool lists
them, so they are cut out of objdump's dump of the loader section at the place llvm-readobj names.
"""
import lzma
import os
import re
import sys

HERE = os.path.dirname(os.path.abspath(__file__))
FOLDERS = [os.path.join(HERE, "..", folder) for folder in ("corpus", os.path.join("corpus", "large"), "pairs")]


def names():
    """Every real file of the repository; one may be in two folders."""
    found = set()
    for folder in FOLDERS:
        for name in os.listdir(folder):
            if os.path.isfile(os.path.join(folder, name)) and not name.endswith((".txt", ".py", ".md")):
                found.add(name)
    return sorted(found)


def listing_of(corpus, name):
    """The text of a listing, None where there is none."""
    path = os.path.join(corpus, "listings", name + ".txt")
    for path, opener in ((path, open), (path + ".xz", lzma.open)):
        if os.path.exists(path):
            with opener(path, "rt", encoding="latin-1") as f:
                return f.read()
    return None


def number(text):
    """The number in `0x40`, `46` or `STYP_TEXT (0x20)`."""
    found = re.search(r"0x([0-9A-Fa-f]+)", text)
    return int(found.group(1), 16) if found else int(text)


# ---- verdicts

def verdict(corpus, line):
    """A line of the independent verdicts: what opening, the walk and the module give."""
    name, _, rest = line.split(None, 2)
    opening = re.match(r"OPEN (\d+) \w+ item (\d+)", rest)
    if opening:
        return name, "open %s %s" % opening.groups()
    bits = rest.split()[0]
    # Where 01 alone reads names in another way, the line says in brackets how far its walk would come.
    visited, stop = int(re.search(r"syms (\d+) entries", rest).group(1)), (0, 0)
    # The symbol that stops the walk, where request 9 refuses one: those before it in the listing are visited.
    refused = re.search(r"req9 (\d+) \w+ item (\d+)", rest)
    if refused:
        stop = tuple(int(n) for n in refused.groups())
        symbols = blocks(parts(listing_of(corpus, name))["llvm-readobj-19 --syms"], "Symbol", "  ")
        visited = sum(number(fields(block)["Index"]) < stop[1] for block in symbols)
    head = "%s walk %d %d %d" % (bits, visited, *stop)
    refused = re.match(r"\d+ (\d+) \w+ item (\d+)", rest)
    if refused:
        return name, "%s module %s %s" % ((head,) + refused.groups())
    good = re.match(r"\d+ OK +lsym (\d+) imp (\d+) def (\d+) ids (\d+) lrel (\d+)\S* .*?"
                    r"ent (\d+) toc (\d+) bss (\d+) gap (\d+)", rest)
    return name, "%s loadable %s" % (head, " ".join(good.groups()))


def within_new_limits(name, verdicts):
    """The verdicts are of document 01, which refuses the four modules above 4,096; request 10 accepts them. Each was made like
    its neighbour with 4,096: with one import, which one entry uses, or with one entry more."""
    head, counts = verdicts[name.replace("4097", "4096")].split(" loadable ")
    counts = [int(n) for n in counts.split()]
    for place in (0, 1, 4) if "lsym" in name else (4,):
        counts[place] += 1
    return "%s loadable %s" % (head, " ".join(map(str, counts)))


# ---- listings

def parts(listing):
    """The output of each tool, by the command."""
    found = {}
    for part in re.split(r"^### ", listing, flags=re.M)[1:]:
        command, _, text = part.partition("\n")
        found[command] = text
    return found


def blocks(text, opening, indent):
    """The lines of each block `opening {` at an indentation, up to its closing brace."""
    pattern = r"^%s%s \{\n(.*?)^%s\}" % (indent, opening, indent)
    return [m.group(1) for m in re.finditer(pattern, text, flags=re.M | re.S)]


def fields(text):
    """The first value of each `name: value`."""
    found = {}
    for line in text.splitlines():
        pair = re.match(r" *([^:]*): ?(.*)", line)
        if pair:
            found.setdefault(pair.group(1), pair.group(2))
    return found


def header_facts(text, bits):
    header = fields(blocks(text, "FileHeader", "")[0])
    facts = ["file %d %x %x %x %x" % (
        bits, number(header["NumberOfSections"]), number(header["SymbolTableEntries"]),
        number(header["OptionalHeaderSize"]), number(header["Flags"]))]
    sections = {}
    for block in blocks(text, "Section", "  "):
        s = fields(block)
        flag = number(s["Type"])
        # Of an overflow section llvm-readobj prints s_paddr and s_vaddr as counts.
        paddr, vaddr = ("NumberOfRelocations", "NumberOfLineNumbers") if flag == 0x8000 else ("PhysicalAddress", "VirtualAddress")
        index = number(s["Index"])
        sections[index] = s["Name"]
        facts.append("section %x %x %x %x %x %x %s" % (
            index, number(s[paddr]), number(s[vaddr]), number(s["Size"]), number(s["RawDataOffset"]), flag, s["Name"]))
        facts.append(table_fact(index, flag, s))
    return facts, sections


def table_fact(index, flag, s):
    """A section's relocation and line table as its header has them; an overflow header has a section's number for each count."""
    counts = ["IndexOfSectionOverflowed"] * 2 if flag == 0x8000 else ["NumberOfRelocations", "NumberOfLineNumbers"]
    return "tables %x %x %x %x %x" % (index, number(s["RelocationPointer"]), number(s[counts[0]]),
                                      number(s["LineNumberPointer"]), number(s[counts[1]]))


def check_sections(facts, gnu):
    """objdump's sections: name, size, both addresses and, of raw data, the offset."""
    rows = re.findall(r"^ +(\d+) (\S+) +([0-9a-f]+)  ([0-9a-f]+)  ([0-9a-f]+)  ([0-9a-f]+) ", gnu, flags=re.M)
    told = {}
    for fact in facts:
        words = fact.split(" ", 7)
        if words[0] == "section":
            told[int(words[1], 16)] = words
    for index, name, *numbers in rows:
        # objdump numbers from 0, and leaves out overflow sections, which come last here.
        _, _, paddr, vaddr, size, scnptr, _, named = told[int(index) + 1]
        size_, vma, lma, offset = (int(n, 16) for n in numbers)
        if (named, int(size, 16), int(vaddr, 16), int(paddr, 16), int(scnptr, 16)) != (name, size_, vma, lma, offset):
            sys.exit("section %s: objdump differs" % index)


def module_facts(text):
    found = blocks(text, "AuxiliaryHeader", "")
    if not found:
        return []
    a = fields(found[0])
    if "Section number of .text" not in a:
        return []
    keys = ["Section number of .text", ".text section start address", "Size of .text section",
            "Section number of .data", ".data section start address", "Size of .data section",
            "Section number of .bss", "Size of .bss section", "Section number of loader data",
            "Section number of entryPoint", "Entry point address", "Section number of TOC", "TOC anchor address"]
    return ["module " + " ".join("%x" % number(a[k]) for k in keys)]


def dump(text):
    """The bytes of the loader section in objdump's dump."""
    body = text.partition("Contents of section .loader:\n")[2]
    found = bytearray()
    for line in body.splitlines():
        row = re.match(r" [0-9a-f]+ ((?:[0-9a-f]{2,8} ){1,4})", line)
        if not row:
            break
        found += bytes.fromhex(row.group(1).replace(" ", ""))
    return bytes(found)


def loader_facts(text, dumped):
    found = blocks(text, "Loader Section Header", "    ")
    if not found:
        return []
    h = fields(found[0])
    count = number(h["NumberOfImportFileIDs"])
    facts = ["loader %x %x %x" % (number(h["NumberOfSymbolEntries"]), number(h["NumberOfRelocationEntries"]), count)]
    for index, block in enumerate(blocks(text, "Symbol", "      "), 3):
        s = fields(block)
        facts.append("lsym %x %x %x %x %x %x %x %s" % (
            index, number(s["Virtual Address"]), number(s["SectionNum"]), number(s["SymbolType"]),
            number(s["StorageClass"]), number(s["ImportFileID"]), number(s["ParameterTypeCheck"]), s["Name"]))
    at, size = number(h["OffsetToImportFileIDs"]), number(h["LengthOfImportFileIDStringTable"])
    if at + size <= len(dumped):
        strings = dumped[at:at + size].split(b"\0")
        for n in range(count):
            facts.append("id %x %s" % (n, "|".join(s.decode("latin-1") for s in strings[3 * n:3 * n + 3])))
    return facts


def relocation_rows(text):
    """Address, type, section, symbol and its name, as llvm-readobj lists the loader relocations."""
    rows = re.findall(r"^ +0x([0-9a-f]+) 0x([0-9a-f]+) \(\w+\) +(\d+) +(.*) \((-?\d+)\)$", text, flags=re.M)
    return [(int(a, 16), int(t, 16), int(sec), int(sym), name) for a, t, sec, name, sym in rows]


def relocation_facts(text, dynamic):
    """Entries of one type and section at equal distances become one fact, with their symbols."""
    rows = relocation_rows(text)
    header = blocks(text, "Loader Section Header", "    ")
    if not header or "Loader Section Relocations" not in text:
        return []
    if number(fields(header[0])["NumberOfRelocationEntries"]) != len(rows):
        sys.exit("relocations: their number differs")
    # objdump prints R_POS for every type.
    told = re.findall(r"^([0-9a-f]+) R_POS +(\S+)$", dynamic.partition("DYNAMIC RELOCATION RECORDS")[2], flags=re.M)
    if told and [(int(a, 16), n) for a, n in told] != [(r[0], r[4]) for r in rows]:
        sys.exit("relocations: objdump differs")
    return ["lrel " + run for run in entry_runs((address, (rtype, section), symbol) for address, rtype, section, symbol, _ in rows)]


def entry_runs(rows):
    """Address, what is the same of entries in a run, and symbol: INDEX COUNT DISTANCE ADDRESS, what is the same, SYMBOLS."""
    runs = []
    for index, (address, same, symbol) in enumerate(rows):
        last = runs[-1] if runs else None
        if last and last["same"] == same and last["step"] in (None, address - last["end"]):
            last.update(step=address - last["end"], end=address)
            last["symbols"].append(symbol)
        else:
            runs.append(dict(index=index, start=address, end=address, step=None, same=same, symbols=[symbol]))
    return ["%x %x %d %x %s %s" % (r["index"], len(r["symbols"]), r["step"] or 0, r["start"], " ".join("%x" % n for n in r["same"]),
                                   ",".join(str(n) for n in cycle(r["symbols"]))) for r in runs]


ENTRY = re.compile(r" +Virtual Address: 0x([0-9A-F]+)\n +Symbol: (.*) \((\d+)\)\n +IsSigned: (Yes|No)\n +FixupBitValue: (\d)\n"
                   r" +Length: (\d+)\n +Type: (\w+) \(0x([0-9A-F]+)\)\n")


def section_entries(text):
    """By section: address, symbol, size, type, and the names of symbol and type, as llvm-readobj lists the sections' own tables."""
    found = {}
    for section in re.finditer(r"^  Section \(index: (\d+)\) [^\n]* \{\n(.*?)^  \}", text, flags=re.M | re.S):
        rows = []
        for a, name, symbol, signed, fixup, length, kind, rtype in ENTRY.findall(section.group(2)):
            size = (signed == "Yes") << 7 | int(fixup) << 6 | int(length) - 1
            rows.append((int(a, 16), int(symbol), size, int(rtype, 16), name, kind))
        if len(rows) != section.group(2).count("Relocation {"):
            sys.exit("section %s: an entry is not understood" % section.group(1))
        found[int(section.group(1))] = rows
    return found


def section_entry_facts(text):
    facts = []
    for section, rows in sorted(section_entries(text).items()):
        runs = entry_runs((address, (size, rtype), symbol) for address, symbol, size, rtype, *_ in rows)
        facts += ["rel %x %s" % (section, run) for run in runs]
    return facts


def check_entries(text, gnu, facts):
    """objdump -r: offset in the section, the symbol's name and the type's, without the width that it appends to some. At some
    widths it ends with an internal error."""
    if "internal error" in gnu:
        return
    addresses = {}
    for fact in facts:
        words = fact.split(" ", 7)
        if words[0] == "section":
            addresses[int(words[1], 16)] = int(words[3], 16)
    told = []
    for part in re.split(r"^RELOCATION RECORDS FOR ", gnu, flags=re.M)[1:]:
        told.append([(int(o, 16), kind, re.sub(r"[-+]0x[0-9a-f]+$", "", value))
                     for o, kind, value in re.findall(r"^([0-9a-f]{8,16}) (R_\w+) +(.*)$", part, flags=re.M)])
    own = []
    for section, rows in sorted(section_entries(text).items()):
        own.append([(a - addresses[section], kind, name) for a, _, _, _, name, kind in rows])
    if len(told) != len(own) or any(len(t) != len(o) for t, o in zip(told, own)):
        sys.exit("entries of sections: objdump lists another number")
    for t, o in zip((t for part in told for t in part), (o for part in own for o in part)):
        if t[0] != o[0] or not t[1].startswith(o[1]) or t[2] != o[2]:
            sys.exit("entries of sections: objdump has %r, llvm-readobj %r" % (t, o))


def cycle(values):
    """The shortest start that, repeated, gives all values."""
    for length in range(1, len(values)):
        if all(value == values[i % length] for i, value in enumerate(values)):
            return values[:length]
    return values


def check_dynamic(facts, dynamic):
    """objdump's dynamic symbols: name and value of each loader symbol, in order."""
    rows = re.findall(r"^([0-9a-f]+) .{7} \S+ +\S+ +(\S+)$", dynamic.partition("DYNAMIC RELOCATION")[0], flags=re.M)
    told = [fact.split(" ", 8) for fact in facts if fact.startswith("lsym ")]
    if rows and [(int(v, 16), n) for v, n in rows] != [(int(w[2], 16), w[8]) for w in told]:
        sys.exit("loader symbols: objdump differs")


def check_names(gnu, nm):
    """nm's symbols are objdump's: the same values with the same names, 0 for the undefined. nm's word for debugging symbols
    is ?; it gives some of them another value, and the names alone are compared, each as often as it is there."""
    rows = re.findall(r"^\[ *\d+\]\(sec.*\(scl +(\d+)\) \(nx \d+\) 0x([0-9a-f]+) ?(.*)$", gnu, flags=re.M)
    listed = {(int(value, 16), name) for _, value, name in rows}
    for value, name in re.findall(r"^([0-9a-f]+| +) [^?] (.*)$", nm, flags=re.M):
        if (int(value.strip() or "0", 16), name) not in listed:
            sys.exit("nm differs: %s %s" % (value, name))
    # C_FILE and the classes with bit 80; nm leaves out symbols without a name
    debugging = sorted(name for sclass, _, name in rows if name and (sclass == "103" or int(sclass) & 0x80))
    if debugging != sorted(re.findall(r"^[0-9a-f]+ [?] (.+)$", nm, flags=re.M)):
        sys.exit("nm differs about the debugging symbols")


def version_2(auxiliary, bits):
    """Whether llvm-readobj lists version 2 in the auxiliary header of an XCOFF32 file."""
    version = fields(auxiliary).get("Version")
    return bits == 32 and version is not None and number(version) == 2


def type_word(ntype, sclass, version2):
    """The type and, after a slash, the visibility that it claims."""
    return "%x/%d" % (ntype, ntype >> 12 & 7) if version2 and sclass in (2, 107, 111) else "%x" % ntype


def symbol_facts(llvm, gnu, sections, version2):
    """Symbols in objdump's numbers, with llvm-readobj's names and csects; both must agree."""
    rows = {}
    row = None
    for line in gnu.splitlines():
        m = re.match(r"\[ *(\d+)\]\(sec +(-?\d+)\)\(fl 0x..\)\(ty +([0-9a-f]+)\)\(scl +(\d+)\) \(nx (\d+)\) 0x([0-9a-f]+) ?(.*)", line)
        if m:
            index, sec, ntype, sclass, numaux, value, name = m.groups()
            row = [int(sec), int(ntype, 16), int(sclass), int(numaux), int(value, 16), name, None]
            rows[int(index)] = row
        m = re.match(r"AUX (val|indx) +(\d+) prmhsh .* typ (\d+) algn (\d+) clss (\d+) ", line)
        if m and row:
            row[6] = [int(x) for x in m.groups()[1:]]
    facts = []
    seen = 0
    for block in blocks(llvm, "Symbol", "  "):
        s = fields(block)
        index = number(s["Index"])
        sec, ntype, sclass, numaux, value, name, csect = rows[index]
        seen += 1
        told = next(number(v) for k, v in s.items() if k == "" or k.startswith("Value"))
        where = {-2: "N_DEBUG", -1: "N_ABS", 0: "N_UNDEF"}.get(sec) or sections[sec]
        if (value, sclass, numaux, where) != (told, number(s["StorageClass"]), number(s["NumberOfAuxEntries"]), s["Section"]):
            sys.exit("symbol %d: the tools differ" % index)
        if "Type" in s and "Source Language ID" not in s and number(s["Type"]) != ntype:
            sys.exit("symbol %d: the tools differ about the type" % index)
        # llvm-readobj reads no names of .debug, where classes with bit 80 have theirs; objdump prints a file's name for .file.
        if sclass & 0x80 and s["Name"] == "Unimplemented Debug Name":
            pass
        elif sclass == 103:
            name = s["Name"]
        elif name != s["Name"]:
            sys.exit("symbol %d: the tools differ about the name" % index)
        facts.append("symbol %x %d %s %x %x %x %s" % (index, sec, type_word(ntype, sclass, version2), sclass, numaux, value, name))
        found = blocks(block, "CSECT Auxiliary Entry", "    ")
        if found and sclass in (2, 107, 111):
            c = fields(found[-1])
            length = number(c.get("SectionLen", c.get("ContainingCsectSymbolIndex")))
            told = [length, number(c["SymbolType"]), number(c["SymbolAlignmentLog2"]), number(c["StorageMappingClass"])]
            if csect != told:
                sys.exit("csect %d: the tools differ" % index)
            facts.append("csect %x %x %x %x %x" % (index, told[1], told[2], told[3], length))
    if seen != len(rows):
        sys.exit("the tools differ about the number of symbols")
    return facts


def line_facts(gnu):
    """The line numbers that objdump lists below a function's symbol, as the table has them: entries at steps of 4 bytes and one
    line become one fact."""
    facts, run, function = [], None, None
    for line in gnu.splitlines():
        symbol = re.match(r"\[ *(\d+)\]\(sec +(-?\d+)\)", line)
        entry = re.match(r" *(\d+) : ([0-9a-f]+)$", line)
        if symbol:
            function = tuple(int(n) for n in symbol.groups())
        if not entry:
            run = None
            continue
        number, address = int(entry.group(1)), int(entry.group(2), 16)
        if run and (address, number) == (run[2] + 4 * run[4], run[3] + run[4]):
            run[4] += 1
        else:
            run = [function[1], function[0], address, number, 1]
            facts.append(run)
    return ["lines %x %x %x %x %x" % tuple(fact) for fact in facts]


def source_facts(disassembly):
    """File and line of each instruction that objdump lists with one: at steps of 4 bytes and one line, or of one line, they become
    one fact. objdump adds to the table's number what the function's .bf symbol says."""
    rows, source = [], None
    for line in disassembly.splitlines():
        named = re.match(r"(\S+):(\d+)$", line)
        code = re.match(r" *([0-9a-f]+):\t", line)
        if named:
            source = (named.group(1), int(named.group(2)))
        elif re.match(r"[0-9a-f]+ <.*>:$", line):
            pass
        elif code and source:
            rows.append((int(code.group(1), 16),) + source)
    runs = []
    for address, name, number in rows:
        last = runs[-1] if runs else None
        if last and last[1] == name and (address, number) == (last[0] + 4 * last[3], last[2] + last[3]):
            last[3] += 1
        else:
            runs.append([address, name, number, 1])
    return ["source %x %x %x %s" % (address, number, count, name) for address, name, number, count in runs]


def facts_of(listing):
    found = parts(listing)
    first = found["llvm-readobj-19 --file-headers --auxiliary-header --sections"]
    bits = int(re.search(r"AddressSize: (\d+)bit", first).group(1))
    facts, sections = header_facts(first, bits)
    older = found.get("llvm-readobj-14 --file-headers --section-headers")
    if older is not None and facts != header_facts(older, bits)[0]:
        sys.exit("llvm-readobj 19 and 14 differ")
    check_sections(facts, found.get("GNU objdump -x") or found["GNU objdump -h -f"])
    facts += module_facts(first)
    loader = found.get("llvm-readobj-19 --loader-section-header --loader-section-symbols --loader-section-relocations")
    if loader is None:
        # Of a large file only the first symbols are listed, and not its relocations; an object file has no loader section.
        loader = found.get("llvm-readobj-19 loader header", "") + found.get("(large file: first lines of the rest)", "")
    dynamic = found.get("GNU objdump -T -R (shared objects only)", "")
    tables = loader_facts(loader, dump(found.get("GNU objdump -s .debug .loader", "")))
    check_dynamic(tables, dynamic)
    facts += tables + relocation_facts(loader, dynamic)
    if "llvm-readobj-19 --syms" in found:
        auxiliary = "".join(blocks(first, "AuxiliaryHeader", ""))
        facts += symbol_facts(found["llvm-readobj-19 --syms"], found["GNU objdump -x"], sections, version_2(auxiliary, bits))
        if "GNU nm -A" in found:
            check_names(found["GNU objdump -x"], found["GNU nm -A"])
        entries = found.get("llvm-readobj-19 --relocs --expand-relocs", "")
        check_entries(entries, found["GNU objdump -x"], facts)
        facts += section_entry_facts(entries)
        lines = line_facts(found["GNU objdump -x"])
        facts += lines
        if lines:
            facts += source_facts("".join(text for command, text in found.items() if command.startswith("GNU objdump -l -d")))
    return facts


def write_verdicts(corpus):
    with open(os.path.join(corpus, "verdicts.txt"), encoding="latin-1") as f:
        verdicts = dict(verdict(corpus, line) for line in f if line.strip())
    verdicts.update((name, within_new_limits(name, verdicts)) for name in verdicts if "4097" in name)
    with open(os.path.join(HERE, "verdicts.txt"), "w", encoding="latin-1") as f:
        for name in names():
            if name in verdicts:
                f.write("%s %s\n" % (name, verdicts[name]))


def write_facts(corpus):
    with open(os.path.join(HERE, "facts.txt"), "w", encoding="latin-1") as f:
        for name in names():
            listing = listing_of(corpus, name)
            if listing is None:
                sys.exit("no listing of %s" % name)
            if "FileHeader {" not in listing:
                print("not listed by the tools:", name)
                continue
            f.write("@%s\n" % name)
            try:
                f.write("".join(fact + "\n" for fact in facts_of(listing)))
            except SystemExit as why:
                sys.exit("%s: %s" % (name, why))


def main():
    if sys.argv[1] == "--entries":
        with open(sys.argv[2], encoding="latin-1") as f:
            sys.stdout.write("".join(fact + "\n" for fact in section_entry_facts(f.read())))
        return
    write_verdicts(sys.argv[1])
    write_facts(sys.argv[1])


if __name__ == "__main__":
    main()
