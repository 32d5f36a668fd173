#!/usr/bin/env python3
"""Makes the texts of this folder from recorded cases: cases.txt from base.jsonl, cases-NN.txt from NN.jsonl.

usage: make.py CASES.jsonl[.xz]...

A line of CASES.jsonl is a JSON object: an operation with its arguments, the file and the answer that an independent
reading of the rules gives. Of the answer only what the library gives is kept. README.md says what the texts look like,
and which cases are left out because a later request changes answers like theirs.
"""
import json
import lzma
import os
import re
import sys

HERE = os.path.dirname(os.path.abspath(__file__))


def hexed(data):
    """Bytes as hex digits, four or more zero bytes as their number in brackets."""
    text = re.sub(rb"\0{4,}|[^\0]+|\0{1,3}", piece, data).decode()
    return text or "-"


def piece(found):
    run = found.group(0)
    return b"(%d)" % len(run) if run.startswith(b"\0\0\0\0") else run.hex().encode()


def bytes_of(text):
    return hexed(bytes.fromhex(text))


def record_text(text):
    """A record text as it is, a newline as |, what is neither letter nor digit as its hex digits after a backslash."""
    def character(found):
        return "|" if found.group(0) == "\n" else "\\%02x" % ord(found.group(0))
    return re.sub("[^0-9A-Za-z]", character, bytes.fromhex(text).decode("latin-1")) or "-"


def numbers(values):
    """Addresses; equal neighbours once, with their number."""
    rows = []
    for value in values:
        if rows and rows[-1][0] == value:
            rows[-1][1] += 1
        else:
            rows.append([value, 1])
    return ",".join("%x" % v if n == 1 else "%x*%d" % (v, n) for v, n in rows) or "-"


def words(record, *keys):
    return " ".join("%x" % record[key] for key in keys)


def name(found):
    return "%s@%x" % (found["bytes"], found["at"]) if found["bytes"] else "-"


def refused(answer):
    """Number, item and offset."""
    return isinstance(answer, dict) and "refused" in answer and "refused %d %d %d" % tuple(answer["refused"])


def section(s):
    short = bytes.fromhex(s["name"]).split(b"\0")[0].hex()
    numbers = words(s, "paddr", "vaddr", "size", "scnptr", "relptr", "nreloc", "lnnoptr", "nlnno")
    return "%s %s %d %s" % (s["kind"], numbers, s["has_raw"], name({"bytes": short, "at": s["header_at"]}))


def opened(o):
    head = "%d %s" % (int(o["fmt"][5:]), words(o, "nscns", "nsyms", "opthdr", "flags"))
    return " ; ".join([head] + [section(s) for s in o["sections"]])


def symbol(s):
    visibility = s.get("visibility")
    ntype = "%x" % s["type"] if visibility is None else "%x/%d" % (s["type"], visibility)
    return "%x %d %s %s %s" % (s["value"], s["scnum"], ntype, words(s, "sclass", "numaux"), name(s["name"]))


def walk(w):
    entries = w["entries"]
    end = entries[-1]["index"] + 1 + entries[-1]["numaux"] if entries else 0
    cause = refused(w["end"]) if w["end"] else "whole"
    return " ; ".join(["%x %x %s" % (len(entries), end, cause)] + ["%x %s" % (e["index"], symbol(e)) for e in entries])


def loader_symbol(s):
    return "%s %s" % (words(s, "value", "scnum", "smtype", "smclas", "ifile", "parm"), name(s["name"]))


def anchor(m, what):
    section = m[what + "_section"]
    return "%x %x" % (section, m[what]) if section else "none"


def module(m):
    head = "%d %s %x %s %s %s" % (
        int(m["o"]["fmt"][5:]), " ".join(words(m[k], "number", "paddr", "size") for k in ("text", "data", "bss")),
        m["loader"]["number"], words(m, "data_image_size", "id_count"), anchor(m, "entry"), anchor(m, "toc"))
    entries = ["%s %s%d" % (words(r, "address", "symbol", "rtype", "scnum"), "-" if r["sign"] < 0 else "+", r["width"])
               for r in m["relocations"]]
    return " ; ".join([head] + [loader_symbol(s) for s in m["symbols"]] + entries)


def plan(p):
    return "%x %x %s" % (p["text"], p["data"], numbers(p["imports"]))


def reached(answer):
    return refused(answer) or " ".join("none" if answer[k] is None else "%x" % answer[k] for k in ("entry", "toc"))


def images(before, after):
    """The two buffers, a dot where one is as before."""
    return " ".join("." if b == a else bytes_of(a) for b, a in zip(before, after))


def call(c):
    if c["call"] == "build":
        return "build " + plan(c["plan"])
    return "move %s %s" % (plan(c["from"]), plan(c["to"]))


def image_case(case):
    """A build, a move or a list: all of them are lists of calls here."""
    lent = case["buffers"]["text"], case["buffers"]["data"]
    expect = case["expect"]
    if case["op"] == "module_calls":
        calls, answers = case["calls"], expect["answer"]
    else:
        calls = [dict(case, call=case["op"])]
        answers = [[expect["answer"], expect["buffers"]["text"], expect["buffers"]["data"]]]
    parts, before = [], lent
    for answer, text, data in answers:
        parts.append("%s / %s" % (reached(answer), images(before, (text, data))))
        before = text, data
    asked = " ".join([bytes_of(lent[0]), bytes_of(lent[1])] + [call(c) for c in calls])
    return "calls %s = %s" % (asked, " ; ".join(parts))


def sheet_case(case):
    answer = case["expect"]["answer"]
    if case["op"] == "sheet_read":
        given = refused(answer) or words(answer, "text", "data")
        return "sheet_read %s %s = %s / %s" % (
            bytes_of(case["sheet"]), numbers(case["list"]), given, numbers(case["expect"]["list"]))
    after = case["expect"]["buffers"]["sheet"]
    return "sheet_write %s %s = %s / %s" % (
        plan(case["plan"]), bytes_of(case["buffers"]["sheet"]), refused(answer) or "written", bytes_of(after))


def record_case(case):
    """Records that are written or read: the buffers before and after, a dot where one is as before."""
    lent, after = case["buffers"], case["expect"]["buffers"]
    answer = refused(case["expect"]["answer"])
    asked = "%s %s %s %s" % (case["op"], plan(case["plan"]), bytes_of(lent["text"]), bytes_of(lent["data"]))
    if case["op"] == "srecord_read":
        both = [(b["text"], b["data"]) for b in (lent, after)]
        return "%s %s = %s / %s" % (asked, record_text(case["records"]), answer or "read", images(*both))
    assert (after["text"], after["data"]) == (lent["text"], lent["data"])
    written = "." if after["records"] == lent["records"] else record_text(after["records"])
    return "%s %s = %s / %s" % (asked, bytes_of(lent["records"]), answer or "written", written)


def line_case(case):
    answer = case["expect"]["answer"]
    given = refused(answer) or words(answer, "entry", "address", "line", "symbol")
    return "find_line %s = %s" % (words(case, "section", "address"), given)


def table_call(call):
    """A call on the address table. A fill has the module's file."""
    if call["call"] == "fill":
        return "fill %x %s %s" % (call["bench"], hexed(file_of(call)), numbers(call["list"]))
    key = "%x %x %s" % (call["bench"], call["file_id"], bytes_of(call["name"]))
    return "add %s %x" % (key, call["address"]) if call["call"] == "add" else "%s %s" % (call["call"], key)


def table_answer(call, answer):
    if call["call"] == "fill":
        return "%s / %s" % (refused(answer[0]) or "filled", numbers(answer[1]))
    if answer is None:
        return "done"
    return refused(answer) or "%x" % answer


def table_case(case):
    """Calls on one table, which starts empty."""
    answers = [table_answer(*both) for both in zip(case["calls"], case["expect"]["answer"])]
    assert len(answers) == len(case["calls"])
    return "table %s = %s" % (" ".join(map(table_call, case["calls"])), " ; ".join(answers))


def changes(before, after):
    """Where bytes differ from others of the same length: each run by its offset, between commas; - where none does."""
    runs, at = [], 0
    while at < len(after):
        end = at
        while end < len(after) and after[end] != before[end]:
            end += 1
        if end > at:
            runs.append("%x:%s" % (at, after[at:end].hex()))
        at = end + 1
    return ",".join(runs) or "-"


def object_read(o):
    """The bits and the image's length, where each text and data section starts in it, the entries."""
    head = "%d %x" % (int(o["o"]["fmt"][5:]), o["size"])
    placed = ["%x@%x" % (p["number"], o["starts"][str(p["number"])]) for p in o["placed"]]
    entries = [words(e, "own_section", "address", "symbol", "rsize", "rtype", "width", "place") for e in o["entries"]]
    return " ; ".join([head] + placed + entries)


def object_call(c):
    if c["call"] == "build":
        return "build " + numbers(c["plan"])
    return "move %s %s" % (numbers(c["from"]), numbers(c["to"]))


def object_case(case):
    """A build, a move or a list on the one buffer: all of them are lists of calls here."""
    lent, expect = case["buffers"]["buffer"], case["expect"]
    if case["op"] == "object_calls":
        calls, answers = case["calls"], expect["answer"]
    else:
        calls = [dict(case, call=case["op"][len("object_"):])]
        answers = [[expect["answer"], expect["buffers"]["buffer"]]]
    parts, before = [], lent
    for answer, after in answers:
        parts.append("%s / %s" % (refused(answer) or "placed", "." if after == before else bytes_of(after)))
        before = after
    return "object_calls %s %s = %s" % (bytes_of(lent), " ".join(object_call(c) for c in calls), " ; ".join(parts))


def file_case(case):
    """A file that is written: of the lent buffers before only the lengths are kept, since nothing depends on their bytes."""
    lent = {key: bytes.fromhex(text) for key, text in case["buffers"].items()}
    after = {key: bytes.fromhex(text) for key, text in case["expect"]["buffers"].items()}
    answer = refused(case["expect"]["answer"])
    assert not answer or after == lent
    if case["op"] == "salvage":
        return salvage_case(case, answer, lent, after)
    asked = "write_module %s %x" % (plan(case["plan"]), len(lent["out"]))
    return "%s = %s" % (asked, answer + " / ." if answer else "written / " + changes(file_of(case), after["out"]))


def salvage_case(case, answer, lent, after):
    asked = "salvage %x %x" % (len(lent["copy"]), len(lent["report"]))
    if answer:
        return "%s = %s / ." % (asked, answer)
    count = case["expect"]["answer"]
    assert after["report"][8 * count:] == lent["report"][8 * count:]
    written = after["report"][:8 * count].hex() or "-"
    return "%s = %x / %s %s" % (asked, count, changes(file_of(case), after["copy"]), written)


# Operations that came with a request: they are kept in the text of that request alone.
OWN = {"salvage": "12", "write_module": "08", "find_line": "07", "table": "06"}


READ = {
    "open": opened, "section": section, "symbol": symbol, "walk": walk, "module": module, "loader_symbol": loader_symbol,
    "csect": lambda c: words(c, "length", "align_log", "type", "smclas"),
    "import_id": lambda strings: " ".join(name(s) for s in strings),
    "list": lambda text: text.replace("\n", "|"), "object": object_read,
}


def line(case):
    """Refusals of cases that were recorded before request 4 have no offset."""
    text = whole_line(case)
    return text if 4 in case["requests"] else re.sub(r"(refused \d+ \d+) \d+", r"\1", text)


def whole_line(case):
    if case["op"] in ("build", "move", "module_calls"):
        return image_case(case)
    if case["op"].startswith("sheet"):
        return sheet_case(case)
    if case["op"].startswith("srecord"):
        return record_case(case)
    if case["op"] == "find_line":
        return line_case(case)
    if case["op"] == "table":
        return table_case(case)
    if case["op"] in ("salvage", "write_module"):
        return file_case(case)
    if case["op"].startswith("object_"):
        return object_case(case)
    answer = case["expect"]["answer"]
    asked = "%s %x" % (case["op"], case["index"]) if "index" in case else case["op"]
    return "%s = %s" % (asked, refused(answer) or READ[case["op"]](answer))


def symbol_table(data):
    """The format's bits and every entry of the symbol table, auxiliary ones too; none where it is not in the file."""
    bits = {b"\x01\xdf": 32, b"\x01\xf7": 64}.get(data[:2])
    if bits is None or len(data) < 24:
        return bits, []
    number = lambda at, width: int.from_bytes(data[at:at + width], "big")
    start, count = (number(8, 4), number(12, 4)) if bits == 32 else (number(8, 8), number(20, 4))
    if start + 18 * count > len(data):
        return bits, []
    return bits, [data[start + 18 * i:start + 18 * (i + 1)] for i in range(count)]


def entries_of(case, table):
    """The entries that a case is about: the one asked for; of a csect also those before it, of a walk those on its way."""
    if case["op"] == "symbol":
        return table[case["index"]:case["index"] + 1]
    if case["op"] == "csect":
        return table[:case["index"] + 1]
    found, i = [], 0
    while case["op"] == "walk" and i < len(table):
        found.append(table[i])
        i += 1 + table[i][17]
    return found


def has_debug_name(bits, entry):
    """A class with bit 80 hex, and the name by an offset other than 0."""
    short = bits == 32 and any(entry[:4])
    return entry[16] & 0x80 and not short and any(entry[4:8] if bits == 32 else entry[8:12])


def has_version_2(data):
    """XCOFF32 with an auxiliary header of 4 bytes or more that has version 2."""
    return data[:2] == b"\x01\xdf" and int.from_bytes(data[16:18], "big") >= 4 and data[22:24] == b"\0\x02"


def has_new_type(case, entry):
    """A class whose type has a visibility in a file of auxiliary version 2; a csect's answer does not have it and is another
    only where it is 5 to 7."""
    return entry[16] in (2, 107, 111) and (case["op"] != "csect" or entry[14] >> 4 & 7 > 4)


def loader_counts(data):
    """How many symbols and relocation entries each loader section says it has."""
    bits = {b"\x01\xdf": 32, b"\x01\xf7": 64}.get(data[:2])
    if bits is None or len(data) < 24:
        return
    number = lambda at, width: int.from_bytes(data[at:at + width], "big")
    start, length, place, flags = (20, 40, 20, 36) if bits == 32 else (24, 72, 32, 64)
    for n in range(number(2, 2)):
        header = start + number(16, 2) + length * n
        if number(header + flags, 4) == 0x1000:
            loader = number(header + place, bits // 8)
            yield number(loader + 4, 4), number(loader + 8, 4)


def is_within_old_limits(case):
    """Whether both the limits of document 01 and those of request 10 allow or refuse the case: a sheet that does not begin
    0000; a buffer that neither form's sheet fits, for a plan within the old limit; tables that are not between the limits."""
    between = lambda count, limit: 4096 < count <= limit
    if case["op"] == "sheet_read":
        return not case["sheet"].startswith("0000")
    if case["op"] == "sheet_write":
        count, room = len(case["plan"]["imports"]), len(case["buffers"]["sheet"]) // 2
        return not between(count, 70000) and room - 8 * count not in (20, 24)
    if case["op"] in ("open", "section", "symbol", "walk", "csect", "list"):
        return True
    return not any(between(symbols, 70000) or between(entries, 100000) for symbols, entries in loader_counts(file_of(case)))


def stands(case):
    """Whether no request that came after the case can change its answer. Request 1: names of debug classes. Request 9: types
    that have a visibility. Request 10: sheets and limits."""
    data = file_of(case)
    bits, table = symbol_table(data)
    entries = entries_of(case, table)
    names_stand = 1 in case["requests"] or not any(has_debug_name(bits, entry) for entry in entries)
    types_stand = 9 in case["requests"] or not has_version_2(data) or not any(has_new_type(case, entry) for entry in entries)
    limits_stand = 10 in case["requests"] or is_within_old_limits(case)
    return names_stand and types_stand and limits_stand


def file_of(case):
    return bytes.fromhex(case.get("file", "")).ljust(case.get("pad_to", 0), b"\0")


def make(path):
    opener = lzma.open if path.endswith(".xz") else open
    with opener(path, "rt") as f:
        recorded = [json.loads(text) for text in f]
    name = os.path.basename(path).split(".")[0]
    cases = [case for case in recorded if stands(case) and OWN.get(case["op"], name) == name]
    name = "cases.txt" if name == "base" else "cases-%s.txt" % name
    # Cases of one file stand together, so that it is there once.
    by_file = {}
    for case in cases:
        by_file.setdefault(hexed(file_of(case)), []).append(line(case))
    with open(os.path.join(HERE, name), "w") as f:
        for data, lines in by_file.items():
            f.write("file %s\n" % data)
            f.write("".join(text + "\n" for text in lines))
    print("%s: %d cases, %d left out, %d files" % (name, len(cases), len(recorded) - len(cases), len(by_file)))


if __name__ == "__main__":
    for path in sys.argv[1:]:
        make(path)
