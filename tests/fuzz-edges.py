#!/usr/bin/env python3
"""Rewrites the proved library's object file so that a fuzzer sees which branches run: the same instructions, with a
counter at each function's start, on both ways out of each conditional jump and at each target of a jump table.

usage: fuzz-edges.py OBJECT >ASSEMBLY     (for cc -c)

Every instruction but the jumps is copied as bytes. `xcoff_edges` are the counters, a byte each, `xcoff_edge_count` how
many they are. Anything in the object that is not understood ends the program with status 1.
"""
import re
import struct
import subprocess
import sys

PC32, PLT32 = 2, 4
CONDITION = re.compile(r"^j(?!mp)[a-z]+$")
READS_FLAGS = re.compile(r"^(j(?!mp)|set|cmov|adc|sbb|rcl|rcr|lahf|pushf|cmc|loop)")
# All status flags are written, none is read.
WRITES_FLAGS = re.compile(r"^(cmp|test|add|sub|and|or|xor|neg)[bwlq]?$")


class Section:
    def __init__(self, index, name, kind, flags, data, align):
        self.index, self.name, self.kind, self.flags, self.data, self.align = index, name, kind, flags, data, align
        self.relocations = {}  # offset: (type, symbol, addend)
        self.code = bool(flags & 4)


class Symbol:
    def __init__(self, name, info, section, value):
        self.name, self.bind, self.kind, self.section, self.value = name, info >> 4, info & 15, section, value


def read_elf(blob):
    if blob[:6] != b"\x7fELF\x02\x01":
        raise SystemExit("fuzz-edges: not an ELF object of 64 bits")
    shoff, = struct.unpack_from("<Q", blob, 40)
    size, count, names = struct.unpack_from("<HHH", blob, 58)
    headers = [struct.unpack_from("<IIQQQQIIQQ", blob, shoff + i * size) for i in range(count)]

    def text(table, at):
        start = headers[table][4] + at
        return blob[start:blob.index(b"\0", start)].decode()

    sections = []
    for i, (name, kind, flags, _, offset, length, _, _, align, _) in enumerate(headers):
        data = b"" if kind == 8 else blob[offset:offset + length]
        sections.append(Section(i, text(names, name), kind, flags, data, align))
    symbols = []
    for kind, link, data in ((h[1], h[6], s.data) for h, s in zip(headers, sections)):
        if kind == 2:
            for name, info, _, section, value, _ in struct.iter_unpack("<IBBHQQ", data):
                symbols.append(Symbol(text(link, name), info, section, value))
    for header, section in zip(headers, sections):
        if header[1] == 4:
            for offset, info, addend in struct.iter_unpack("<QQq", section.data):
                sections[header[7]].relocations[offset] = (info & 0xFFFFFFFF, symbols[info >> 32], addend)
    return sections, symbols


class Instruction:
    def __init__(self, at, data, mnemonic, operands):
        self.at, self.data, self.mnemonic, self.operands = at, data, mnemonic, operands
        self.end = at + len(data)


def disassemble(path):
    """The instructions of each code section, in order."""
    run = subprocess.run(["objdump", "-d", "-w", path], check=True, capture_output=True, text=True)
    code, current = {}, None
    for line in run.stdout.splitlines():
        if line.startswith("Disassembly of section "):
            current = code.setdefault(line[len("Disassembly of section "):-1], [])
            continue
        found = re.match(r"^ *([0-9a-f]+):\t((?:[0-9a-f]{2} )+) *(?:\t(.*))?$", line)
        if found:
            words = (found[3] or "").split()
            while words and words[0] in ("data16", "cs", "rep", "repz", "repnz", "lock", "bnd", "notrack"):
                words.pop(0)
            words = words or ["(bad)"]
            current.append(Instruction(int(found[1], 16), bytes.fromhex(found[2]), words[0], " ".join(words[1:])))
    return code


class Rewriter:
    def __init__(self, path):
        with open(path, "rb") as file:
            self.sections, self.symbols = read_elf(file.read())
        self.code = disassemble(path)
        self.edges = 0
        self.out = []

    def label(self, section, offset):
        return f".Lx{section}_{offset:x}"

    def reference(self, relocation, fix):
        """The relocation's S + A, as an expression. `fix` is where the label stands relative to that."""
        kind, symbol, addend = relocation
        if kind not in (PC32, PLT32):
            raise SystemExit(f"fuzz-edges: relocation of type {kind}")
        place = symbol.value + addend + fix
        if self.sections[symbol.section].code:
            if place != 0:
                raise SystemExit("fuzz-edges: a reference into the middle of a function")
            return f"{self.label(symbol.section, 0)} - {fix}"
        return f".Lx{symbol.section} + {symbol.value + addend}"

    def count_edge(self, flags_live):
        n = self.edges
        self.edges += 1
        count = f"addb $1, xcoff_edges+{n}(%rip); adcb $0, xcoff_edges+{n}(%rip)"
        if flags_live:
            # Below the stack pointer are 128 bytes that a function may use.
            count = f"leaq -128(%rsp), %rsp; pushfq; {count}; popfq; leaq 128(%rsp), %rsp"
        self.out.append(count)

    def flags_live(self, by_offset, order, at):
        """Whether the flags may still be read from here on."""
        for _ in range(200):
            instruction = by_offset.get(at)
            if instruction is None or READS_FLAGS.match(instruction.mnemonic):
                return True
            if WRITES_FLAGS.match(instruction.mnemonic) or instruction.mnemonic in ("call", "ret"):
                return False
            if instruction.mnemonic == "jmp":
                target = self.target(instruction)
                if target is None:
                    return True
                at = target
            else:
                at = instruction.end
        return True

    @staticmethod
    def target(instruction):
        found = re.match(r"^([0-9a-f]+) <", instruction.operands)
        return int(found[1], 16) if found else None

    def tables(self):
        """Where each jump table starts: what code refers to. And every place that a table leads to."""
        bases, targets = {}, {}
        for section in self.sections:
            if section.code:
                for offset, (_, symbol, addend) in section.relocations.items():
                    if symbol.section and not self.sections[symbol.section].code:
                        end = next(i.end for i in self.code[section.name] if i.at < offset < i.end)
                        bases.setdefault(symbol.section, set()).add(symbol.value + addend + end - offset)
        for section in self.sections:
            if not section.code:
                for offset, (kind, symbol, addend) in section.relocations.items():
                    if kind != PC32 or not self.sections[symbol.section].code:
                        raise SystemExit("fuzz-edges: data that refers to something else than code")
                    base = max(b for b in bases[section.index] if b <= offset)
                    section.relocations[offset] = (base, symbol.section, symbol.value + addend - (offset - base))
                    targets.setdefault(symbol.section, set()).add(symbol.value + addend - (offset - base))
        return targets

    def rewrite(self):
        targets = self.tables()
        for symbol in self.symbols:
            if symbol.bind == 1 and symbol.section:
                self.out.append(f".globl {symbol.name}")
        for section in self.sections:
            if section.code and section.data:
                self.function(section, targets.get(section.index, set()))
        for section in self.sections:
            if section.kind == 1 and section.flags & 2 and not section.code and section.data:
                self.data(section)
        self.out += [
            ".bss", ".globl xcoff_edges", ".p2align 6", "xcoff_edges:", f".skip {self.edges}",
            ".section .rodata", ".globl xcoff_edge_count", ".p2align 2", "xcoff_edge_count:", f".long {self.edges}",
            '.section .note.GNU-stack,"",@progbits',
        ]
        return "\n".join(self.out) + "\n"

    def function(self, section, table_targets):
        order = self.code[section.name]
        by_offset = {i.at: i for i in order}
        if sum(len(i.data) for i in order) != len(section.data):
            raise SystemExit(f"fuzz-edges: {section.name} is not disassembled whole")
        names = [s.name for s in self.symbols if s.section == section.index and s.kind == 2 and s.bind == 1]
        jumps = {self.target(i) for i in order if i.mnemonic == "jmp" or CONDITION.match(i.mnemonic)} - {None}
        away = []
        self.out += [".text", f".p2align {max(section.align, 16).bit_length() - 1}"]
        self.out += [f"{name}:" for name in names]
        for i in order:
            if i.at == 0 or i.at in jumps or i.at in table_targets:
                if i.at in table_targets and i.at not in (0,):
                    # Who falls or jumps to here is counted elsewhere.
                    self.out.append(f"jmp {self.label(section.index, i.at)}")
                    self.out.append(f"{self.label(section.index, i.at)}_t:")
                    self.count_edge(self.flags_live(by_offset, order, i.at))
                self.out.append(f"{self.label(section.index, i.at)}:")
                if i.at == 0:
                    self.count_edge(False)
            self.instruction(section, by_offset, order, i, away)
        for target, edge in away:
            self.out.append(f"{edge}:")
            self.count_edge(self.flags_live(by_offset, order, target))
            self.out.append(f"jmp {self.label(section.index, target)}")

    def instruction(self, section, by_offset, order, i, away):
        inside = [o for o in section.relocations if i.at <= o < i.end]
        target = self.target(i)
        if inside:
            offset, = inside
            relocation = section.relocations[offset]
            head, tail = i.data[:offset - i.at], i.data[offset - i.at + 4:]
            self.bytes(head)
            if relocation[1].section == 0:
                self.out.append(f".reloc ., R_X86_64_PLT32, {relocation[1].name} + {relocation[2]}; .long 0")
            else:
                self.out.append(f".long {self.reference(relocation, i.end - offset)} - .")
            self.bytes(tail)
        elif CONDITION.match(i.mnemonic):
            edge = f"{self.label(section.index, i.at)}_e"
            self.out.append(f"{i.mnemonic} {edge}")
            away.append((target, edge))
            self.count_edge(self.flags_live(by_offset, order, i.end))
        elif i.mnemonic == "jmp" and target is not None:
            self.out.append(f"jmp {self.label(section.index, target)}")
        elif target is not None or "%rip" in i.operands or i.mnemonic in ("(bad)", "loop", "jrcxz", "jecxz"):
            raise SystemExit(f"fuzz-edges: {section.name}+{i.at:x}: {i.mnemonic} {i.operands}")
        else:
            self.bytes(i.data)

    def bytes(self, data):
        if data:
            self.out.append(".byte " + ",".join(str(b) for b in data))

    def data(self, section):
        self.out += [".section .rodata", f".p2align {max(section.align, 1).bit_length() - 1}", f".Lx{section.index}:"]
        at = 0
        while at < len(section.data):
            if at in section.relocations:
                base, code, target = section.relocations[at]
                self.out.append(f".long {self.label(code, target)}_t - (.Lx{section.index} + {base})")
                at += 4
            else:
                self.bytes(section.data[at:at + 1])
                at += 1


if __name__ == "__main__":
    if len(sys.argv) != 2:
        raise SystemExit(__doc__)
    sys.stdout.write(Rewriter(sys.argv[1]).rewrite())
