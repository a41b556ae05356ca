#!/usr/bin/env python3
"""Vectors whose expected lines come from SIMH's simulator hp2100.

usage: make_vectors.py CRATE

Makes vectors from a fixed seed, runs each in hp2100 for one instruction, and writes them behind the
other lines of CRATE/stdin, with the lines that hp2100's registers and memory give behind the other
lines of CRATE/stdout. Lines that begin with 'simh ' are replaced. Prints how many vectors each
mnemonic has, and how many were left out by which rule. README.md says what is left out and why.
"""
import collections
import os
import random
import re
import subprocess
import sys
import tempfile

SEED = 1987
HEADER = '# Each line below is one instruction that SIMH\'s hp2100 carried out; tools/simh makes them.'

# A known difference between the paper and hp2100, by rule: no vector of it is kept.
RULES = {
    'DIV, O set': 'the paper keeps A and B; hp2100 makes them positive or truncates them',
    'count, bit 15': 'the paper moves only P; hp2100 counts without a sign',
    'A or B, bit 15': 'the paper puts back 0 in bit 15 after MVW and CMW; hp2100 keeps the bit',
    'DST at 1': 'the paper stores the starting B in word 2; hp2100 the changed one',
    'words 0 and 1': 'the paper replies 5 to a string or a byte there; hp2100 works on A and B',
    'cross at 0 and 1': 'words 0 and 1 of DATA1 are memory; for hp2100 they are A and B',
}
# Never made: the DATA2 codes, 101721 to 101723 and 105721 to 105723 (other instructions in hp2100);
# HLT, MIA, STC, CLC and every select code but 01 (a request to the host in the paper); words that
# are not built; endless chains; word three of a string instruction other than 0 (hp2100 takes it for
# a count that is left of an instruction cut short). The switches n stand in hp2100's S register as n
# times 256, and the lights are the low byte of S.

PAGES = [0, 1, 2, 3, 4, 5, 6, 31]       # logical pages in use; page 31 is physical page 7
VALUES = [0, 1, 2, 0o77777, 0o100000, 0o177777, 0o177776, 0o100001, 0o77776, 0o52525, 0o125252]
IN_USE = '2-15777,76000-77777'
NOT_IN_USE = '16000-75777'
INDIRECT = 0o100000


class Conflict(Exception):
    """Two parts of a vector want one place: it is made anew."""


class Vector:
    def __init__(self, rng, p=None):
        self.rng, self.name, self.rule = rng, '', None
        self.regs, self.mem, self.fixed = {}, {}, set()
        self.p = self.pick_p() if p is None else p

    def pick_p(self):
        special = [2, 0o1776, 0o1777, 0o2000, 0o3777, 0o7775, 0o77775, 0o77776, 0o77777]
        if self.rng.random() < 0.35:
            return self.rng.choice(special)
        return self.address()

    def address(self):
        """A logical address from 2 on, often at the end of a page."""
        page = self.rng.choice(PAGES)
        offset = self.rng.choice([0, 1, 0o1776, 0o1777] + [self.rng.randrange(1024)] * 6)
        address = page * 1024 + offset
        return address if address > 1 else self.address()

    def value(self):
        return self.rng.choice(VALUES) if self.rng.random() < 0.5 else self.rng.randrange(65536)

    def put(self, address, value):
        """A word of the Execute map, A and B among them. A word can be given once."""
        if address in self.fixed or address // 1024 not in PAGES:
            raise Conflict
        self.fixed.add(address)
        if address < 2:
            self.regs['AB'[address]] = value
        else:
            self.mem[address] = value

    def get(self, address):
        if address < 2:
            return self.regs.get('AB'[address], 0)
        return self.mem.get(address, 0)

    def reg(self, name, value):
        if name in 'AB':
            self.put('AB'.index(name), value)
        else:
            self.regs[name] = value

    def fill(self):
        """What is still open of the registers, at random."""
        for name in 'ABXY':
            if name in 'AB':
                if 'AB'.index(name) not in self.fixed:
                    self.regs.setdefault(name, self.value())
            else:
                self.regs.setdefault(name, self.value())
        for name in 'EO':
            self.regs.setdefault(name, self.rng.randrange(2))

    def target(self, registers=0.15):
        """Where an operand is: now and then A or B."""
        if self.rng.random() < registers:
            return self.rng.randrange(2)
        return self.address()

    def chain(self, end):
        """The first word of a chain to `end`, and the address that starts it; 0 levels is direct."""
        levels = self.rng.choice([0, 0, 0, 1, 1, 2, 3, 7])
        if levels == 0:
            return end
        places = []
        while len(places) < levels:
            place = self.rng.randrange(2) if self.rng.random() < 0.06 else self.address()
            if place in self.fixed or place in places or place == end:
                raise Conflict
            places.append(place)
        for at, following in zip(places, places[1:]):
            self.put(at, following | INDIRECT)
        self.put(places[-1], end)
        return places[0] | INDIRECT

    def word(self, n):
        return (self.p + n) % 32768


def operand(v, end, value):
    """The operand's value, unless the end is a word that is given already."""
    if end not in v.fixed:
        v.put(end, value)


# Memory reference

MEMORY = {'AND': 2, 'JSB': 3, 'XOR': 4, 'JMP': 5, 'IOR': 6, 'ISZ': 7, 'ADA': 8, 'ADB': 9, 'CPA': 10,
          'CPB': 11, 'LDA': 12, 'LDB': 13, 'STA': 14, 'STB': 15}


def memory_reference(rng, name):
    v = Vector(rng)
    current = rng.random() < 0.5
    indirect = rng.random() < 0.45
    base = v.p // 1024 * 1024 if current else 0
    offset = rng.choice([0, 1, 2, 0o1776, 0o1777] + [rng.randrange(1024)] * 6)
    first = base + offset
    code = MEMORY[name] * 0o4000 + current * 0o2000 + offset
    end = first
    v.put(v.p, code + (INDIRECT if indirect else 0))
    if indirect:
        end = v.target()
        following = v.chain(end)
        v.put(first, following)
    if name == 'ISZ':
        operand(v, end, rng.choice([0o177777, 0o177777, v.value()]))
    elif name in ('CPA', 'CPB'):
        operand(v, end, v.value())
        if rng.random() < 0.5 and 'AB'.index(name[2]) not in v.fixed:
            v.reg(name[2], v.get(end))
    elif name not in ('JMP', 'JSB', 'STA', 'STB'):
        operand(v, end, v.value())
    v.name = name + (',I' if indirect else '') + (' C' if current else ' Z')
    v.mnemonics = [name]
    return v


# Shift/rotate and alter/skip

def shift_name(code, b):
    g = 'AB'[b]
    return [g + 'LS', g + 'RS', 'R' + g + 'L', 'R' + g + 'R', g + 'LR', 'ER' + g, 'EL' + g, g + 'LF'][code]


def one_word(rng, code, name, mnemonics, **regs):
    v = Vector(rng)
    v.put(v.p, code)
    for r, value in regs.items():
        v.reg(r, value)
    v.name, v.mnemonics = name, mnemonics
    return v


def shift_rotate(rng, b, first=None, second=None, cle=False, skip=False, off1=None, off2=None):
    code = b * 0o4000 + cle * 0o40 + skip * 0o10
    parts, mnemonics = [], []
    if first is not None:
        code |= 0o1000 | first << 6
        parts.append(shift_name(first, b))
    elif off1 is not None:
        code |= off1 << 6
        parts.append('(%s)' % shift_name(off1, b))
    if cle:
        parts.append('CLE')
    if skip:
        parts.append('SL' + 'AB'[b])
    if second is not None:
        code |= 0o20 | second
        parts.append(shift_name(second, b))
    elif off2 is not None:
        code |= off2
        parts.append('(%s)' % shift_name(off2, b))
    mnemonics = [x for x in parts] or ['NOP']
    return one_word(rng, code, ','.join(parts) or 'NOP', mnemonics)


def random_shift(rng, b):
    pick = lambda: rng.randrange(8) if rng.random() < 0.6 else None
    off = lambda: rng.randrange(8) if rng.random() < 0.5 else None
    return shift_rotate(rng, b, pick(), pick(), rng.random() < 0.4, rng.random() < 0.5, off(), off())


def alter_skip(rng, b, bits):
    g = 'AB'[b]
    parts = []
    for name, mask, value in (('CL' + g, 0o1400, 0o400), ('CM' + g, 0o1400, 0o1000), ('CC' + g, 0o1400, 0o1400),
                              ('SEZ', 0o40, 0o40), ('CLE', 0o300, 0o100), ('CME', 0o300, 0o200),
                              ('CCE', 0o300, 0o300), ('SS' + g, 0o20, 0o20), ('SL' + g, 0o10, 0o10),
                              ('IN' + g, 4, 4), ('SZ' + g, 2, 2), ('RSS', 1, 1)):
        if bits & mask == value:
            parts.append(name)
    name = ','.join(parts) or 'no action'
    regs = {}
    if bits & 4 and rng.random() < 0.5:
        regs[g] = rng.choice([0o77777, 0o177777, 0, 0o100000])
    return one_word(rng, 0o2000 + b * 0o4000 + bits, name, parts, **regs)


# Extended arithmetic

LONG = {'ASL': 0o100020, 'LSL': 0o100040, 'RRL': 0o100100, 'ASR': 0o101020, 'LSR': 0o101040, 'RRR': 0o101100}


def long_shift(rng, name, n):
    return one_word(rng, LONG[name] + n % 16, '%s %d' % (name, n), [name])


def with_address(rng, name, code, end=None, registers=0.15):
    """A word and an address word, and where its chain ends."""
    v = Vector(rng)
    v.put(v.p, code)
    end = v.target(registers) if end is None else end
    v.put(v.word(1), 0)
    v.fixed.discard(v.word(1))
    following = v.chain(end)
    v.put(v.word(1), following)
    v.name, v.mnemonics = name, [name]
    return v, end


def multiply(rng):
    v, end = with_address(rng, 'MPY', 0o100200)
    operand(v, end, v.value())
    return v


def signed(w, bits=16):
    return w - (1 << bits) if w >> (bits - 1) else w


def divide(rng):
    v, end = with_address(rng, 'DIV', 0o100400)
    operand(v, end, v.value())
    if rng.random() < 0.85 and not v.fixed & {0, 1}:
        divisor = signed(v.get(end))
        quotient = signed(v.value())
        rest = rng.randrange(abs(divisor)) if divisor else 0
        dividend = divisor * quotient
        dividend += rest if dividend >= 0 else -rest
        v.reg('B', dividend >> 16 & 0o177777)
        v.reg('A', dividend & 0o177777)
    return v


def double(rng, name, code):
    v, end = with_address(rng, name, code, registers=0.3)
    if (end + 1) % 32768 // 1024 not in PAGES:
        raise Conflict
    if name == 'DLD':
        operand(v, end, v.value())
        operand(v, (end + 1) % 32768, v.value())
    elif end == 1:
        v.rule = 'DST at 1'
    return v


# Index instructions

def indexed(rng, g, i, store):
    name = ('S' if store else 'L') + g + i
    code = (0o101740 if g == 'A' else 0o105740) + (0 if store else 2) + (0o10 if i == 'Y' else 0)
    v = Vector(rng)
    v.put(v.p, code)
    end, index = v.target(0.1), v.value()
    v.reg(i, index)
    v.put(v.word(1), v.chain((end - index) % 32768))
    if not store:
        operand(v, end, v.value())
    v.name, v.mnemonics = name, [name]
    return v


def index_memory(rng, name, code):
    v, end = with_address(rng, name, code)
    if name[0] != 'S':
        operand(v, end, v.value())
    return v


def index_alone(rng, name, code, i=None):
    regs = {}
    if i is not None and rng.random() < 0.7:
        regs[i] = rng.choice([0o177777, 0, 1, 0o77777, 0o100000])
    return one_word(rng, code, name, [name], **regs)


# Bytes, words, bits

def byte_at(v, byte, value):
    address = byte // 2
    old = v.mem.get(address, 0)
    v.mem[address] = old & 0o377 | value << 8 if byte % 2 == 0 else old & 0o177400 | value


def load_byte(rng, name, code):
    v = Vector(rng)
    v.put(v.p, code)
    byte = v.address() * 2 + rng.randrange(2) if rng.random() < 0.9 else rng.randrange(4)
    if byte < 4:
        v.rule = 'words 0 and 1'
    v.reg('B', byte)
    operand(v, byte // 2, v.value())
    v.name, v.mnemonics = name, [name]
    return v


def string(rng, name, code, wide, compare):
    v = Vector(rng)
    v.put(v.p, code)
    v.put(v.word(2), 0)
    count = rng.choice([0, 1, 1, 2, 3, 5, 8, 17])
    if rng.random() < 0.05:
        count |= INDIRECT
        v.rule = 'count, bit 15'
    end = v.address()
    v.put(v.word(1), v.chain(end))
    operand(v, end, count)
    count = v.get(end)
    if count > 40 and v.rule is None:
        raise Conflict
    n = count % 32768
    unit = 1 if wide else 2
    a = v.address() * unit + (0 if wide else rng.randrange(2))
    b = v.address() * unit + (0 if wide else rng.randrange(2))
    if rng.random() < 0.3:
        b = a + rng.choice([1, 2, -1])
    if rng.random() < 0.06:
        a = rng.randrange(2 * unit)
    ranges = [range(start, start + n) for start in (a, b)]
    for r in ranges:
        if r.start < 0 or r.stop > 32768 * unit:
            raise Conflict
        for x in r:
            if x // unit // 1024 not in PAGES or x // unit in v.fixed:
                raise Conflict
        if n and r.start < 2 * unit:
            v.rule = v.rule or 'words 0 and 1'
    if compare and rng.random() < 0.8:
        strings(v, a, b, n, wide)
    else:
        for r in ranges:
            for x in r:
                if x >= 2 * unit:
                    v.mem[x // unit] = v.value()
    if wide and rng.random() < 0.06:
        a |= INDIRECT
        v.rule = v.rule or 'A or B, bit 15'
    if {0, 1} & v.fixed:
        raise Conflict
    v.reg('A', a)
    v.reg('B', b)
    v.name, v.mnemonics = name, [name]
    return v


def strings(v, a, b, n, wide):
    """Two equal strings, or two that differ in one place."""
    for k in range(n):
        value = v.value()
        for start in (a, b):
            if wide:
                v.mem[start + k] = value
            else:
                byte_at(v, start + k, value & 0o377)
    if n and v.rng.random() < 0.7:
        k = v.rng.choice([0, n - 1, v.rng.randrange(n)])
        if wide:
            v.mem[b + k] = v.value()
        else:
            byte_at(v, b + k, v.value() & 0o377)


def bits(rng, name, code):
    v = Vector(rng)
    v.put(v.p, code)
    mask, target = v.target(), v.target()
    if mask == target:
        raise Conflict
    v.put(v.word(1), v.chain(mask))
    v.put(v.word(2), v.chain(target))
    operand(v, mask, v.value())
    operand(v, target, v.value())
    if name == 'TBS' and rng.random() < 0.4 and target not in (v.p, v.word(1), v.word(2)):
        value = v.get(mask) | v.get(target)
        if target < 2:
            v.regs['AB'[target]] = value
        else:
            v.mem[target] = value
    v.name, v.mnemonics = name, [name]
    return v


def cross(rng, name, code):
    v, end = with_address(rng, name, code, registers=0.05)
    if end < 2:
        v.rule = 'cross at 0 and 1'
    if name[1] != 'S':
        operand(v, end, v.value())
    if name[1] == 'C' and rng.random() < 0.5 and 'AB'.index(name[2]) not in v.fixed:
        v.reg(name[2], v.get(end))
    return v


def select_code(rng, name, code, spare):
    """Select code 01; `spare` are bits that the paper ignores for the code."""
    v = one_word(rng, code | rng.choice([0, spare]), name, [name])
    v.reg('S', rng.choice([0, 1, 0o200, 0o377, rng.randrange(256)]))
    return v


def makers():
    """Each maker with how many vectors of it are wanted."""
    for name in MEMORY:
        yield lambda r, n=name: memory_reference(r, n), 24
    for b in (0, 1):
        for code in range(8):
            yield lambda r, b=b, c=code: shift_rotate(r, b, first=c), 6
            yield lambda r, b=b, c=code: shift_rotate(r, b, second=c), 6
        for code in (5, 6):
            yield lambda r, b=b, c=code: shift_rotate(r, b, off1=c), 6
            yield lambda r, b=b, c=code: shift_rotate(r, b, off2=c), 6
        yield lambda r, b=b: shift_rotate(r, b, skip=True), 10
        yield lambda r, b=b: shift_rotate(r, b, cle=True), 6
        yield lambda r, b=b: random_shift(r, b), 60
    yield lambda r: shift_rotate(r, 0), 10
    for b in (0, 1):
        for single in (0o400, 0o1000, 0o1400, 0o40, 0o100, 0o200, 0o300, 0o20, 0o10, 4, 2, 1,
                       0o41, 0o21, 0o11, 3, 0o30, 0o31):
            yield lambda r, b=b, s=single: alter_skip(r, b, s), 5
        yield lambda r, b=b: alter_skip(r, b, r.randrange(1024)), 90
    for name in LONG:
        for n in range(1, 17):
            yield lambda r, m=name, n=n: long_shift(r, m, n), 2
    yield multiply, 24
    yield divide, 30
    yield lambda r: double(r, 'DLD', 0o104200), 24
    yield lambda r: double(r, 'DST', 0o104400), 24
    for g in 'AB':
        for i in 'XY':
            code = (0o101740 if g == 'A' else 0o105740) + (0o10 if i == 'Y' else 0)
            yield lambda r, g=g, i=i: indexed(r, g, i, True), 12
            yield lambda r, g=g, i=i: indexed(r, g, i, False), 12
            yield lambda r, n='C' + g + i, c=code + 1: index_alone(r, n, c), 10
            yield lambda r, n='C' + i + g, c=code + 4: index_alone(r, n, c), 10
            yield lambda r, n='X' + g + i, c=code + 7: index_alone(r, n, c), 10
    for i, plus in (('X', 0), ('Y', 0o10)):
        yield lambda r, n='ST' + i, c=0o105743 + plus: index_memory(r, n, c), 12
        yield lambda r, n='LD' + i, c=0o105745 + plus: index_memory(r, n, c), 12
        yield lambda r, n='AD' + i, c=0o105746 + plus: index_memory(r, n, c), 16
        yield lambda r, i=i, c=0o105760 + plus: index_alone(r, 'IS' + i, c, i), 10
        yield lambda r, i=i, c=0o105761 + plus: index_alone(r, 'DS' + i, c, i), 10
    yield lambda r: load_byte(r, 'LBT', 0o105763), 16
    yield lambda r: load_byte(r, 'SBT', 0o105764), 16
    yield lambda r: string(r, 'MBT', 0o105765, False, False), 24
    yield lambda r: string(r, 'CBT', 0o105766, False, True), 30
    yield lambda r: string(r, 'CMW', 0o105776, True, True), 30
    yield lambda r: string(r, 'MVW', 0o105777, True, False), 24
    for name, code in (('SBS', 0o105773), ('CBS', 0o105774), ('TBS', 0o105775)):
        yield lambda r, n=name, c=code: bits(r, n, c), 18
    for g, plus in (('A', 0), ('B', 0o4000)):
        yield lambda r, n='XL%s1' % g, c=0o101724 + plus: cross(r, n, c), 12
        yield lambda r, n='XS%s1' % g, c=0o101725 + plus: cross(r, n, c), 12
        yield lambda r, n='XC%s1' % g, c=0o101726 + plus: cross(r, n, c), 12
        yield lambda r, n='OT%s 01' % g, c=0o102601 + plus: select_code(r, n, c, 0), 10
        yield lambda r, n='LI%s 01' % g, c=0o102501 + plus: select_code(r, n, c, 0), 10
    for name, code in (('STF 01', 0o102101), ('CLF 01', 0o103101), ('SFC 01', 0o102201),
                       ('SFC 01,C', 0o103201), ('SFS 01', 0o102301), ('SFS 01,C', 0o103301)):
        yield lambda r, n=name, c=code: select_code(r, n, c, 0o4000), 10


def make(rng):
    """The vectors in order, and how many were left out by which rule."""
    made, left_out, seen = [], collections.Counter(), set()
    for maker, wanted in makers():
        kept = tries = 0
        while kept < wanted:
            tries += 1
            if tries > 4000:
                raise SystemExit('no vector of %s' % (made[-1].name if made else 'the first kind'))
            try:
                v = maker(rng)
                v.fill()
            except Conflict:
                continue
            if v.rule:
                left_out[v.rule] += 1
                continue
            text = body(v)
            if text in seen:
                if tries > 200:
                    break
                continue
            seen.add(text)
            made.append(v)
            kept += 1
    return made, left_out


# hp2100

def commands(vectors):
    yield 'set cpu 1000-E'
    yield 'set cpu 32K'
    yield 'd indmax 100'
    for v in vectors:
        yield 'd %s 0' % IN_USE
        yield 'd p %o' % v.p
        for name in 'ABXYEO':
            yield 'd %s %o' % (name.lower(), v.regs[name])
        yield 'd s %o' % (v.regs.get('S', 0) * 256)
        for address, value in sorted(v.mem.items()):
            yield 'd %o %o' % (address, value)
        yield 'step'
        yield 'ex p,a,b,x,y,e,o,s'
        yield 'ex -o !=0 %s' % IN_USE
    yield 'ex -o !=0 %s' % NOT_IN_USE
    yield 'quit'


def simulate(vectors):
    """For each vector hp2100's message, its registers and its words that are not 0."""
    with tempfile.NamedTemporaryFile('w', suffix='.sim', delete=False) as f:
        f.write('\n'.join(commands(vectors)) + '\n')
    out = subprocess.run(['hp2100', f.name], stdin=subprocess.DEVNULL, capture_output=True, text=True).stdout
    os.unlink(f.name)
    results = []
    for line in out.split('\n'):
        message = re.match(r'(.+), P: [0-7]+ \(', line)
        if message:
            results.append((message.group(1), {}, {}))
            continue
        field = re.match(r'([A-Z]):\t([0-7]+)$', line)
        if field and results:
            results[-1][1][field.group(1)] = int(field.group(2), 8)
        word = re.match(r'([0-7]+):\t([0-7]+)$', line)
        if word and results:
            results[-1][2][int(word.group(1), 8)] = int(word.group(2), 8)
    if len(results) != len(vectors):
        raise SystemExit('hp2100 answered %d of %d vectors' % (len(results), len(vectors)))
    return results


# Lines

def physical(address):
    page = address // 1024
    if page not in PAGES:
        raise SystemExit('a word outside the pages in use')
    return PAGES.index(page) * 1024 + address % 1024


def body(v):
    parts = []
    for name, value in (('A', v.regs['A']), ('B', v.regs['B']), ('X', v.regs['X']), ('Y', v.regs['Y']),
                        ('P', v.p), ('E', v.regs['E']), ('O', v.regs['O']), ('SWIT', v.regs.get('S', 0))):
        if value != (2 if name == 'P' else 0):
            parts.append('%s %o' % (name, value))
    words = sorted((physical(address), value) for address, value in v.mem.items())
    expected = None
    for address, value in words:
        if address != expected:
            parts.append('MEM %o' % address)
        parts.append('%o' % value)
        expected = address + 1
    parts.append('MAP 37 7')
    return ' '.join(parts) + ' STEP'


def expected_line(v, regs, words):
    line = ' 0 %06o %06o %06o %06o %06o %o %o' % tuple(regs[n] for n in 'PABXYEO')
    line += ' 000000 000000 000000 000000 000000 %06o |' % (regs['S'] & 0o377)
    changed = []
    for address in set(words) | set(v.mem):
        now = words.get(address, 0)
        if now != v.mem.get(address, 0):
            changed.append((physical(address), now))
    return line + ''.join(' %06o=%06o' % change for change in sorted(changed))


def kept_lines(path):
    with open(path, encoding='utf-8') as f:
        lines = f.read().split('\n')
    if lines and lines[-1] == '':
        lines.pop()
    return [x for x in lines if not x.startswith('simh ') and x != HEADER]


def main():
    crate = sys.argv[1]
    vectors, left_out = make(random.Random(SEED))
    given, expected, count = [], [], collections.Counter()
    for v, (message, regs, words) in zip(vectors, simulate(vectors)):
        if message != 'Step expired':
            raise SystemExit('%s: hp2100 says %s: %s' % (v.name, message, body(v)))
        if v.name == 'DIV' and regs['O'] == 1:
            left_out['DIV, O set'] += 1
            continue
        count.update(v.mnemonics)
        name = 'simh %s %d:' % (v.name, len(given) + 1)
        given.append('%s %s' % (name, body(v)))
        expected.append(name + expected_line(v, regs, words))
    for path, new in (('stdin', [HEADER] + given), ('stdout', expected)):
        path = os.path.join(crate, path)
        lines = kept_lines(path) + new
        with open(path, 'w', encoding='utf-8') as f:
            f.write('\n'.join(lines) + '\n')
    print('%d vectors' % len(given))
    for name, n in sorted(count.items()):
        print('%4d %s' % (n, name))
    print('left out')
    for name, why in RULES.items():
        print('%4d %s: %s' % (left_out[name], name, why))


main()
