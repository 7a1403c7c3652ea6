"""Random scripts of the events of documents 01 and 02, the same for the same seed: mostly sensible arguments, some out of range.

A script is made for a chip of 55 or 240 lines, or for the Cortex-M0, and may be run on any, whatever it keeps of a priority byte and
whichever guard it has. Those for 55 lines that keep no proviso, have no deep nest and are not about the memory guard, regions of blocks,
priorities near each other, lost pulses or idle time stay what they are, so that measurements can be compared. Counts of lost pulses (kind
12) are asked for only in the scripts about these and in those for the Cortex-M0, and time is skipped (kind 13) only in those about idle
time and in those for the Cortex-M0. Scripts about priorities, pulses or idle time name no register of the guard and ask for no verdict.
"""
import random

SWTRIG = 0xE000EF00
STCTRL, STRELOAD, STCURRENT, INTCTRL = 0xE000E010, 0xE000E014, 0xE000E018, 0xE000ED04
LINKS = [0xFFFFFFF1, 0xFFFFFFF9, 0xFFFFFFFD, 0xFFFFFFE9]
FAULTS = [0, 1, 8, 9, 16, 17, 18, 19, 24, 25, 2, 31, 40]
BANKS = (0xE000E100, 0xE000E180, 0xE000E200, 0xE000E280, 0xE000E300)
KINDS = {  # the rarer the NMI, the more of the lines is seen
    55: [1, 2, 2, 2, 3, 3, 3, 4, 5, 5, 6, 7, 8, 9, 9, 9, 10, 10, 11, 11],
    240: [1, 2, 2, 2, 3, 3, 3, 5, 6, 7, 8, 9, 9, 9, 10, 10, 10, 11] * 4 + [4],
}
EDGES = {55: [55], 240: [54, 55, 239, 240, 255, 256]}  # lines at the chips' ends, and past them
PAST = [54, 55, 239, 240, 255, 256, 0xFFFFFFFF]  # the same, whatever the chip
GUARD = range(0xE000ED90, 0xE000EDCC, 4)  # the registers of the newer guard, with EDBC and EDC8, which are none
PLACES = [0x20000000] * 4 + [0, 0x40000000, 0x60000000, 0xA0000000, 0xE0000000, 0xE0100000]  # regions of blocks lie around them

# The words of the Cortex-M0's registers, and words that it lacks: registers of the other chips, words beside its own, its own elsewhere.
M0_BYTES = [*range(0xE000E400, 0xE000E420, 4), 0xE000ED1C, 0xE000ED20]
M0_WORDS = [STCTRL, STRELOAD, STCURRENT, *BANKS[:4], *M0_BYTES, 0xE000ED00, INTCTRL, 0xE000ED0C, 0xE000ED10, 0xE000ED14]
NOT_M0 = [BANKS[4], 0xE000E004, 0xE000ED08, 0xE000ED18, *range(0xE000ED24, 0xE000ED3C, 4), SWTRIG] * 2
NOT_M0 += [*GUARD, *(b + 4 for b in BANKS), 0xE000E000, 0xE000E00C, 0xE000E01C, 0xE000E0FC, 0xE000E3FC, 0xE000E420, 0xE000E434, 0xE000E4EC]
NOT_M0 += [0xE000ECFC, 0xE000ED3C, 0xE000EEFC, 0xE000EF04, 0x20000000, 0xE010, 0xED04, 0x4000E100, 0xE001E400, 0xE000FD1C]

# What E4's proviso leaves out, first and last byte. The word at E434 reaches into the last of them.
NOT_OLD = [(0xE000E004, 0xE000E004), *((b + 4, b + 0x1F) for b in BANKS), (0xE000E437, 0xE000E4EF), (0xE000ED08, 0xE000ED08)]


def addresses(lines):
    """Words of registers; of the banks and of the priority bytes also the first word past the end."""
    often = lines // 55  # else the many words of the larger chip would crowd the others out
    return (
        [0xE000E004, 0xE000E010, 0xE000E014, 0xE000E018, 0xE000ED00, 0xE000ED04, 0xE000ED08, 0xE000ED0C, 0xE000ED10, 0xE000ED14] * often
        + [b + 4 * k for b in BANKS for k in range((lines + 31) // 32 + 1)]
        + [0xE000E400 + 4 * k for k in range((lines + 3) // 4 + 1)]
        + [0xE000ED18, 0xE000ED1C, 0xE000ED20, 0xE000ED24, 0xE000ED28, 0xE000ED2C, 0xE000ED30, 0xE000ED34, 0xE000ED38] * often
        + [0xE000ED90 + 4 * k for k in range(12)] * often
        + [SWTRIG] * often**2
        + [0x20000000] * often
    )


ADDRESSES = {lines: addresses(lines) for lines in EDGES}


def number(n):
    out = bytearray()
    while n >= 128:
        out.append(n % 128 + 128)
        n //= 128
    out.append(n)
    return bytes(out)


def word(r):
    return r.choice([r.getrandbits(32), 1 << r.randrange(32), r.randrange(256), 0x05FA0000 | r.randrange(8) << 8, 0xFFFFFFFF, 0x300003F])


def value(r, lines, address):
    if lines > 55 and address == SWTRIG:
        return r.choice([r.randrange(512), r.randrange(512), 512 + r.randrange(lines), 54, 55, 239, 240, 511, 512, word(r)])
    return word(r)


def event(r, lines):
    kind = r.choice(KINDS[lines])
    if kind == 1:
        width, address = r.choice([4, 4, 4, 1, 2, 3]), r.choice(ADDRESSES[lines])
        return [kind, width, address + (r.randrange(4) if width == 1 else 0)]
    if kind == 2:
        width, address = r.choice([4, 4, 4, 1]), r.choice(ADDRESSES[lines])
        return [kind, width, address + (r.randrange(4) if width == 1 else 0), value(r, lines, address)]
    if kind == 3:
        edges = EDGES[lines]
        return [kind, r.choice([*(r.randrange(lines) for _ in edges), r.randrange(4), *edges]), r.choice([0, 1, 1, 2])]
    if kind == 6:
        return [kind, r.choice(FAULTS), r.getrandbits(32)]
    if kind == 8:
        return [kind, r.choice([0, 1, 2, 3, 4, 5]), r.choice([0, 1, 2, 3, r.randrange(256)])]
    if kind == 10:
        return [kind, r.choice(LINKS)]
    if kind == 11:
        return [kind, r.choice([0, 1, 2, 3]), r.choice([1, 2, 4]), r.getrandbits(32) & ~3]
    return [kind]


def shown(width, address, value):
    """The read that shows what a write did; of SWTRIG the pending flags around the line that bits 7:0 name."""
    return [1, 4, 0xE000E200 + 4 * (value % 256 // 32)] if address == SWTRIG else [1, width, address]


def nest(r, lines):
    """Events that nest many exceptions, often all: each comes at the highest priority and is put at the lowest once it is entered."""
    yield [2, 4, 0xE000ED24, 0x70000]
    for k in range((lines + 31) // 32):
        yield [2, 4, 0xE000E100 + 4 * k, 0xFFFFFFFF]
    arrivals = [([3, line, 1], 0xE000E400 + line) for line in range(lines)]
    arrivals += [([6, 0, 0], 0xE000ED18), ([6, 8, 0], 0xE000ED19), ([6, 16, 0], 0xE000ED1A), ([7], 0xE000ED1F)]
    arrivals += [([2, 4, 0xE000ED04, 1 << 28], 0xE000ED22), ([2, 4, 0xE000ED04, 1 << 26], 0xE000ED23)]
    for arrival, byte in r.sample(arrivals, r.choice([len(arrivals), r.randrange(len(arrivals))])):
        yield from ([2, 1, byte, 0], arrival, [9], [2, 1, byte, 0xE0])
    if r.randrange(2):
        yield from ([6, 0, 0], [9], [4], [9])  # where MemManage is active, its fault goes to HardFault


def access(r):
    kind, block = r.choice([0, 1, 1, 2]), r.choice([0x20000000, 0x20000000, 0x20000000, 0x40000000, 0xA0000000, 0xE0000000])
    return [11, kind, 2 if kind == 2 else r.choice([1, 2, 4]), block + r.randrange(0, 0x800, 4)]


def region(r, n):
    """Region n, over the same few addresses as the others: any AP, some with eighths off or bit 28 set, few disabled."""
    size, off = r.choice([5, 7, 8, 9, 10, 31]), r.choice([0, 0, r.randrange(256)])
    yield [2, 4, 0xE000ED9C, 0x20000000 + r.randrange(0, 0x800, 0x20) | 0x10 | n]
    yield [2, 4, 0xE000EDA0, r.choice([0, 0, 1]) << 28 | r.randrange(8) << 24 | off << 8 | size << 1 | r.choice([1, 1, 1, 0])]


def guarded(r):
    """Verdicts where regions decide, over and over: in thread mode by the privileged, then by the others, then in a handler or NMI."""
    while True:
        for n in r.sample(range(8), r.choice([1, 2, 8])):
            yield from region(r, n)
        yield [2, 4, 0xE000ED94, r.choice([1, 1, 3, 5, 7, 0])]
        yield from (access(r) for _ in range(8))
        yield [8, 4, 1]
        yield from (access(r) for _ in range(8))
        yield from (r.choice([[7], [7], [4]]), [9], [8, 4, 0])
        yield from (access(r) for _ in range(4))
        yield [10, 0xFFFFFFF9]


def block(r, place):
    """The address of one of six blocks around the place, seldom of the first or the last of all."""
    return r.choice([*(place + 32 * r.randrange(-3, 3) for _ in range(8)), 0, -32]) % 2**32


def first_word(r, place):
    """A region's first block with any rights, few without fetch. Bits 4:3 mean nothing; with the old guard bit 4 selects a region."""
    return block(r, place) | r.choice([0, 0, 8, 16, 24]) | r.randrange(4) << 1 | r.choice([0, 0, 1])


def last_word(r, place):
    """A region's last block, which may be before the first, most enabled. Bit 4 is not kept, bits 3:1 mean nothing."""
    return block(r, place) | r.choice([0, 0, r.randrange(16)]) << 1 | r.choice([1, 1, 1, 0])


def by_pairs(r, place):
    """A number is selected, at times one that there is not; then some of the four pairs are written, of a few only one of the words."""
    yield [2, 4, 0xE000ED98, r.choice([*range(8), *range(8), 8, 0x100 | r.randrange(8), word(r)])]
    for pair in r.sample(range(4), r.choice([1, 1, 2, 4])):
        words = [[2, 4, 0xE000ED9C + 8 * pair, first_word(r, place)], [2, 4, 0xE000EDA0 + 8 * pair, last_word(r, place)]]
        yield from r.choice([words, words, words, words[:1], words[1:]])


def at_guard(r):
    """A register of the guard is read, or one that holds no region is written; at times no whole word or no register, which is refused."""
    plain, narrow = r.choice([0xE000EDC0, 0xE000EDC4]), [r.choice([1, 2]), r.choice(GUARD) + r.randrange(4)]
    read, write = [1, 4, r.choice(GUARD)], [2, 4, r.choice([plain] * 3 + [0xE000ED90, 0xE000EDBC, 0xE000EDC8]), word(r)]
    return r.choice([read, read, read, write, write, r.choice([[1, *narrow], [2, *narrow, word(r)]])])


def at_edge(r, place):
    """An access where a block near the place ends or begins, or inside it; seldom elsewhere, unaligned, or of a wrong kind or width."""
    kind = r.choice([0, 0, 1, 1, 2, 2] * 4 + [3])
    width = r.choice([2] * 20 + [1, 4] if kind == 2 else [1, 2, 4] * 10 + [3])
    edge = r.choice([place] * 8 + PLACES) + 32 * r.randrange(-4, 5)
    inside = r.choice([-width, -width, 0, 0, r.randrange(0, 32, width), r.randrange(0, 32, width), r.choice([-1, 1])])
    return [11, kind, width, (edge + inside) % 2**32]


def modes(r):
    """Ways from privileged thread mode and back to it: none, unprivileged, into a handler, NMI or HardFault, under FAULTMASK or PRIMASK."""
    control, back = [8, 4, r.randrange(2)], [[8, 4, 0], [10, 0xFFFFFFF9]]
    return [
        ([], []),
        ([[8, 4, 1]], [[7], [9], *back]),
        ([control, [7], [9]], back),
        ([control, [4], [9]], back),
        ([control, [6, 0, 0], [9]], back),
        ([[8, 1, 1], control], [[4], [9], [8, 1, 0], *back]),
        ([[8, 0, 1], control], [[4], [9], [8, 0, 0], *back]),
    ]


def covered(r):
    """Verdicts on regions of blocks near each other, over and over, in other modes each time; then registers of the guard, often all."""
    while True:
        place = r.choice(PLACES)
        for _ in range(r.choice([1, 2, 2, 4])):
            yield from by_pairs(r, place)
        yield [2, 4, 0xE000ED94, r.choice([1, 1, 3, 5, 5, 7, r.randrange(8), r.randrange(8)])]
        for there, back in r.sample(modes(r), 3):
            yield from there
            yield from (at_edge(r, place) for _ in range(r.randrange(4, 12)))
            yield from r.choice([[], [], [at_guard(r)]])
            yield from back
        yield from (at_guard(r) for _ in range(r.randrange(4)))
        if r.randrange(2):
            yield from ([2, 4, 0xE000ED98, r.randrange(8)], *([1, 4, address] for address in GUARD))


def near(r, byte):
    """The byte, or more often one with another bit: whether that bit counts is up to the bits kept and the group setting."""
    return byte ^ r.choice([0, 1, 2, 4, 8, 16, 32, 64])


def four(r, byte):
    """A word of bytes near this one. A single byte is written from its lowest."""
    return sum(near(r, byte) << 8 * k for k in range(4))


def grouping(r):
    return [2, 4, 0xE000ED0C, 0x05FA0000 | r.choice([0, *range(8)]) << 8]


def masking(r, byte):
    """BASEPRI, often BASEPRI_MAX upon it: near the byte, near 0, 0, or with bits above a byte."""
    first = [8, 2, r.choice([near(r, byte), near(r, byte), four(r, byte)])]
    then = [8, 3, r.choice([near(r, byte), near(r, 0), near(r, 0), four(r, byte)])]
    return r.choice([[first], [first, then], [first, then], [[8, 2, 0], then], [[8, 2, 0]]])


def showing(r, byte, first):
    """Priority bytes read, or written and then often read."""
    width, address = r.choice([1, 4]), r.choice([0xE000E400 + first, 0xE000ED18, 0xE000ED1C, 0xE000ED20])
    place = [width, address + (r.randrange(4) if width == 1 else 0)]
    read, write = [1, *place], [2, *place, four(r, byte)]
    return r.choice([[read], [write], [write, read]])


def arriving(r, first):
    """A line's level; PendSV or SysTick, by a write; or a fault or SVC, which HardFault takes where the group numbers say so."""
    line, fault = [3, first + r.randrange(4), r.choice([0, 1, 1])], r.choice([[6, 0, 0], [6, 8, 0], [6, 16, 0], [7]])
    return [r.choice([line, line, line, line, [2, 4, 0xE000ED04, 1 << 28], [2, 4, 0xE000ED04, 1 << 26], fault])]


def nearby(r, byte, first):
    """An event or two about priorities near the byte: of four lines from the first, of the system exceptions, of BASEPRI."""
    what = r.randrange(20)
    if what < 6:
        return arriving(r, first)
    if what < 9:
        return showing(r, byte, first)
    if what < 12:
        return masking(r, byte)
    if what < 13:
        return [grouping(r)]
    return [[9]] if what < 18 else [[10, r.choice([0xFFFFFFF1, 0xFFFFFFF1, 0xFFFFFFF9])]]


def prioritised(r, lines):
    """Priorities near each other, over and over, of other lines each time. Every second time also unprivileged, so that no write counts."""
    yield [2, 4, 0xE000ED24, 0x70000]
    while True:
        byte, first = r.randrange(256), r.randrange(0, lines, 4)
        yield from ([2, 4, 0xE000E100 + first // 32 * 4, 0xF << first % 32], grouping(r))
        yield from ([2, 4, address, four(r, byte)] for address in (0xE000E400 + first, 0xE000ED18, 0xE000ED1C, 0xE000ED20))
        for k in r.sample(range(4), 3):
            yield from ([3, first + k, 1], [9])
        for _ in range(r.randrange(40)):
            yield from nearby(r, byte, first)
        yield from ([10, 0xFFFFFFF1] for _ in range(r.randrange(4)))
        yield from ([10, 0xFFFFFFF9], [8, 2, 0])
        if r.randrange(2):
            yield from ([8, 4, 1], *masking(r, byte), *showing(r, byte, first), [7], [9], [8, 4, 0], [10, 0xFFFFFFF9])


def by_software(r, line):
    """A write that makes the line pending, clears that, or enables or disables it."""
    word, bit = line // 32 * 4, 1 << line % 32
    made = r.choice([[0xE000E200 + word, bit], [SWTRIG, line | r.choice([0, 0, 512])]])
    cleared = [0xE000E280 + word, r.choice([bit, bit, 0xFFFFFFFF])]
    return [2, 4, *r.choice([made, made, cleared, [0xE000E100 + word, bit], [0xE000E180 + word, bit]])]


def pulsing(r, few):
    """An event or more about the pulses of a few lines. Levels are the most of them: one that stays or is refused counts nothing."""
    line, what = r.choice(few), r.randrange(20)
    if what < 5:
        return [[3, line, 1], [3, line, 0]] * r.choice([1, 1, 2, 5])
    if what < 8:
        return [[3, line, r.choice([0, 1, 1, 1, 2])]]
    if what < 9:
        return [[3, r.choice(PAST), r.choice([0, 1, 1, 2])]]
    if what < 11:
        return [by_software(r, line)]
    if what < 14:
        return [[12, r.choice([*few, *few, r.choice(PAST)])]]
    if what < 15:
        return [[1, 4, r.choice(BANKS) + line // 32 * 4]]
    if what < 16:
        return [r.choice([[4], [5], [7]])]
    return [[9]] if what < 18 else [[10, r.choice([0xFFFFFFF1, 0xFFFFFFF9, 0xFFFFFFFD])]]


def pulsed(r, lines):
    """Pulses of six lines, of one to three of them at a time, over and over; in handlers too, which nest by other priorities each time, and
    every second time also unprivileged."""
    six = [0, 54, lines - 1, r.randrange(55), r.randrange(lines), r.randrange(lines)]
    while True:
        few = r.sample(six, r.choice([1, 2, 3]))
        for line in few:
            yield from ([2, 4, 0xE000E100 + line // 32 * 4, 1 << line % 32], [2, 1, 0xE000E400 + line, r.randrange(256)])
        for _ in range(r.randrange(60)):
            yield from pulsing(r, few)
        if r.randrange(2):
            yield [8, 4, 1]
            for _ in range(r.randrange(20)):
                yield from pulsing(r, few)
            yield from ([7], [9], [8, 4, 0])
        yield from ([10, 0xFFFFFFF1] for _ in range(r.randrange(4)))
        yield [10, 0xFFFFFFF9]
        yield from ([12, line] for line in six)


def reload_value(r):
    return r.choice([0, 1, 2, 5, r.randrange(12), r.randrange(300), 0xFFFFFF, r.getrandbits(24), r.getrandbits(32)])


def timer(r, current, reload):
    """Sets the timer. A tick loads the current value, which may be above the reload value that follows."""
    loaded = [[2, 4, STRELOAD, current], [2, 4, STCTRL, 1], r.choice([[5], [13, 1]])] if current else []
    control = [2, 4, STCTRL, r.choice([1, 3, 3, 3, 7, r.randrange(8)])]
    return [[2, 4, STCURRENT, word(r)], *loaded, [2, 4, STRELOAD, reload], control]


def to_fall(r, current, reload):
    """How many ticks from these values to a fall, the first or a later one, or to one tick beside it."""
    period = reload % 2**24 + 1
    periods = r.choice([0, 0, 1, 1, 2, 3, r.randrange(2**32 // period)])
    return min(max(current % 2**24 + periods * period + r.choice([-1, 0, 0, 1]), 0), 2**32 - 1)


def in_parts(r, count):
    """So many ticks in one to three skips, of which some may be of none."""
    cuts = sorted(r.randrange(count + 1) for _ in range(r.randrange(3)))
    return [[13, end - start] for start, end in zip([0, *cuts], [*cuts, count])]


def any_skip(r, reload):
    return [13, r.choice([0, 1, 2, 3, r.randrange(20), to_fall(r, 0, reload), 2**24 - 1, 2**24, 2**32 - 1, r.getrandbits(32)])]


def idling(r, reload, line):
    """An event or more about a timer that was set: skips, ticks, reads, another setting, SysTick held back, entered and returned from."""
    what, byte = r.randrange(24), r.randrange(256)
    if what < 6:
        return [any_skip(r, reload)]
    if what < 8:
        return [[5]] * r.choice([1, 1, 2, 7])
    if what < 12:
        return [[1, 4, r.choice([STCTRL, STCTRL, STRELOAD, STCURRENT, STCURRENT, INTCTRL, INTCTRL])]]
    if what < 14:
        return [[2, 4, *r.choice([[STCTRL, r.randrange(8)], [STRELOAD, reload_value(r)], [STCURRENT, word(r)]])]]
    if what < 15:
        return [[2, 4, INTCTRL, r.choice([1 << 25, 1 << 25, 1 << 26, 3 << 25, 1 << 28])]]
    if what < 17:
        return [r.choice([[2, 1, 0xE000ED23, byte], [2, 4, 0xE000ED20, byte << 24], [8, 0, byte % 2], [8, 2, byte], [8, 2, 0]])]
    if what < 18:
        return [r.choice([[3, line, 1], [3, line, 0], [4], [7]])]
    return [[9]] if what < 21 else [[10, r.choice([0xFFFFFFF1, 0xFFFFFFF9, 0xFFFFFFFD])]]


def idle(r, lines):
    """Timers of many values, over and over: skips up to a fall or near it, then whatever comes; in handlers too, and every second time also
    unprivileged."""
    line = r.randrange(lines)
    yield [2, 4, 0xE000E100 + line // 32 * 4, 1 << line % 32]
    while True:
        current, reload = r.choice([0, reload_value(r)]), reload_value(r)
        yield from timer(r, current, reload)
        yield from in_parts(r, to_fall(r, current, reload))
        yield from ([1, 4, register] for register in r.sample([STCTRL, STCURRENT, INTCTRL], r.randrange(4)))
        for _ in range(r.randrange(20)):
            yield from idling(r, reload, line)
        if r.randrange(2):
            yield from ([8, 4, 1], any_skip(r, reload), *idling(r, reload, line), [7], [9], [8, 4, 0])
        yield from ([8, 0, 0], [8, 2, 0], [9], [1, 4, STCURRENT])
        yield from ([10, 0xFFFFFFF1] for _ in range(r.randrange(4)))
        yield [10, 0xFFFFFFF9]


def m0_value(r, address):
    """What is written at a register of the Cortex-M0: what sets a few things, or anything."""
    if address == INTCTRL:
        return r.choice([1 << 28, 1 << 28, 1 << 26, 1 << 26, 1 << 27, 1 << 25, 3 << 27, 3 << 25, 1 << 31, word(r), word(r) % 2**31])
    few = {STCTRL: r.randrange(8), STRELOAD: r.randrange(8), 0xE000ED0C: 0x05FA0000 | r.getrandbits(16)}
    usual = few.get(address, 1 << r.randrange(32) if address in BANKS else r.getrandbits(32))
    return r.choice([usual, usual, word(r)])


def at_m0(r):
    """A register of the Cortex-M0 is read, or written and often read; or no whole word, or no register of its own, which is refused."""
    own, other, what = r.choice([*M0_WORDS, INTCTRL, INTCTRL, INTCTRL]), r.choice(NOT_M0), r.randrange(16)
    if what < 10:
        read, write = [1, 4, own], [2, 4, own, m0_value(r, own)]
        return r.choice([[read], [read, read], [write], [write, read], [write, read]])
    near = r.choice([own, r.choice(M0_BYTES), other]) + r.randrange(4)
    width, address = (4, other) if what < 13 else (r.choice([1, 1, 1, 2, 3, 4]), near)
    return [r.choice([[1, width, address], [2, width, address, word(r)]])]


def no_verdict(r):
    """An access of any kind, width and place, which the Cortex-M0 refuses whatever they are."""
    return [11, r.choice([0, 1, 2, 3, 0xFFFFFFFF]), r.choice([0, 1, 2, 2, 3, 4]), r.choice([word(r), *NOT_M0]) // r.choice([1, 1, 2, 3])]


def any_special(r):
    """PRIMASK, mostly cleared, or any special register, of which the Cortex-M0 has two."""
    return r.choice([[8, 0, r.choice([0, 0, 0, 1])], [8, r.choice([4, *range(6), 0xFFFFFFFF]), r.choice([0, 1, 2, 3, word(r)])]])


def set_m0(r, few):
    """Priorities of most of the few lines and of the system exceptions; the few enabled with others, seldom only others; often a timer."""
    words = [0xE000E400 + line // 4 * 4 for line in few] + M0_BYTES[-2:]
    yield from ([2, 4, address, r.getrandbits(32)] for address in r.sample(words, len(words) - r.choice([0, 0, 1])))
    enabled = sum(1 << line for line in set(few)) if r.randrange(8) else 0
    yield [2, 4, 0xE000E100, enabled | r.choice([0, r.getrandbits(32)])]
    yield from r.choice([[], timer(r, 0, r.randrange(8))])


def m0_event(r, few):
    """An event or two for the Cortex-M0, of each kind: mostly about the few lines, their entry and their return."""
    what, line = r.randrange(48), r.choice([*few * 4, 30, 31, 32, 33, r.choice(PAST)])
    if what < 9:
        return [[3, line, r.choice([0, 0, 0, 1, 1, 1, 1, 2])]]
    if what < 11:
        return [by_software(r, r.choice(few)), [1, 4, r.choice(BANKS[:4])]]
    if what < 22:
        return at_m0(r)
    if what < 23:
        return [[6, r.choice(FAULTS), r.getrandbits(32)]]
    if what < 24:
        return [r.choice([[7], [7], [4]])]
    if what < 26:
        return [any_special(r)]
    if what < 27:
        return [no_verdict(r)]
    if what < 29:
        return [r.choice([[5], [5], [13, r.randrange(12)], [13, word(r)]])]
    if what < 30:
        return [[12, line]]
    return [[9]] if what < 39 else [[10, r.choice([0xFFFFFFF1] * 4 + [0xFFFFFFF9] * 3 + LINKS)]]


def m0_nest(r):
    """Events that nest many of the Cortex-M0's exceptions, often all, as `nest` does: its priority bytes are written as whole words."""
    yield [2, 4, 0xE000E100, 0xFFFFFFFF]
    arrivals = [([3, line, 1], 0xE000E400 + line) for line in range(32)]
    arrivals += [([7], 0xE000ED1F), ([2, 4, INTCTRL, 1 << 28], 0xE000ED22), ([2, 4, INTCTRL, 1 << 26], 0xE000ED23)]
    for arrival, byte in r.sample(arrivals, r.choice([len(arrivals), r.randrange(len(arrivals))])):
        place, lowest = byte // 4 * 4, 0xC0C0C0C0
        yield from ([2, 4, place, lowest & ~(0xFF << byte % 4 * 8)], arrival, [9], [2, 4, place, lowest])
    if r.randrange(2):
        yield from ([6, r.choice(FAULTS[:10]), 0], [9], [4], [9])


def small(r, deep):
    """Whatever the Cortex-M0 can do and what it refuses, over and over, with one to four lines more often than the others; then often all
    registers are read, the mask is cleared and the handlers are left. On the other chips the same goes on as privileged."""
    if deep:
        yield from m0_nest(r)
    while True:
        few = [r.randrange(32) for _ in range(r.choice([1, 2, 4]))]
        yield from set_m0(r, few)
        for _ in range(r.randrange(20, 80)):
            yield from m0_event(r, few)
        if r.randrange(2):
            yield from ([1, 4, address] for address in M0_WORDS)
        yield from ([8, 0, 0], *([10, 0xFFFFFFF1] for _ in range(r.randrange(3, 9))), [10, 0xFFFFFFF9])
        if r.randrange(2):
            yield from ([7], [9], [8, 4, 0], [10, 0xFFFFFFF9])


def ready(r):
    """Eight lines of any priority, enabled, some of them made pending; seldom NMI."""
    settings = [[2, 4, 0xE000E400, r.getrandbits(32)], [2, 4, 0xE000E404, r.getrandbits(32)], [2, 4, BANKS[0], 0xFF]]
    return [*settings, *([3, line, 1] for line in r.sample(range(8), r.randrange(4))), *r.choice([[]] * 9 + [[[4]]])]


def masks(r):
    """Up to four writes to PRIMASK, FAULTMASK, BASEPRI and BASEPRI_MAX."""
    return [[8, r.randrange(4), r.choice([0, 1, 1, r.randrange(256), r.randrange(256)])] for _ in range(r.randrange(5))]


def is_old(event):
    """Whether E4's proviso lets the event stand in an old script."""
    if event[0] in (3, 12):
        return event[1] <= 54
    if event[0] in (1, 2):
        width, address = event[1:3]
        if event[0] == 2 and address == SWTRIG and event[3] % 512 > 54:
            return False
        return not any(address <= last and address + width > first for first, last in NOT_OLD)
    return True


def events(r, lines, deep):
    if deep:
        yield from nest(r, lines)
    while True:
        one = event(r, lines)
        yield one
        if lines > 55 and one[0] == 2 and r.randrange(2):
            yield shown(*one[1:])


def about(r, lines, deep=False, guard=False, blocks=False, bits=False, pulses=False, skips=False, m0=False):
    if guard or blocks:
        return guarded(r) if guard else covered(r)
    if m0:
        return small(r, deep)
    return prioritised(r, lines) if bits else pulsed(r, lines) if pulses else idle(r, lines) if skips else events(r, lines, deep)


def script(seed, length, lines=55, old=False, **asked):
    """At most `length` bytes of whole events; only those of an old script, with a deep nest first, about the guard, regions of blocks,
    priorities near each other, lost pulses or idle time, or for the Cortex-M0, if so asked."""
    out, r = bytearray(), random.Random(seed)
    for one in about(r, lines, **asked):
        if old and not is_old(one):
            continue
        more = b"".join(number(n) for n in one)
        if len(out) + len(more) > length:
            return bytes(out)
        out += more
