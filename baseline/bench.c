/* A plain C version of the rules of documents 01 and 02: an independent check of `bench` and `simulate`, and what their speed
 * is measured against. Reads a script from standard input and prints its lines. The words after its name are those of
 * `simulate`: without any, the chip is the one of `bench`. One word more, `--times N`, is for measuring alone: the script runs
 * N times without printing, the state tested before each event as a library call does, and only the sum of refusals and
 * values is printed. */
#include <stdint.h>
#include <stdio.h>
#include <stdlib.h>
#include <string.h>

#define INLINE static inline __attribute__((always_inline)) /* for the test of refusal 16, whose loops are compiled for each chip */

enum { FLAGS = 256, NEST = 248 }; /* of the chip with 240 lines; the others use the first places */

enum { M3, M0 }; /* the cores: Cortex-M3 with ARMv7-M, Cortex-M0 with ARMv6-M */

enum { M0_LINES = 32, M0_BITS = 2, M0_CFGCTRL = 0x208 }; /* fixed by the profile */

enum { PMSAV7, PMSAV8, ABSENT }; /* the guards; a Cortex-M0 has none */

/* Which chip: its core, its lines, how many of a priority byte's top bits it keeps, its guard. */
typedef struct { int core, lines, bits, guard; } Setup;

typedef struct {
    uint8_t pending[FLAGS], active[FLAGS], enabled[FLAGS], level[FLAGS], priority[FLAGS], nest[NEST];
    uint16_t lost[FLAGS]; /* the rises that found the line pending, held at 65,535 */
    int core, lines, guard, depth;
    uint32_t kept; /* the bits of a priority byte and of BASEPRI that the chip keeps */
    uint32_t group, basepri, primask, faultmask, npriv, spsel;
    uint32_t st_control, st_reload, st_current, st_count;
    uint32_t mpu_control, mpu_region, mpu_plain[2];
    uint32_t mpu_base[8], mpu_attributes[8]; /* with PMSAv8 the word of the first block and the word of the last */
    uint32_t vtable, sysctrl, cfgctrl, faultstat, hfaultstat, mmaddr, faultaddr;
} Model;

typedef struct { uint32_t refusal, value; } Answer;

static Answer refuse(uint32_t n) { return (Answer){n, 0}; }
static Answer done(uint32_t v) { return (Answer){0, v}; }

static void fresh(Model *m, Setup setup) {
    memset(m, 0, sizeof *m);
    m->core = setup.core;
    m->lines = setup.lines;
    m->guard = setup.guard;
    m->kept = 0xFF & ~(0xFFu >> setup.bits);
    m->cfgctrl = setup.core == M0 ? M0_CFGCTRL : 0x200;
}

static int flags(const Model *m) { return 16 + m->lines; }

static uint32_t vtable_mask(const Model *m) { return m->lines == 240 ? 0x3FFFFC00 : 0x3FFFFE00; }

static uint32_t base_mask(const Model *m) { return m->guard == PMSAV8 ? 0xFFFFFFFF : 0xFFFFFFE0; }

static uint32_t attributes_mask(const Model *m) { return m->guard == PMSAV8 ? 0xFFFFFFEF : 0x173FFF3F; }

/* The configurable faults: MemManage, BusFault, UsageFault. */
INLINE int configurable(int core, int n) { return core == M3 && n >= 4 && n <= 6; }

static int full(const Model *m, int n) { return n == 2 ? -2 : n == 3 ? -1 : m->priority[n]; }

/* Bits p:0 are cleared whatever the chip keeps, so bit 0 is never part of a group number, with eight bits too. A Cortex-M0 has p = 0 for
 * ever: the group number of what it keeps is the byte itself. */
static int grouped(const Model *m, int priority) { return priority < 0 ? priority : priority & ~((2 << m->group) - 1); }

static int execution(const Model *m) {
    int least = 256;
    for (int i = 0; i < m->depth; i++) {
        int g = grouped(m, full(m, m->nest[i]));
        if (g < least) least = g;
    }
    if (m->basepri && grouped(m, (int)m->basepri) < least) least = grouped(m, (int)m->basepri);
    if (m->primask && least > 0) least = 0;
    if (m->faultmask && least > -1) least = -1;
    return least;
}

static int is_enabled(const Model *m, int n) {
    return n == 2 || n == 3 || n == 11 || n == 14 || n == 15 || m->enabled[n];
}

static int privileged(const Model *m) { return !m->npriv || m->depth > 0; }

static uint32_t top(const Model *m) { return m->depth ? m->nest[m->depth - 1] : 0; }

/* ---- registers */

typedef enum { MISSING, ICTYPE, STCTRL, STRELOAD, STCURRENT, ENABLE_SET, ENABLE_CLEAR, PENDING_SET, PENDING_CLEAR, ACTIVE, BYTES,
    CPUID, INTCTRL, VTABLE, APINT, SYSCTRL, CFGCTRL, SYSHNDCTRL, FAULTSTAT, HFAULTSTAT, MMADDR, FAULTADDR, SWTRIG,
    MPU_TYPE, MPU_CONTROL, MPU_NUMBER, MPU_BASE, MPU_ATTRIBUTES, MPU_PLAIN } Register;

/* The region of one of the four pairs of registers from ED9C on. With PMSAv7 the last three repeat the first. */
static int region_of(const Model *m, uint32_t pair) {
    return (int)(m->guard == PMSAV8 && pair ? (m->mpu_region & ~3u) | pair : m->mpu_region);
}

/* Whether the Cortex-M0 has the register of the word at `a`. */
static int on_m0(uint32_t a) {
    switch (a) {
    case 0xE000E010: case 0xE000E014: case 0xE000E018: case 0xE000E100: case 0xE000E180: case 0xE000E200: case 0xE000E280:
    case 0xE000ED00: case 0xE000ED04: case 0xE000ED0C: case 0xE000ED10: case 0xE000ED14: case 0xE000ED1C: case 0xE000ED20:
        return 1;
    }
    return a >= 0xE000E400 && a <= 0xE000E41F;
}

/* The register of the word at `a`; of a register of lines or of bytes also the first exception number that it shows, of one of a region
 * the region's number, of a plain word which of the two it is. */
static Register register_at(const Model *m, uint32_t a, int *first) {
    static const Register banks[5] = {ENABLE_SET, ENABLE_CLEAR, PENDING_SET, PENDING_CLEAR, ACTIVE};
    uint32_t line = (a % 0x80) * 8;
    if (m->core == M0 && !on_m0(a)) return MISSING;
    if (a >= 0xE000E100 && a < 0xE000E380) {
        if (line >= (uint32_t)m->lines) return MISSING;
        *first = 16 + (int)line;
        return banks[(a - 0xE000E100) / 0x80];
    }
    if (a >= 0xE000E400 && a < 0xE000E400 + (uint32_t)m->lines) { *first = 16 + (int)(a - 0xE000E400); return BYTES; }
    switch (a) {
    case 0xE000E004: return ICTYPE;
    case 0xE000E010: return STCTRL;
    case 0xE000E014: return STRELOAD;
    case 0xE000E018: return STCURRENT;
    case 0xE000ED00: return CPUID;
    case 0xE000ED04: return INTCTRL;
    case 0xE000ED08: return VTABLE;
    case 0xE000ED0C: return APINT;
    case 0xE000ED10: return SYSCTRL;
    case 0xE000ED14: return CFGCTRL;
    case 0xE000ED18: case 0xE000ED1C: case 0xE000ED20: *first = 4 + (int)(a - 0xE000ED18); return BYTES;
    case 0xE000ED24: return SYSHNDCTRL;
    case 0xE000ED28: return FAULTSTAT;
    case 0xE000ED2C: return HFAULTSTAT;
    case 0xE000ED34: return MMADDR;
    case 0xE000ED38: return FAULTADDR;
    case 0xE000ED90: return MPU_TYPE;
    case 0xE000ED94: return MPU_CONTROL;
    case 0xE000ED98: return MPU_NUMBER;
    case 0xE000ED9C: case 0xE000EDA4: case 0xE000EDAC: case 0xE000EDB4: *first = region_of(m, (a - 0xE000ED9C) / 8); return MPU_BASE;
    case 0xE000EDA0: case 0xE000EDA8: case 0xE000EDB0: case 0xE000EDB8: *first = region_of(m, (a - 0xE000EDA0) / 8); return MPU_ATTRIBUTES;
    case 0xE000EDC0: case 0xE000EDC4: *first = (int)(a - 0xE000EDC0) / 4; return m->guard == PMSAV8 ? MPU_PLAIN : MISSING;
    case 0xE000EF00: return SWTRIG;
    }
    return MISSING;
}

INLINE int has_byte(int core, int lines, int n) {
    return configurable(core, n) || n == 11 || n == 14 || n == 15 || (n >= 16 && n < 16 + lines);
}

static uint32_t flags_word(const Model *m, const uint8_t *flag, int first) {
    uint32_t w = 0;
    for (int i = 0; i < 32 && first + i < flags(m); i++) w |= (uint32_t)flag[first + i] << i;
    return w;
}

static uint32_t read_register(Model *m, Register r, int first) {
    uint32_t w = 0;
    switch (r) {
    case ICTYPE: return (uint32_t)(m->lines - 1) / 32;
    case STCTRL: w = m->st_control | m->st_count << 16; m->st_count = 0; return w;
    case STRELOAD: return m->st_reload;
    case STCURRENT: return m->st_current;
    case ENABLE_SET: case ENABLE_CLEAR: return flags_word(m, m->enabled, first);
    case PENDING_SET: case PENDING_CLEAR: return flags_word(m, m->pending, first);
    case ACTIVE: return flags_word(m, m->active, first);
    case BYTES:
        for (int i = 0; i < 4; i++) if (has_byte(m->core, m->lines, first + i)) w |= (uint32_t)m->priority[first + i] << 8 * i;
        return w;
    case CPUID: return m->core == M0 ? 0x410CC200 : 0x412FC230;
    case INTCTRL: {
        uint32_t any = 0, few = m->core == M3 && m->depth < 2;
        for (int n = 16; n < flags(m); n++) any |= m->pending[n];
        return (uint32_t)m->pending[2] << 31 | m->pending[14] << 28 | m->pending[15] << 26 | any << 22 | few << 11 | top(m);
    }
    case VTABLE: return m->vtable;
    case APINT: return 0xFA050000 | m->group << 8;
    case SYSCTRL: return m->sysctrl;
    case CFGCTRL: return m->cfgctrl;
    case SYSHNDCTRL:
        return m->enabled[6] << 18 | m->enabled[5] << 17 | m->enabled[4] << 16 | m->pending[11] << 15 | m->pending[5] << 14
            | m->pending[4] << 13 | m->pending[6] << 12 | m->active[15] << 11 | m->active[14] << 10 | m->active[11] << 7
            | m->active[6] << 3 | m->active[5] << 1 | m->active[4];
    case FAULTSTAT: return m->faultstat;
    case HFAULTSTAT: return m->hfaultstat;
    case MMADDR: return m->mmaddr;
    case FAULTADDR: return m->faultaddr;
    case MPU_TYPE: return 0x800;
    case MPU_CONTROL: return m->mpu_control;
    case MPU_NUMBER: return m->mpu_region;
    case MPU_BASE: return m->guard == PMSAV8 ? m->mpu_base[first] : m->mpu_base[first] | m->mpu_region;
    case MPU_ATTRIBUTES: return m->mpu_attributes[first];
    case MPU_PLAIN: return m->mpu_plain[first];
    case SWTRIG: case MISSING: return 0;
    }
    return 0;
}

static void write_byte(Model *m, int n, uint32_t v) { if (has_byte(m->core, m->lines, n)) m->priority[n] = (uint8_t)(v & m->kept); }

static void write_register(Model *m, Register r, int first, uint32_t v) {
    switch (r) {
    case STCTRL: m->st_control = v & 7; break;
    case STRELOAD: m->st_reload = v & 0xFFFFFF; break;
    case STCURRENT: m->st_current = m->st_count = 0; break;
    case ENABLE_SET: case ENABLE_CLEAR:
        for (int i = 0; i < 32 && first + i < flags(m); i++) if (v >> i & 1) m->enabled[first + i] = r == ENABLE_SET;
        break;
    case PENDING_SET:
        for (int i = 0; i < 32 && first + i < flags(m); i++) if (v >> i & 1) m->pending[first + i] = 1;
        break;
    case PENDING_CLEAR:
        for (int i = 0; i < 32 && first + i < flags(m); i++)
            if ((v >> i & 1) && !(m->level[first + i] && !m->active[first + i])) m->pending[first + i] = 0;
        break;
    case BYTES: for (int i = 0; i < 4; i++) write_byte(m, first + i, v >> 8 * i); break;
    case INTCTRL:
        if (v >> 31 & 1) m->pending[2] = 1;
        if (v >> 28 & 1) m->pending[14] = 1;
        if (v >> 27 & 1) m->pending[14] = 0;
        if (v >> 26 & 1) m->pending[15] = 1;
        if (v >> 25 & 1) m->pending[15] = 0;
        break;
    case VTABLE: m->vtable = v & vtable_mask(m); break;
    case APINT: if (m->core == M3 && v >> 16 == 0x05FA) m->group = v >> 8 & 7; break;
    case SYSCTRL: m->sysctrl = v & 0x16; break;
    case CFGCTRL: if (m->core == M3) m->cfgctrl = v & 0x31A; break;
    case SYSHNDCTRL: for (int i = 0; i < 3; i++) m->enabled[4 + i] = v >> (16 + i) & 1; break;
    case FAULTSTAT: m->faultstat &= ~v; break;
    case HFAULTSTAT: m->hfaultstat &= ~v; break;
    case SWTRIG: if ((v & 0x1FF) < (uint32_t)m->lines) m->pending[16 + (v & 0x1FF)] = 1; break;
    case MPU_CONTROL: m->mpu_control = v & 7; break;
    case MPU_NUMBER: if (v <= 7) m->mpu_region = v; break;
    case MPU_BASE:
        if (m->guard == PMSAV7 && v & 16) { if ((v & 15) > 7) break; m->mpu_region = v & 15; first = v & 15; }
        m->mpu_base[first] = v & base_mask(m);
        break;
    case MPU_ATTRIBUTES: m->mpu_attributes[first] = v & attributes_mask(m); break;
    case MPU_PLAIN: m->mpu_plain[first] = v; break;
    default: break;
    }
}

static uint32_t check(const Model *m, int free, uint32_t w, uint32_t a, Register *r, int *first) {
    if (w != 1 && w != 2 && w != 4) return 1;
    if (a % w) return 2;
    if (!privileged(m) && !free) return 3;
    *r = register_at(m, a & ~3u, first);
    if (*r == MISSING) return 4;
    if (w != 4 && !(w == 1 && *r == BYTES && m->core == M3)) return 5;
    return 0;
}

static Answer read_event(Model *m, uint32_t w, uint32_t a) {
    Register r;
    int first = 0;
    uint32_t no = check(m, 0, w, a, &r, &first);
    if (no) return refuse(no);
    uint32_t v = read_register(m, r, first);
    return done(w == 4 ? v : v >> 8 * (a % 4) & 0xFF);
}

static Answer write_event(Model *m, uint32_t w, uint32_t a, uint32_t v) {
    Register r;
    int first = 0;
    uint32_t no = check(m, w == 4 && a == 0xE000EF00 && (m->cfgctrl & 2), w, a, &r, &first);
    if (no) return refuse(no);
    if (w == 4) write_register(m, r, first, v);
    else write_byte(m, first + (int)(a % 4), v);
    return done(0);
}

/* ---- the other events */

static Answer line_event(Model *m, uint32_t line, uint32_t level) {
    if (line >= (uint32_t)m->lines || level > 1) return refuse(6);
    if (level && !m->level[16 + line]) {
        if (m->pending[16 + line] && m->lost[16 + line] < 65535) m->lost[16 + line]++;
        m->pending[16 + line] = 1;
    }
    m->level[16 + line] = (uint8_t)level;
    return done(0);
}

static Answer lost_event(const Model *m, uint32_t line) { return line >= (uint32_t)m->lines ? refuse(6) : done(m->lost[16 + line]); }

static Answer fallen(Model *m) {
    m->st_count = 1;
    if (m->st_control & 2) m->pending[15] = 1;
    return done(1);
}

static Answer tick_event(Model *m) {
    if (!(m->st_control & 1)) return done(0);
    if (m->st_current == 0) { m->st_current = m->st_reload; return done(0); }
    return --m->st_current ? done(0) : fallen(m);
}

/* So many ticks at once. A current value of 0 is back at 0 after each reload + 1 ticks; it falls to 0 only if it was another in between. */
static Answer skip_event(Model *m, uint32_t count) {
    if (!(m->st_control & 1)) return done(0);
    if (count < m->st_current) { m->st_current -= count; return done(0); }
    uint32_t period = m->st_reload + 1, from_0 = count - m->st_current;
    int fell = m->st_current > 0 || (m->st_reload > 0 && from_0 >= period);
    m->st_current = from_0 % period ? period - from_0 % period : 0;
    return fell ? fallen(m) : done(0);
}

static Answer raise(Model *m, int n) {
    if (is_enabled(m, n) && grouped(m, full(m, n)) < execution(m)) { m->pending[n] = 1; return done((uint32_t)n); }
    m->pending[3] = 1;
    if (m->core == M3) m->hfaultstat |= 1u << 30;
    return done(3);
}

/* What the core notes of a fault. A Cortex-M0 keeps neither status nor address. */
static void note(Model *m, uint32_t bit, uint32_t address) {
    if (m->core == M0) return;
    m->faultstat |= 1u << bit;
    if (bit == 1) { m->faultstat |= 1u << 7; m->mmaddr = address; }
    if (bit == 9) { m->faultstat |= 1u << 15; m->faultaddr = address; }
}

static Answer fault_event(Model *m, uint32_t bit, uint32_t address) {
    int n = bit <= 1 ? 4 : bit == 8 || bit == 9 ? 5 : (bit >= 16 && bit <= 19) || bit == 24 || bit == 25 ? 6 : 0;
    if (!n) return refuse(7);
    if (execution(m) < 0) return refuse(10);
    note(m, bit, address);
    return raise(m, n);
}

static Answer svc_event(Model *m) { return execution(m) < 0 ? refuse(10) : raise(m, 11); }

static Answer special_event(Model *m, uint32_t which, uint32_t v) {
    if (which > 4 || (m->core == M0 && which >= 1 && which <= 3)) return refuse(6);
    if (!privileged(m)) return done(0);
    uint32_t b = v & m->kept; /* both tests of BASEPRI_MAX are made on what is left */
    switch (which) {
    case 0: m->primask = v & 1; break;
    case 1: if (!(v & 1) || execution(m) >= 0) m->faultmask = v & 1; break;
    case 2: m->basepri = b; break;
    case 3: if (b && (b < m->basepri || !m->basepri)) m->basepri = b; break;
    case 4:
        if (m->core == M3) m->npriv = v & 1;
        if (!m->depth) m->spsel = v >> 1 & 1;
        break;
    }
    return done(0);
}

static Answer entry_event(Model *m) {
    int limit = execution(m), best = 0;
    for (int n = 1; n < flags(m); n++)
        if (m->pending[n] && is_enabled(m, n) && grouped(m, full(m, n)) < limit && (!best || full(m, n) < full(m, best))) best = n;
    if (!best) return refuse(8);
    m->pending[best] = 0;
    m->active[best] = 1;
    m->nest[m->depth++] = (uint8_t)best;
    m->spsel = 0;
    return done((uint32_t)best);
}

static Answer return_event(Model *m, uint32_t v) {
    if (!(v == 0xFFFFFFF1 ? m->depth >= 2 : (v == 0xFFFFFFF9 || v == 0xFFFFFFFD) && m->depth == 1)) return refuse(9);
    int n = m->nest[--m->depth];
    m->nest[m->depth] = 0;
    m->active[n] = 0;
    if (n != 2) m->faultmask = 0;
    if (v != 0xFFFFFFF1) m->spsel = v == 0xFFFFFFFD;
    if (n >= 16 && m->level[n]) m->pending[n] = 1;
    return done(top(m));
}

static int default_allows(uint32_t kind, uint32_t a) {
    return kind != 2 || a < 0x40000000 || (a >= 0x60000000 && a < 0xA0000000);
}

static int matches(uint32_t base, uint32_t attributes, uint32_t a) {
    uint32_t size = attributes >> 1 & 31;
    if (!(attributes & 1) || size < 4) return 0;
    if (size < 31 && a >> (size + 1) != base >> (size + 1)) return 0;
    return size < 7 || !(attributes >> (8 + (a >> (size - 2) & 7)) & 1);
}

static int covers(uint32_t first, uint32_t last, uint32_t a) { return (last & 1) && first >> 5 <= a >> 5 && a >> 5 <= last >> 5; }

static int allows(const char *rights, uint32_t no_fetch, uint32_t kind, int priv) {
    int r = rights[priv ? 0 : 1] - '0'; /* bit 0 read, bit 1 write */
    if (kind == 1) return r >> 1 & 1;
    return (r & 1) && !(kind == 2 && no_fetch);
}

enum { FAULT, ALLOWED, NO_REGION };

/* PMSAv7: the highest-numbered region that matches decides. */
static int regions_7(const Model *m, uint32_t kind, uint32_t a) {
    static const char *const rights[8] = {"00", "30", "31", "33", "00", "10", "11", "11"};
    for (int n = 7; n >= 0; n--) {
        uint32_t attributes = m->mpu_attributes[n];
        if (matches(m->mpu_base[n], attributes, a)) return allows(rights[attributes >> 24 & 7], attributes >> 28 & 1, kind, privileged(m));
    }
    return NO_REGION;
}

/* PMSAv8: the region that covers the address decides, if it is the only one. Not inlined: the code around it would be slower. */
static __attribute__((noinline)) int regions_8(const Model *m, uint32_t kind, uint32_t a) {
    static const char *const rights[4] = {"30", "33", "10", "11"};
    int verdict = NO_REGION;
    for (int n = 0; n < 8; n++) {
        uint32_t first = m->mpu_base[n];
        if (!covers(first, m->mpu_attributes[n], a)) continue;
        if (verdict != NO_REGION) return FAULT;
        verdict = allows(rights[first >> 1 & 3], first & 1, kind, privileged(m));
    }
    return verdict;
}

static int permits(const Model *m, uint32_t kind, uint32_t a) {
    if (kind == 2 && a >= 0xE0000000) return 0;
    if (!(m->mpu_control & 1) || (a >= 0xE0000000 && a <= 0xE00FFFFF) || (!(m->mpu_control & 2) && execution(m) < 0))
        return default_allows(kind, a);
    int verdict = m->guard == PMSAV8 ? regions_8(m, kind, a) : regions_7(m, kind, a);
    if (verdict != NO_REGION) return verdict;
    return (m->mpu_control & 4) && privileged(m) && default_allows(kind, a);
}

static Answer access_event(const Model *m, uint32_t kind, uint32_t w, uint32_t a) {
    if (m->core == M0) return refuse(19);
    if (kind > 2) return refuse(6);
    if (kind == 2 ? w != 2 : w != 1 && w != 2 && w != 4) return refuse(1);
    if (a % w) return refuse(2);
    return done(permits(m, kind, a) ? 0 : kind == 2 ? 2 : 1);
}

/* ---- scripts */

static int number(const uint8_t *s, size_t n, size_t *at, uint32_t *out) {
    uint64_t v = 0;
    for (int i = 0; i < 5; i++) {
        if (*at >= n) return 0;
        uint8_t b = s[(*at)++];
        v |= (uint64_t)(b & 127) << 7 * i;
        if (b < 128) {
            if ((i && !b) || v > 0xFFFFFFFF) return 0;
            *out = (uint32_t)v;
            return 1;
        }
    }
    return 0;
}

static const int argument_count[14] = {0, 2, 3, 2, 0, 0, 2, 0, 2, 0, 1, 3, 1, 1};

static Answer step(Model *m, uint32_t kind, const uint32_t *a) {
    switch (kind) {
    case 1: return read_event(m, a[0], a[1]);
    case 2: return write_event(m, a[0], a[1], a[2]);
    case 3: return line_event(m, a[0], a[1]);
    case 4: m->pending[2] = 1; return done(0);
    case 5: return tick_event(m);
    case 6: return fault_event(m, a[0], a[1]);
    case 7: return svc_event(m);
    case 8: return special_event(m, a[0], a[1]);
    case 9: return entry_event(m);
    case 10: return return_event(m, a[0]);
    case 11: return access_event(m, a[0], a[1], a[2]);
    case 12: return lost_event(m, a[0]);
    default: return skip_event(m, a[0]);
    }
}

/* ---- the test of refusal 16. It goes over every place before every event. */

static int is_line(int n) { return n >= 16; }

INLINE int is_exception(int core, int lines, int n) { return n == 2 || n == 3 || has_byte(core, lines, n); }

INLINE int sound_numbers(const Model *m, int core, int lines) {
    for (int n = 0; n < 16 + lines; n++) {
        if ((m->pending[n] || m->active[n]) && !is_exception(core, lines, n)) return 0;
        if (m->enabled[n] && !configurable(core, n) && !is_line(n)) return 0;
        if (m->level[n] && !is_line(n)) return 0;
        if (m->priority[n] & ~(has_byte(core, lines, n) ? m->kept : 0)) return 0;
    }
    for (int n = 0; !is_line(n); n++) if (m->lost[n]) return 0; /* apart: the loop over every number would be slower */
    return 1;
}

INLINE int sound_nest(const Model *m, int core, int lines) {
    int actives = 0, exceptions = (core == M0 ? 5 : 8) + lines;
    if (m->depth > exceptions) return 0;
    for (int i = 0; i < m->depth; i++) {
        if (m->nest[i] >= 16 + lines || !m->active[m->nest[i]]) return 0;
        for (int j = 0; j < i; j++) if (m->nest[j] == m->nest[i]) return 0;
    }
    for (int i = m->depth; i < exceptions; i++) if (m->nest[i]) return 0;
    for (int n = 0; n < 16 + lines; n++) actives += m->active[n];
    return actives == m->depth;
}

static int sound_lists(const Model *m) {
    return m->lines == 55 ? sound_numbers(m, M3, 55) && sound_nest(m, M3, 55) : sound_numbers(m, M3, 240) && sound_nest(m, M3, 240);
}

/* What a Cortex-M0 lacks is 0, and CFGCTRL is a constant. Not inlined: the code around it would be slower. */
static __attribute__((noinline)) int sound_m0(const Model *m) {
    uint32_t any = m->mpu_control | m->mpu_region | m->mpu_plain[0] | m->mpu_plain[1];
    for (int i = 0; i < 8; i++) any |= m->mpu_base[i] | m->mpu_attributes[i];
    any |= m->group | m->basepri | m->faultmask | m->npriv | m->vtable | m->faultstat | m->hfaultstat | m->mmaddr | m->faultaddr;
    return !any && m->cfgctrl == M0_CFGCTRL && sound_numbers(m, M0, M0_LINES) && sound_nest(m, M0, M0_LINES);
}

static int sound_m3(const Model *m) {
    if (!sound_lists(m) || m->group > 7 || m->basepri & ~m->kept) return 0;
    if (m->mpu_control > 7 || m->mpu_region > 7) return 0;
    for (int i = 0; i < 8; i++) if (m->mpu_base[i] & ~base_mask(m) || m->mpu_attributes[i] & ~attributes_mask(m)) return 0;
    if (m->guard == PMSAV7 && (m->mpu_plain[0] || m->mpu_plain[1])) return 0;
    return !(m->vtable & ~vtable_mask(m) || m->cfgctrl & ~0x31Au || m->faultstat & ~0x030F8383u || m->hfaultstat & ~0x40000000u);
}

static int sound(const Model *m) {
    if (m->st_control > 7 || m->st_reload > 0xFFFFFF || m->st_current > 0xFFFFFF || m->sysctrl & ~0x16u) return 0;
    return m->core == M0 ? sound_m0(m) : sound_m3(m);
}

static char out[1 << 16];
static size_t out_length;

static void put(char c) { out[out_length++] = c; }

static void put_number(uint32_t n) {
    char digits[10];
    int k = 0;
    do digits[k++] = (char)('0' + n % 10); while (n /= 10);
    while (k) put(digits[--k]);
}

static void put_line(uint32_t number, Answer r, const Model *m) {
    put_number(number); put(' ');
    put_number(r.refusal); put(' ');
    put_number(r.value); put(' ');
    put_number(top(m)); put(' ');
    int e = execution(m);
    if (e < 0) { put('-'); e = -e; }
    put_number((uint32_t)e); put('\n');
    if (out_length > sizeof out - 100) { fwrite(out, 1, out_length, stdout); out_length = 0; }
}

/* Runs the script once; the refusal that breaks it, with the place, or 0. The setup is tested before anything of the script. */
static uint32_t run(Setup setup, const uint8_t *s, size_t n, int print, uint64_t *sum, size_t *bad) {
    Model m;
    if (setup.core == M3 && (setup.bits < 3 || setup.bits > 8)) { *bad = 0; return 17; }
    if (n > 65536) { *bad = 65536; return 15; }
    fresh(&m, setup);
    size_t at = 0;
    for (uint32_t k = 1; at < n; k++) {
        uint32_t kind, a[3] = {0, 0, 0};
        *bad = at;
        if (!number(s, n, &at, &kind)) return 13;
        if (kind < 1 || kind > 13) return 14;
        for (int i = 0; i < argument_count[kind]; i++) if (!number(s, n, &at, &a[i])) return 13;
        Answer r = print || sound(&m) ? step(&m, kind, a) : refuse(16);
        *sum += r.refusal + r.value;
        if (print) put_line(k, r, &m);
    }
    return 0;
}

/* The number that the text is in decimal digits, -1 where it is none. Held at 9: a greater one is refused all the same. */
static int decimal(const char *text) {
    int n = 0;
    if (!*text || strlen(text) > 64) return -1;
    for (; *text; text++) {
        if (*text < '0' || *text > '9') return -1;
        n = 10 * n + (*text - '0');
        if (n > 9) n = 9;
    }
    return n;
}

/* What the words after the program's name say; 0 where one is unknown or given twice, or its value is missing or wrong. */
static int words(int argc, char **argv, Setup *setup, long *times) {
    *setup = (Setup){-1, 0, -1, -1}; /* none is given yet; 0 bits may be given */
    for (int i = 1; i < argc; i += 2) {
        const char *word = argv[i], *value = i + 1 < argc ? argv[i + 1] : "";
        if (!strcmp(word, "--core") && setup->core < 0 && !strcmp(value, "m3")) setup->core = M3;
        else if (!strcmp(word, "--core") && setup->core < 0 && !strcmp(value, "m0")) setup->core = M0;
        else if (!strcmp(word, "--lines") && !setup->lines && (!strcmp(value, "55") || !strcmp(value, "240"))) setup->lines = atoi(value);
        else if (!strcmp(word, "--bits") && setup->bits < 0 && decimal(value) >= 0) setup->bits = decimal(value);
        else if (!strcmp(word, "--guard") && setup->guard < 0 && !strcmp(value, "pmsav7")) setup->guard = PMSAV7;
        else if (!strcmp(word, "--guard") && setup->guard < 0 && !strcmp(value, "pmsav8")) setup->guard = PMSAV8;
        else if (!strcmp(word, "--times") && !*times && atol(value) > 0) *times = atol(value);
        else return 0;
    }
    if (setup->core < 0) setup->core = M3;
    if (!setup->lines) setup->lines = 55;
    if (setup->bits < 0) setup->bits = 3;
    if (setup->guard < 0) setup->guard = PMSAV7;
    if (setup->core == M0) *setup = (Setup){M0, M0_LINES, M0_BITS, ABSENT}; /* whatever else is given */
    return 1;
}

int main(int argc, char **argv) {
    static uint8_t script[65537];
    Setup setup;
    long times = 0;
    if (!words(argc, argv, &setup, &times)) {
        printf("usage: simulate [--core m3|m0] [--lines 55|240] [--bits N] [--guard pmsav7|pmsav8]\n");
        return 0;
    }
    size_t n = fread(script, 1, sizeof script, stdin), bad = 0;
    uint64_t sum = 0;
    if (times) {
        while (times--) run(setup, script, n, 0, &sum, &bad);
        printf("%llu\n", (unsigned long long)sum);
        return 0;
    }
    uint32_t broken = run(setup, script, n, 1, &sum, &bad);
    fwrite(out, 1, out_length, stdout);
    if (broken) printf("script %u at %zu\n", broken, bad);
    return 0;
}
