/* The machine's run in plain C, for comparison of its speed: no call's refusals, no check that the machine is sound. The record and
 * the answer are those of brenwythal.h. It reads words in the byte order of the machine at hand, which is to be little endian. */
#include <stdint.h>
#include <stddef.h>
#include <string.h>

typedef struct {
    uint32_t pages, frames, abase, ptl, pto, sbase, used, hand, held[32], gpr[32], dpc, next, marks;
} Machine;

enum { GOING, FAULT, TRAP, STOP };
typedef struct { uint32_t tag, a, b; } Out;

static inline uint32_t word(const uint8_t *p) { uint32_t x; memcpy(&x, p, 4); return x; }
static inline void put(uint8_t *p, uint32_t x) { memcpy(p, &x, 4); }

static inline uint32_t compare(uint32_t k, uint32_t ua, uint32_t ub) {
    int32_t a = (int32_t)ua, b = (int32_t)ub;
    return k >> (a > b ? 0 : a == b ? 1 : 2) & 1;
}

/* The main address of va, if the entry has the bit `need` and is valid; else what the access comes to. */
static inline int locate(const Machine *s, const uint8_t *m, uint32_t va, uint32_t need, size_t *at, Out *o) {
    uint32_t page = va >> 12;
    if (page >= s->ptl) { *o = (Out){ STOP, 2, va }; return 0; }
    uint32_t e = word(m + s->pto + 4 * page);
    if (!(e & need)) { *o = (Out){ STOP, 2, va }; return 0; }
    if (!(e & 1)) { *o = (Out){ FAULT, page, 0 }; return 0; }
    *at = (e & ~4095u) | (va & 4095);
    return 1;
}

static void set_entry(uint8_t *p, uint32_t ppx, uint32_t v) { put(p, (word(p) & 0xffe) | ppx << 12 | v); }

static inline void mark(Machine *s, size_t at) { s->marks |= 1u << ((at >> 12) - s->abase); }

/* Loads page y, and says whether the page that left was marked, so copied back. */
__attribute__((noinline)) static uint32_t load(Machine *s, uint8_t *m, uint8_t *w, uint32_t y) {
    uint32_t f = s->used, copied = 0;
    if (f < s->frames) s->used++;
    else {
        f = s->hand;
        uint32_t x = s->held[f];
        copied = s->marks >> f & 1;
        if (copied) memcpy(w + (s->sbase + x) * 4096, m + (s->abase + f) * 4096, 4096);
        set_entry(m + s->pto + 4 * x, 0, 0);
        s->hand = (f + 1) % s->frames;
    }
    memcpy(m + (s->abase + f) * 4096, w + (s->sbase + y) * 4096, 4096);
    s->held[f] = y;
    s->marks &= ~(1u << f);
    set_entry(m + s->pto + 4 * y, s->abase + f, 1);
    return copied;
}

#define SET(rd, x) do { uint32_t v_ = (x); if (rd) s->gpr[rd] = v_; } while (0)
#define TO(t) do { uint32_t t_ = (t); s->dpc = s->next; s->next = t_; return (Out){ GOING, 0, 0 }; } while (0)
#define NEXT TO(s->next + 4)

static inline Out attempt(Machine *s, uint8_t *m) {
    Out o;
    size_t at;
    if (s->dpc & 3) return (Out){ STOP, 3, s->dpc };
    if (!locate(s, m, s->dpc, 4, &at, &o)) return o;
    uint32_t w = word(m + at), op = w >> 26, a = s->gpr[w >> 21 & 31], rd = w >> 16 & 31;
    uint32_t imm = (uint32_t)(int32_t)(int16_t)w, va = a + imm, b, x;
    uint16_t h;
    switch (op) {
    case 0: {
        uint32_t sa = w >> 6 & 31, f = w & 63;
        b = s->gpr[rd];
        switch (f) {
        case 0: x = a << sa; break;
        case 2: x = a >> sa; break;
        case 3: x = (uint32_t)((int32_t)a >> sa); break;
        case 4: x = a << (b & 31); break;
        case 6: x = a >> (b & 31); break;
        case 7: x = (uint32_t)((int32_t)a >> (b & 31)); break;
        case 33: x = a + b; break;
        case 35: x = a - b; break;
        case 36: x = a & b; break;
        case 37: x = a | b; break;
        case 38: x = a ^ b; break;
        case 39: x = b << 16; break;
        case 40: case 41: case 42: case 43: case 44: case 45: case 46: case 47: x = compare(f & 7, a, b); break;
        default: return (Out){ STOP, 4, w };
        }
        rd = w >> 11 & 31;
        SET(rd, x);
        NEXT;
    }
    case 2: TO(s->next + (uint32_t)((int32_t)(w << 6) >> 6));
    case 3: s->gpr[31] = s->next + 4; TO(s->next + (uint32_t)((int32_t)(w << 6) >> 6));
    case 4: if (a == 0) TO(s->next + imm); NEXT;
    case 5: if (a != 0) TO(s->next + imm); NEXT;
    case 22: TO(a);
    case 23: s->gpr[31] = s->next + 4; TO(a);
    case 9: SET(rd, a + imm); NEXT;
    case 11: SET(rd, a - imm); NEXT;
    case 12: SET(rd, a & imm); NEXT;
    case 13: SET(rd, a | imm); NEXT;
    case 14: SET(rd, a ^ imm); NEXT;
    case 15: SET(rd, imm << 16); NEXT;
    case 24: case 25: case 26: case 27: case 28: case 29: case 30: case 31: SET(rd, compare(op & 7, a, imm)); NEXT;
    case 32: case 36:
        if (!locate(s, m, va, 4, &at, &o)) return o;
        SET(rd, op == 32 ? (uint32_t)(int32_t)(int8_t)m[at] : m[at]);
        NEXT;
    case 33: case 37:
        if (va & 1) return (Out){ STOP, 3, va };
        if (!locate(s, m, va, 4, &at, &o)) return o;
        memcpy(&h, m + at, 2);
        SET(rd, op == 33 ? (uint32_t)(int32_t)(int16_t)h : h);
        NEXT;
    case 35:
        if (va & 3) return (Out){ STOP, 3, va };
        if (!locate(s, m, va, 4, &at, &o)) return o;
        SET(rd, word(m + at));
        NEXT;
    case 40:
        if (!locate(s, m, va, 2, &at, &o)) return o;
        m[at] = (uint8_t)s->gpr[rd];
        mark(s, at);
        NEXT;
    case 41:
        if (va & 1) return (Out){ STOP, 3, va };
        if (!locate(s, m, va, 2, &at, &o)) return o;
        h = (uint16_t)s->gpr[rd];
        memcpy(m + at, &h, 2);
        mark(s, at);
        NEXT;
    case 43:
        if (va & 3) return (Out){ STOP, 3, va };
        if (!locate(s, m, va, 2, &at, &o)) return o;
        put(m + at, s->gpr[rd]);
        mark(s, at);
        NEXT;
    case 62: s->dpc = s->next; s->next += 4; return (Out){ TRAP, w & 0x3ffffff, 0 };
    default: return (Out){ STOP, 4, w };
    }
}

void base_run(uint32_t *record, uint8_t *m, uint8_t *w, uint32_t limit, uint32_t *answer) {
    Machine s;
    memcpy(&s, record, sizeof s);
    uint32_t finished = 0, loads = 0, copied = 0, stop = 0, detail = 0;
    while (finished < limit) {
        Out o = attempt(&s, m);
        if (o.tag == GOING) finished++;
        else if (o.tag == FAULT) { copied += load(&s, m, w, o.a); loads++; }
        else if (o.tag == TRAP) { finished++; stop = 1; detail = o.a; break; }
        else { stop = o.a; detail = o.b; break; }
    }
    memcpy(record, &s, sizeof s);
    answer[0] = stop; answer[1] = detail; answer[2] = finished; answer[3] = loads; answer[4] = copied;
}
