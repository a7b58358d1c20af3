// A plain engine, written by hand from documents 01 and 02 for speed and for nothing else: what the proved one is timed beside.
#include "plain.h"

typedef unsigned char u8;
typedef unsigned short u16;
typedef unsigned int u32;
typedef unsigned long u64;

static int odd(u64 x) { return __builtin_popcountl(x) & 1; }

static int bit(u8 byte, int n) { return byte >> (7 - n) & 1; }

static u8 set(u8 byte, int n, int on) {
    u8 mask = 0x80 >> n;
    return on ? byte | mask : byte & ~mask;
}

static int over_9(u8 byte) { return (byte >> 4) > 9 || (byte & 15) > 9; }

// 3 to 9, or 0.
static int fault(u64 w, u32 at) {
    int ca_to_w = (w >> 39 & 15) == 2, low_cm = (w >> 36 & 7) < 3, k_to_w = low_cm && (w >> 34 & 3) == 2;
    if (w >> 55) return 3;
    if (!odd(w & 0x7F000000000000)) return 4;
    if (!(odd(at & 4095) ^ (w >> 47 & 1))) return 5;
    if (!odd(w & 0xFFFFDFB00000)) return 6;
    if (!odd(w & 0xFFFFF)) return 7;
    if (ca_to_w && low_cm && (w >> 35 & 1)) return 8;
    if (ca_to_w && !odd(w & 0x3E0200000)) return 9;
    if (k_to_w && !odd(w & 0x7A00000)) return 9;
    return 0;
}

// What 10 refuses, a bit for each code; CH, CL and CS in basic and in compatibility.
static const u16 no_ch[2] = {0x0030, 0x0038}, no_cl[2] = {0x9018, 0x8008}, no_cs[2] = {0xC020, 0x4000};
static const u16 no_ca = 0x004F, no_cd = 0x001E;

// 10's field, or 0.
static int unmodelled(int reading, u64 w) {
    u32 cm = w >> 36 & 7, cu = w >> 34 & 3;
    if (no_ch[reading] >> (w >> 43 & 15) & 1) return 4;
    if (no_cl[reading] >> (w >> 39 & 15) & 1) return 5;
    if (cm > 5) return 6;
    if (cu == (cm < 3 ? 1 : 2)) return 7;
    if ((w >> 39 & 15) != 2 && no_ca >> (w >> 30 & 15) & 1) return 8;
    if (w >> 29 & 1) return 9;
    if (w >> 22 & 1) return 12;
    if (no_cd >> (w >> 16 & 15) & 1) return 15;
    if (no_cs[reading] >> (w >> 2 & 15) & 1) return 20;
    if (w >> 1 & 1) return 21;
    return 0;
}

static u8 *reg(struct plain *s, int code) {
    static const u8 at[16] = {13, 13, 13, 13, 8, 10, 13, 7, 6, 4, 9, 5, 3, 2, 1, 0};
    return &s->reg[at[code]];
}

enum { I, J, U, V, L, T, D, R, S, G, H, M, N };

static int high_branch(int reading, const struct plain *s, int ch) {
    const u8 *r = s->reg;
    switch (ch) {
    case 1: return 1;
    case 2: return bit(r[R], 0);
    case 3: return (r[V] & 3) == 0;
    case 6: return s->ac;
    case 7: return bit(r[S], 0);
    case 8: return reading ? bit(r[R], 2) : bit(r[S], 1);
    case 9: return bit(r[S], 2);
    case 10: return bit(r[S], 4);
    case 11: return bit(r[S], 6);
    case 12: return bit(r[G], 0);
    case 13: return bit(r[G], 2);
    case 14: return bit(r[G], 4);
    case 15: return bit(r[G], 6);
    default: return 0;
    }
}

static int low_branch(int reading, const struct plain *s, int cl) {
    const u8 *r = s->reg;
    switch (cl) {
    case 1:
    case 2: return 1;
    case 4: return bit(r[G], 1);
    case 5: return !over_9(r[R]);
    case 6: return reading ? bit(r[R], 1) : s->bc1;
    case 7: return s->z0;
    case 8: return bit(r[G], 7);
    case 9: return bit(r[S], 3);
    case 10: return bit(r[S], 5);
    case 11: return bit(r[S], 7);
    case 12: return bit(r[R], 3);
    case 13: return bit(r[G], 3);
    case 14: return bit(r[G], 5);
    default: return 0;
    }
}

static u8 status(int cs, u8 s, u8 z) {
    switch (cs) {
    case 1: return set(s, 5, !(z & 15));
    case 2: return set(s, 4, !(z >> 4));
    case 3: return set(set(s, 5, !(z & 15)), 4, !(z >> 4));
    case 4: return s & 0xF3;
    case 5: return set(s, 1, 1);
    case 6: return set(s, 0, 0);
    case 7: return set(s, 0, 1);
    case 8: return set(s, 2, 0);
    case 9: return z ? set(s, 2, 1) : s;
    case 10: return set(s, 6, 0);
    case 11: return set(s, 6, 1);
    case 12: return set(s, 7, 0);
    case 13: return set(s, 7, 1);
    case 15: return set(s, 1, 0);
    default: return s;
    }
}

// 0 ran, 1 stopped, 256 * number + field refused.
static int cycle(struct fence fence, int reading, const u64 *store, u64 words, u8 *main, u64 bytes, u8 *local, struct plain *s) {
    if (s->wx >= words) return 2 << 8;
    u64 w = store[s->wx];
    int no = fault(w, s->wx);
    if (no) return no << 8;
    int cf = w >> 13 & 7;
    if (cf == 4) return 1;
    no = unmodelled(reading, w);
    if (no) return 10 << 8 | no;
    int cl = w >> 39 & 15, cm = w >> 36 & 7, cu = w >> 34 & 3, ck = w >> 23 & 15, cc = w >> 6 & 7, cv = w >> 9 & 3;
    struct plain t = *s;
    if (t.arriving && cm != 2) t.reg[R] = t.byte;
    t.arriving = t.byte = 0;
    // Branches and sources.
    u32 x = (w >> 49 & 63) << 2 | high_branch(reading, &t, w >> 43 & 15) << 1 | low_branch(reading, &t, cl);
    u32 module = cl == 2 ? w >> 30 & 15 : cm < 3 && cu == 2 ? (u32)ck : t.wx >> 8;
    u8 a = cl == 2 ? 0 : *reg(&t, w >> 30 & 15), b, z;
    switch (w >> 27 & 3) {
    case 0: b = t.reg[R]; break;
    case 1: b = t.reg[L]; break;
    case 2: b = t.reg[D]; break;
    default: b = ck * 17;
    }
    // Storage: where, and what.
    int reads = cm >= 3, kind = reads ? cu == 1 || (cu == 3 && t.reg[G] < 0x40) : t.local;
    u8 m = t.reg[M], n = t.reg[N], latch = t.allow, fetched = 0;
    if (cm == 3) m = t.reg[I], n = t.reg[J];
    if (cm == 4) m = t.reg[U], n = t.reg[V];
    if (cm == 5) m = kind ? m : t.reg[L], n = t.reg[T];
    int fetches = reads && !latch, puts = !reads && cm != 1 && latch;
    u64 at = m << 8 | n;
    if ((fetches || puts) && !kind && (at >= bytes || at < fence.start || at >= fence.end)) return 11 << 8;
    // Arithmetic.
    if (cf > 4) a = a >> 4 | a << 4;
    cf &= 3;
    a &= (cf & 1 ? 15 : 0) | (cf & 2 ? 240 : 0);
    int cg = w >> 11 & 3;
    b &= (cg & 1 ? 15 : 0) | (cg & 2 ? 240 : 0);
    int complement = cv == 1 || (cv > 1 && t.reg[S] >> 7), bad = cv == 3 && (over_9(a) || over_9(b));
    if (complement) b = ~b;
    if (cc == 2 || cc == 3 || cc == 7) {
        z = cc == 2 ? a & b : cc == 3 ? a | b : a ^ b;
        t.ac = t.bc1 = t.digit_carry = t.invalid = 0;
    } else {
        int carry = cc == 6 ? bit(t.reg[S], 3) : cc & 1;
        if (cv == 3 && !complement) b = ((b + 0x60) & 0xF0) | ((b + 6) & 15);
        u32 sum = a + b + carry;
        t.ac = sum >> 8;
        t.bc1 = ((a & 127) + (b & 127) + carry) >> 7;
        t.digit_carry = ((a & 15) + (b & 15) + carry) >> 4;
        t.invalid = bad;
        z = sum;
        if (cv == 3) {
            if (!t.digit_carry) z = (z & 0xF0) | ((z - 6) & 15);
            if (!t.ac) z -= 0x60;
        }
    }
    t.z0 = !z;
    // Storage: done.
    if (puts) *(kind ? &local[n] : &main[at]) = t.reg[R], latch = 0;
    if (fetches) fetched = kind ? local[n] : main[at], t.arriving = 1;
    t.reg[M] = m, t.reg[N] = n, t.local = kind, t.allow = reads ? 1 : latch, t.byte = fetched;
    if (!reads && cm != 1) t.allow = 0;
    // Destination, status, S3, WX.
    int cd = w >> 16 & 15;
    if (cd == 6) t.reg[S] = z;
    else if (cd) *reg(&t, cd) = z;
    t.reg[S] = status(w >> 2 & 15, t.reg[S], z);
    if (cc >= 4 && cc <= 6) t.reg[S] = set(t.reg[S], 3, t.ac);
    t.wx = module << 8 | x;
    if (!reads && cu == 3) t.wx = t.fwx, t.owed = 0;
    *s = t;
    return 0;
}

u64 plain_run(struct fence fence, u8 reading, const u64 *store, u64 words, u8 *main, u64 bytes, u8 *local, struct plain *s, u32 budget) {
    u32 done = 0;
    while (done < budget && !cycle(fence, reading != 0, store, words, main, bytes, local, s)) done++;
    return done;
}
