// Drawn numbers, and drawn words of every kind that basic models, but for stops and returns.
typedef unsigned char u8;
typedef unsigned long u64;

static u64 x = 1;

static u64 next(void) {
    x ^= x << 13;
    x ^= x >> 7;
    return x ^= x << 17;
}

static u64 pick(const char *codes, int n) { return (u8)codes[next() % n]; }

static u64 any_cl(void) { return pick("\0\1\2\5\6\7\10\11\12\13\15\16", 12); }

static u64 any_ca(void) { return pick("\4\5\7\10\11\12\13\14\15\16\17", 11); }

static u64 any_cu(u64 cm, u64 cl) { return cm >= 3 ? pick("\0\1\3", 3) : cl == 2 ? 0 : next() % 2 * 2; }

static u64 even(u64 bits) { return !(__builtin_popcountl(bits) & 1); }

// The word of an address, with its parity; the fields that are not given are drawn.
static u64 filled(u64 at, u64 cn, u64 cl, u64 cm, u64 cu, u64 ca, u64 ck) {
    u64 pk = cl == 2 ? even(ca) : even(ck);
    u64 w = cn << 49 | pick("\0\1\2\3\6\7\10\11\12\13\14\15\16\17", 14) << 43 | cl << 39 | cm << 36 | cu << 34 | ca << 30 |
            (next() & 3) << 27 | ck << 23 | pk << 21 | pick("\0\5\6\7\10\11\12\13\14\15\16\17", 12) << 16 |
            pick("\0\1\2\3\5\6\7", 7) << 13 | (next() & 3) << 11 | (next() & 3) << 9 | (next() & 7) << 6 |
            pick("\0\1\2\3\4\6\7\10\11\12\13\14\15", 13) << 2;
    w |= even(w & 0x7F000000000000) << 48 | even(at) << 47;
    return w | even(w & 0xFFFFDFB00000) << 20 | even(w & 0xFFFFF);
}

// A word that leads to any block: a run soon goes round and round in a few words.
static u64 word(u64 at) {
    u64 cl = any_cl(), cm = next() % 6, ck = next() & 15, ca = cl == 2 ? next() & 15 : any_ca(), cu = any_cu(cm, cl);
    return filled(at, next() & 63, cl, cm, cu, ca, ck);
}
