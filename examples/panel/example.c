/* A start for a board's maker: pack the word P of document 01, run one cycle with it, print the lamp channels. Then
 * add 38, 47 and a carry by the shipped words, a cycle at a time, and look into the adder before each cycle. Then make
 * that addition on two panels, one with the single-cycle button and then the run button, one with the run button alone.
 * Then add with the six already in D, and see the lamp that tells. Then read a signed field, write its number back, and
 * read one whose sign is bad. Then subtract with signs. Then break into an addition by a trap. Then read two words as
 * basic and as compatibility. Last, let two boards add on one core, each in its fence. build.sh beside this file builds
 * and runs it.
 */
#include "../../include/panel.h"

int printf(const char *format, ...); /* of the C library, whose headers the kit leaves out */

static const char *const names[PANEL_STATE] = {
    "I", "J", "U", "V", "L", "T", "D", "R", "S", "G", "H", "M", "N", "WX high", "WX low", "AC", "1BC", "Z0",
    "allow write", "local", "arriving", "arriving byte", "digit carry", "invalid", "FWX high", "FWX low", "owed"};

static uint8_t main_storage[256];
static uint8_t local_storage[256];
static uint8_t state[PANEL_STATE]; /* WX 0, all registers zero, latches off, nothing arriving */

static uint32_t cycle(const uint64_t *store, size_t words) {
    return panel_cycle(PANEL_BASIC, store, words, main_storage, sizeof main_storage, local_storage, sizeof local_storage,
                       state, sizeof state);
}

static int one_cycle_of_p(void) {
    /* CN CH CL CM CU CA AA CB CK AK PK CD CF CG CV CC CS AS: J + 1 goes to J, and the next address is 1 */
    static const uint8_t fields[18] = {0, 0, 1, 1, 0, 14, 0, 3, 1, 0, 0, 14, 3, 1, 0, 0, 0, 0};
    uint64_t word = 0;
    uint32_t refusal = panel_pack(fields, sizeof fields, 0, &word, 1);
    if (refusal != 0) {
        printf("packing is refused by %u\n", refusal);
        return 1;
    }
    printf("word %016llX\n", (unsigned long long)word);

    state[PANEL_J] = 0x5D;
    uint32_t answer = cycle(&word, 1);
    printf("kind %u, refusal %u, field %u\n", answer % 256, answer / 256 % 256, answer / 65536);
    for (int channel = 0; channel < PANEL_STATE; channel++) {
        printf("%-13s %02X\n", names[channel], state[channel]);
    }
    return answer % 256 == PANEL_RAN ? 0 : 1;
}

/* The first field is the byte at 10, the second the one at 20, and the carry in is on. */
static int shipped_words(void) {
    uint64_t words[64];
    uint8_t work[PANEL_WORK];
    uint32_t count = panel_shipped(words, 64);
    if (count > 64 || panel_start(0x10, 0x20, 1, 1, state, sizeof state) != 0) return 1;
    main_storage[0x10] = 0x38;
    main_storage[0x20] = 0x47;
    while (panel_next_sum(words, count, state, sizeof state, work, sizeof work) == 0) {
        /* the cycles in which the gates change A, or the correction changes the sum */
        if (work[PANEL_A_CHOSEN] != work[PANEL_A_GATED] || work[PANEL_BEFORE] != work[PANEL_AFTER]) {
            printf("word %X%02X: A %02X, crossed and gated %02X; sum %02X, corrected %02X\n", state[PANEL_WX_HIGH],
                   state[PANEL_WX_LOW], work[PANEL_A_CHOSEN], work[PANEL_A_GATED], work[PANEL_BEFORE],
                   work[PANEL_AFTER]);
        }
        if (cycle(words, count) != PANEL_RAN) return 1;
    }
    printf("38 + 47 + 1 = %02X\n", main_storage[0x10]);
    return 0;
}

struct panel {
    uint8_t main[256];
    uint8_t local[256];
    uint8_t state[PANEL_STATE];
};

/* The single-cycle button. */
static uint32_t press(struct panel *p, const uint64_t *words, size_t count) {
    return panel_cycle(PANEL_BASIC, words, count, p->main, sizeof p->main, p->local, sizeof p->local, p->state,
                       sizeof p->state);
}

/* The run button. */
static uint64_t run(struct panel *p, const uint64_t *words, size_t count, uint32_t budget) {
    return panel_run(PANEL_BASIC, words, count, p->main, sizeof p->main, p->local, sizeof p->local, p->state,
                     sizeof p->state, budget);
}

static int lay(struct panel *p) {
    p->main[0x10] = 0x38;
    p->main[0x20] = 0x47;
    return panel_start(0x10, 0x20, 1, 1, p->state, sizeof p->state) == 0;
}

static int same(const void *p, const void *q, size_t count) {
    const uint8_t *a = (const uint8_t *)p;
    const uint8_t *b = (const uint8_t *)q;
    size_t i = 0;
    while (i < count && a[i] == b[i]) i++;
    return i == count;
}

static int two_buttons(void) {
    static struct panel first, second;
    uint64_t words[64];
    uint32_t count = panel_shipped(words, 64);
    if (count > 64 || !lay(&first) || !lay(&second)) return 1;
    for (int pressed = 0; pressed < 7; pressed++) {
        if (press(&first, words, count) != PANEL_RAN) return 1;
    }
    uint64_t rest = run(&first, words, count, 93);
    uint64_t whole = run(&second, words, count, 100);
    printf("7 single cycles, then a run of %u: kind %u\n", (unsigned)(rest >> 32), (unsigned)(rest % 256));
    printf("one run of %u: kind %u\n", (unsigned)(whole >> 32), (unsigned)(whole % 256));
    printf("lamps and storage are %s\n", same(&first, &second, sizeof first) ? "the same" : "NOT the same");
    return !same(&first, &second, sizeof first);
}

/* Word 11 of the shipped words adds R and D. The adder adds the six itself: with the six in D already, a lamp tells. */
static int six_by_hand(uint8_t d) {
    uint64_t words[64];
    uint32_t count = panel_shipped(words, 64);
    if (count > 64 || panel_start(0, 0, 1, 0, state, sizeof state) != 0) return 1;
    state[PANEL_R] = 0x38;
    state[PANEL_D] = d;
    state[PANEL_WX_LOW] = 0x11;
    if (cycle(words, count) != PANEL_RAN) return 1;
    printf("38 + %02X = %02X, digit carry %u, invalid %u\n", d, state[PANEL_R], state[PANEL_DIGIT_CARRY],
           state[PANEL_INVALID]);
    return 0;
}

/* Fifteen digits and a sign: D is minus, and 5 is no sign. */
static int signed_fields(void) {
    static const uint8_t field[8] = {0x00, 0x00, 0x00, 0x00, 0x00, 0x12, 0x34, 0x5D};
    static const uint8_t bad[8] = {0x00, 0x00, 0x00, 0x00, 0x00, 0x12, 0x34, 0x55};
    uint8_t written[8] = {0};
    int64_t number = 0;
    if (panel_read_signed(field, sizeof field, &number, 1) != 0) return 1;
    printf("field 000000000012345D is %lld\n", (long long)number);
    if (panel_write_signed(-12345, written, sizeof written) != 0) return 1;
    printf("-12345 is written as %s bytes\n", same(field, written, sizeof field) ? "the same" : "OTHER");
    uint32_t refusal = panel_read_signed(bad, sizeof bad, &number, 1);
    printf("field 0000000000123455 is refused by %u, and the number stays %lld\n", refusal, (long long)number);
    return refusal == 0 || !same(field, written, sizeof field);
}

/* 190 - 200 and, by the same fields, 999 + 1: two bytes each, the last digit the sign. */
static int with_signs(void) {
    uint8_t fields[4] = {0x19, 0x0C, 0x20, 0x0C};
    uint8_t full[4] = {0x99, 0x9C, 0x00, 0x1C};
    uint64_t less = panel_sub_signed(fields, sizeof fields, local_storage, sizeof local_storage, 0, 2, 2);
    uint64_t more = panel_add_signed(full, sizeof full, local_storage, sizeof local_storage, 0, 2, 2);
    printf("190C SP 200C = %02X%02X, overflow %u, %u cycles\n", fields[0], fields[1], (unsigned)(less / 65536 % 65536),
           (unsigned)(less >> 32));
    printf("999C AP 001C = %02X%02X, overflow %u, %u cycles\n", full[0], full[1], (unsigned)(more / 65536 % 65536),
           (unsigned)(more >> 32));
    return less % 256 != PANEL_SUMMED || more % 256 != PANEL_SUMMED;
}

static unsigned wx(const struct panel *p) { return p->state[PANEL_WX_HIGH] * 256u + p->state[PANEL_WX_LOW]; }

/* Behind the shipped words, at 15 and 16: G + 1 goes to G; and the return word, CU 3 with CM 1, which changes nothing else. */
static int routine(uint64_t *words) {
    static const uint8_t counts[18] = {5, 1, 0, 1, 0, 10, 0, 0, 0, 0, 0, 10, 3, 0, 0, 1, 0, 0};
    static const uint8_t returns[18] = {0, 0, 0, 1, 3, 4, 0, 0, 0, 0, 0, 0, 0, 0, 0, 0, 0, 0};
    return panel_pack(counts, sizeof counts, 0x15, words, 1) == 0 && panel_pack(returns, sizeof returns, 0x16, words + 1, 1) == 0;
}

/* The addition once more: before its ninth cycle an input request breaks in, and a second one while the first is open. */
static int broken_into(void) {
    static struct panel p;
    uint64_t words[64];
    uint32_t count = panel_shipped(words, 62);
    if (count != 21 || !routine(words + count) || !lay(&p) || run(&p, words, 23, 8) % 256 != PANEL_SPENT) return 1;
    unsigned from = wx(&p);
    printf("trap to 015, from %03X: %u\n", from, panel_trap(0x15, p.state, sizeof p.state));
    printf("a second trap: %u\n", panel_trap(0x16, p.state, sizeof p.state));
    if (press(&p, words, 23) != PANEL_RAN || press(&p, words, 23) != PANEL_RAN) return 1;
    printf("two cycles later at %03X, G %02X, return owed %u\n", wx(&p), p.state[PANEL_G], p.state[PANEL_OWED]);
    uint64_t rest = run(&p, words, 23, 90);
    printf("38 + 47 + 1 = %02X\n", p.main[0x10]);
    return rest % 256 != PANEL_STOPPED;
}

/* One word with this CL, from a record with R1 and G1 on and 1BC off: where it leads, or what refuses it. */
static int read_as(uint8_t reading, uint8_t cl) {
    const uint8_t fields[18] = {0, 0, cl, 1, 0, 4}; /* CN CH CL CM CU CA; the others are 0 */
    uint8_t record[PANEL_STATE] = {0};
    uint64_t word = 0;
    if (panel_pack(fields, sizeof fields, 0, &word, 1) != 0) return 1;
    record[PANEL_R] = record[PANEL_G] = 0x40;
    uint32_t answer = panel_cycle(reading, &word, 1, main_storage, sizeof main_storage, local_storage,
                                  sizeof local_storage, record, sizeof record);
    printf("CL %u, read as %s: ", cl, reading == PANEL_BASIC ? "basic" : "compatibility");
    if (answer == PANEL_RAN) printf("next word %X%02X\n", record[PANEL_WX_HIGH], record[PANEL_WX_LOW]);
    else printf("refused by %u, field %u\n", answer / 256 % 256, answer / 65536);
    return answer % 256 == PANEL_STOPPED;
}

/* CL 6 tests 1BC in basic, and R1 in compatibility. CL 4 is no code of basic, and tests G1 in compatibility. */
static int two_readings(void) {
    return read_as(PANEL_BASIC, 6) != 0 || read_as(PANEL_COMPATIBILITY, 6) != 0 || read_as(PANEL_BASIC, 4) != 0 ||
           read_as(PANEL_COMPATIBILITY, 4) != 0;
}

/* A board of a session: its fence, and what is its own. */
struct board {
    size_t start, end;
    uint8_t local[256];
    uint8_t state[PANEL_STATE];
};

static uint8_t core[256]; /* one main storage for both */

static uint32_t turn(struct board *own, const struct board *other, const uint64_t *words, size_t count) {
    return panel_turn(PANEL_BASIC, words, count, core, sizeof core, own->local, sizeof own->local, own->state,
                      sizeof own->state, own->start, own->end, other->start, other->end);
}

/* The board's two fields, a byte each, stand at the start of its fence and 10 further on. */
static int begin(struct board *b, uint8_t first, uint8_t second) {
    core[b->start] = first;
    core[b->start + 0x10] = second;
    return panel_start(b->start, b->start + 0x10, 1, 0, b->state, sizeof b->state) == 0;
}

/* Both add at once, a cycle of the one and a cycle of the other; then B once more, with a fence that ends too soon. */
static int one_core(void) {
    static struct board a = {0x10, 0x30, {0}, {0}}, b = {0x80, 0xA0, {0}, {0}};
    uint64_t words[64];
    uint32_t count = panel_shipped(words, 64), of_a, of_b;
    unsigned turns = 0;
    if (count > 64 || !begin(&a, 0x38, 0x47) || !begin(&b, 0x99, 0x01)) return 1;
    printf("fences 10:30 and 80:A0: %u\n", panel_open(sizeof core, a.start, a.end, b.start, b.end));
    do {
        of_a = turn(&a, &b, words, count);
        of_b = turn(&b, &a, words, count);
        turns++;
    } while (of_a == PANEL_RAN || of_b == PANEL_RAN);
    printf("after %u turns each, A: kind %u, sum %02X; B: kind %u, sum %02X\n", turns, of_a, core[0x10], of_b, core[0x80]);
    b.end = 0x90;
    if (!begin(&b, 0x99, 0x01)) return 1;
    while ((of_b = turn(&b, &a, words, count)) == PANEL_RAN) continue;
    printf("B in 80:90: refused by %u, and its field is %02X\n", of_b / 256, core[0x80]);
    printf("fences 10:30 and 2F:A0: %u\n", panel_open(sizeof core, 0x10, 0x30, 0x2F, 0xA0));
    return of_a != PANEL_STOPPED;
}

int main(void) {
    return one_cycle_of_p() != 0 || shipped_words() != 0 || two_buttons() != 0 || six_by_hand(0x47) != 0 ||
           six_by_hand(0xAD) != 0 || signed_fields() != 0 || with_signs() != 0 || broken_into() != 0 ||
           two_readings() != 0 || one_core() != 0;
}
