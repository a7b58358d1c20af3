/* Runs the same decks through both boards' libraries, a cycle at a time and then at once: both SMALL.so LARGE.so. After every
 * call it compares what was answered, the work that was shown before it, the record and both storages.
 */
#include "../../include/panel.h"
#include "../bench/drawn.h"

/* Of the C library, whose headers the kit leaves out. */
int printf(const char *format, ...);
int memcmp(const void *one, const void *other, size_t count);
void *memset(void *bytes, int value, size_t count);
void *dlopen(const char *file, int mode);
void *dlsym(void *library, const char *name);
char *dlerror(void);

enum { WORDS = 4096, MAIN = 65536, LOCAL = 256, DECK = 34304 };

/* A board: the calls of its library, and what it holds. */
static struct board {
    __typeof__(panel_pack) *pack;
    __typeof__(panel_write_deck) *write_deck;
    __typeof__(panel_read_deck) *read_deck;
    __typeof__(panel_shipped) *shipped, *shipped_signed;
    __typeof__(panel_start) *start, *start_signed;
    __typeof__(panel_next_sum) *next_sum;
    __typeof__(panel_cycle) *cycle;
    __typeof__(panel_run) *run;
    uint64_t store[WORDS];
    uint8_t deck[DECK], main[MAIN], local[LOCAL], state[PANEL_STATE], work[PANEL_WORK];
    uint32_t words, sum;
    uint64_t answer;
} small, large;

static size_t bytes;               /* of main storage that are lent */
static unsigned cycles, corrected; /* that ran, and of these where the correction changed the sum */

static int load(struct board *b, const char *file) {
    void *library = dlopen(file, 2);
    if (!library) return printf("%s\n", dlerror()), 0;
    b->pack = dlsym(library, "panel_pack");
    b->write_deck = dlsym(library, "panel_write_deck");
    b->read_deck = dlsym(library, "panel_read_deck");
    b->shipped = dlsym(library, "panel_shipped");
    b->shipped_signed = dlsym(library, "panel_shipped_signed");
    b->start = dlsym(library, "panel_start");
    b->start_signed = dlsym(library, "panel_start_signed");
    b->next_sum = dlsym(library, "panel_next_sum");
    b->cycle = dlsym(library, "panel_cycle");
    b->run = dlsym(library, "panel_run");
    return b->pack && b->write_deck && b->read_deck && b->shipped && b->shipped_signed && b->start && b->start_signed &&
           b->next_sum && b->cycle && b->run;
}

/* The words that stand in the store, as a deck that is written and read. */
static int carried(struct board *b) {
    uint32_t written = b->write_deck(b->store, b->words, b->deck, DECK);
    memset(b->store, 0, sizeof b->store);
    return written <= DECK && b->read_deck(b->deck, written, b->store, WORDS) == b->words;
}

static int decks_are_the_same(void) {
    if (carried(&small) && carried(&large) && small.words == large.words && !memcmp(small.deck, large.deck, DECK) &&
        !memcmp(small.store, large.store, sizeof small.store))
        return 1;
    printf("the decks are not the same\n");
    return 0;
}

static void cycle(struct board *b) {
    b->sum = b->next_sum(b->store, b->words, b->state, PANEL_STATE, b->work, PANEL_WORK);
    b->answer = b->cycle(PANEL_BASIC, b->store, b->words, b->main, bytes, b->local, LOCAL, b->state, PANEL_STATE);
}

/* What both were lent, and what they answered. */
static int boards_are_the_same(void) {
    if (small.sum == large.sum && small.answer == large.answer && !memcmp(small.work, large.work, PANEL_WORK) &&
        !memcmp(small.state, large.state, PANEL_STATE) && !memcmp(small.main, large.main, bytes) &&
        !memcmp(small.local, large.local, LOCAL))
        return 1;
    printf("cycle %u is not the same: answers %lX and %lX, WX %02X%02X and %02X%02X, sums %02X and %02X\n", cycles,
           small.answer, large.answer, small.state[PANEL_WX_HIGH], small.state[PANEL_WX_LOW], large.state[PANEL_WX_HIGH],
           large.state[PANEL_WX_LOW], small.work[PANEL_AFTER], large.work[PANEL_AFTER]);
    return 0;
}

/* One cycle on each. */
static int cycles_are_the_same(void) {
    cycle(&small);
    cycle(&large);
    cycles += small.answer == PANEL_RAN;
    corrected += small.answer == PANEL_RAN && small.work[PANEL_BEFORE] != small.work[PANEL_AFTER];
    return boards_are_the_same();
}

/* Cycles until one does not run, or so many. */
static int runs_are_the_same(unsigned most) {
    for (unsigned k = 0; k < most; k++) {
        if (!cycles_are_the_same()) return 0;
        if (small.answer != PANEL_RAN) break;
    }
    return 1;
}

static int told(const char *what) {
    printf("%-20s %7u cycles, %6u of them corrected\n", what, cycles, corrected);
    int some = cycles > 0 && corrected > 0;
    cycles = corrected = 0;
    return some;
}

/* D and R added in decimal with S3, and subtracted where S0 is on, the sum in L; the word leads to itself. */
static const uint8_t SUM[18] = {0, 0, 0, 1, 0, 8, 0, 0, 0, 0, 0, 9, 3, 3, 3, 6, 0, 0};

static uint8_t reached[1024]; /* the entries of the table */

static void reach(const uint8_t *work) {
    int a = work[PANEL_A_GATED], b = work[PANEL_B_ENTERING], carry = work[PANEL_CARRY_IN];
    reached[512 * (a % 16 + b % 16 + carry >= 16) + a + b + carry] = 1;
}

static void lay_sum(struct board *b, unsigned k) {
    memset(b->state, 0, PANEL_STATE);
    b->state[PANEL_D] = (uint8_t)k;
    b->state[PANEL_R] = (uint8_t)(k >> 8);
    b->state[PANEL_S] = (k >> 16 & 1) * 0x80 + (k >> 17) * 0x10;
}

static int every_sum(void) {
    unsigned entries = 0;
    bytes = 1;
    small.words = large.words = 1;
    if (small.pack(SUM, 18, 0, small.store, 1) || large.pack(SUM, 18, 0, large.store, 1) || !decks_are_the_same()) return 0;
    for (unsigned k = 0; k < 1 << 18; k++) {
        lay_sum(&small, k);
        lay_sum(&large, k);
        if (!cycles_are_the_same()) return 0;
        reach(small.work);
    }
    for (int k = 0; k < 1024; k++) entries += reached[k];
    printf("%-20s %7u of 1,024, all that a sum can lead to\n", "entries of the table", entries);
    return entries == 992 && told("every decimal sum");
}

/* A byte of two digits, one in 64 any byte. */
static uint8_t digits(void) {
    u64 r = next() >> 8;
    return r % 64 ? (uint8_t)(r >> 6) % 10 * 16 + (uint8_t)(r >> 14) % 10 : (uint8_t)(r >> 6);
}

/* Two fields of so many bytes, of digits, the last one a sign where there are signs. */
static void lay_fields(unsigned length, int signs) {
    for (size_t k = 0; k < bytes; k++) small.main[k] = large.main[k] = digits();
    for (size_t k = 0; signs && k < 2; k++) {
        uint8_t *last = small.main + 256 + 256 * k + length - 1;
        *last = large.main[256 + 256 * k + length - 1] = (*last & 0xF0) + (uint8_t)pick("\14\15\14\15\12\13\16\17", 8);
    }
}

/* A shipped program, over drawn fields of every length. */
static int shipped(const char *what, int signs) {
    bytes = 1024;
    small.words = signs ? small.shipped_signed(small.store, WORDS) : small.shipped(small.store, WORDS);
    large.words = signs ? large.shipped_signed(large.store, WORDS) : large.shipped(large.store, WORDS);
    if (!decks_are_the_same()) return 0;
    for (unsigned k = 0; k < 256; k++) {
        uint8_t length = k % 16 + 1, on = next() >> 8 & 1;
        lay_fields(length, signs);
        if ((signs ? small.start_signed : small.start)(0x100, 0x200, length, on, small.state, PANEL_STATE) ||
            (signs ? large.start_signed : large.start)(0x100, 0x200, length, on, large.state, PANEL_STATE) ||
            !runs_are_the_same(40 * length + 40u))
            return 0;
    }
    return told(what);
}

/* 4,096 drawn words over drawn storages. */
static int drawn(void) {
    bytes = MAIN;
    small.words = large.words = WORDS;
    for (int k = 0; k < WORDS; k++) small.store[k] = large.store[k] = word(k);
    if (!decks_are_the_same()) return 0;
    for (int k = 0; k < 20; k++) {
        for (int i = 0; i < MAIN; i++) small.main[i] = large.main[i] = next() >> 8;
        for (int i = 0; i < PANEL_STATE; i++) small.state[i] = large.state[i] = next() >> 8;
        small.state[PANEL_WX_HIGH] = large.state[PANEL_WX_HIGH] &= 15;
        if (!runs_are_the_same(500)) return 0;
    }
    return told("drawn words");
}

static void run(struct board *b, uint32_t budget) {
    b->answer = b->run(PANEL_BASIC, b->store, b->words, b->main, bytes, b->local, LOCAL, b->state, PANEL_STATE, budget);
}

/* The longest run, from where the drawn words stand. */
static int at_once(void) {
    run(&small, 1000000);
    run(&large, 1000000);
    if (!boards_are_the_same()) return 0;
    printf("%-20s %7u cycles, compared at their end\n", "drawn words at once", (unsigned)(small.answer >> 32));
    return small.answer % 256 == PANEL_SPENT;
}

int main(int count, char **arguments) {
    if (count != 3 || !load(&small, arguments[1]) || !load(&large, arguments[2])) {
        printf("both needs the two boards' libraries, with every call that it makes\n");
        return 1;
    }
    if (!every_sum() || !shipped("the shipped add", 0) || !shipped("AP and SP", 1) || !drawn() || !at_once())
        return 1;
    printf("small and large board: every answer, record, work and storage is the same\n");
    return 0;
}
