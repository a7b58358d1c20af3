// Times the proved engine, by rule and by table, and the plain engine on the same two stores, read as basic, and prints
// nanoseconds a cycle: host SMALL.so LARGE.so, the two boards' libraries.
#include "../../include/panel.h"
#include "drawn.h"
#include "plain.h"

struct timespec {
    long sec, nsec;
};

extern int clock_gettime(int, struct timespec *);
extern int printf(const char *, ...);
extern int memcmp(const void *, const void *, u64);
extern void *dlopen(const char *, int);
extern void *dlsym(void *, const char *);

enum { WORDS = 4096, MAIN = 65536, LOCAL = 256, BUDGET = 1000000, TURNS = 25 };

static u64 store[WORDS];

struct storage {
    u8 main[MAIN], local[LOCAL];
};

static void draw(struct storage *s) {
    x = 7;
    for (int k = 0; k < MAIN; k++) s->main[k] = next() >> 8;
    for (int k = 0; k < LOCAL; k++) s->local[k] = next() >> 8;
}

// A word whose block of four leads to the next of a tour of all 1,024 blocks; which of a block's words runs, the state says.
static u64 toured(u64 at) {
    u64 cn = ((at >> 2 & 63) * 5 + 13) & 63, module = ((at >> 8) + !cn) & 15;
    u64 cl = cn ? any_cl() : 2, cm = next() % 6, ca = cl == 2 ? module : any_ca(), cu = any_cu(cm, cl);
    return filled(at, cn, cl, cm, cu, ca, cm < 3 && cu == 2 ? module : next() & 15);
}

static double now(void) {
    struct timespec t;
    clock_gettime(1, &t);
    return t.sec * 1e9 + t.nsec;
}

// What a run answers: how many cycles ran, 2^32 times WX after them, and 2^48 times the two lamps of the last sum.
static u64 answered(u64 done, u64 wx, u64 digit_carry, u64 invalid) {
    return done | wx << 32 | digit_carry << 48 | invalid << 49;
}

// As in the proved engine's run, all main storage is in the fence.
static const struct fence whole = {0, MAIN};

static u64 by_plain(struct storage *s) {
    struct plain state = {0};
    u64 done = plain_run(whole, PANEL_BASIC, store, WORDS, s->main, MAIN, s->local, &state, BUDGET);
    return answered(done, state.wx, state.digit_carry, state.invalid);
}

static __typeof__(panel_run) *small, *large;

// A run from a record of zeros.
static u64 by(__typeof__(panel_run) *run, struct storage *s) {
    u8 state[PANEL_STATE] = {0};
    u64 done = run(PANEL_BASIC, store, WORDS, s->main, MAIN, s->local, LOCAL, state, PANEL_STATE, BUDGET) >> 32;
    return answered(done, state[PANEL_WX_HIGH] << 8 | state[PANEL_WX_LOW], state[PANEL_DIGIT_CARRY], state[PANEL_INVALID]);
}

static u64 by_rule(struct storage *s) { return by(small, s); }

static u64 by_table(struct storage *s) { return by(large, s); }

static __typeof__(panel_run) *run_of(const char *file) {
    void *library = dlopen(file, 2);
    return library ? dlsym(library, "panel_run") : 0;
}

typedef u64 engine(struct storage *);

static engine *const engines[3] = {by_plain, by_rule, by_table};
static const char *const names[3] = {"plain engine in C, clang -O2", "proved engine by rule", "proved engine by table"};

// One run, in nanoseconds a cycle.
static double timed(engine *run, struct storage *s, u64 *answer) {
    draw(s);
    double from = now();
    *answer = run(s);
    return (now() - from) / BUDGET;
}

// Says how many of the words run, and how many cycles the two take that run most.
static void told(const char *name, struct storage *s) {
    struct plain state = {0};
    static unsigned times[WORDS];
    unsigned words = 0, most = 0, second = 0;
    for (int at = 0; at < WORDS; at++) times[at] = 0;
    draw(s);
    for (int k = 0; k < BUDGET; k++) {
        times[state.wx]++;
        plain_run(whole, PANEL_BASIC, store, WORDS, s->main, MAIN, s->local, &state, 1);
    }
    for (int at = 0; at < WORDS; at++) {
        words += times[at] > 0;
        if (times[at] > second) second = times[at];
        if (second > most) second = most, most = times[at];
    }
    printf("%s: %u of %d words run; the two that run most take %u of %d cycles\n", name, words, WORDS, most + second, BUDGET);
}

static int same(const u64 *answer, const struct storage *s) {
    if ((uint32_t)answer[0] == BUDGET && answer[1] == answer[0] && answer[2] == answer[0] && !memcmp(&s[0], &s[1], sizeof s[0]) &&
        !memcmp(&s[0], &s[2], sizeof s[0]))
        return 1;
    printf("the engines differ: %lx %lx %lx\n", answer[0], answer[1], answer[2]);
    return 0;
}

// The three engines in turn, so that what else the machine does falls on all three.
static int compared(const char *name, u64 (*drawn)(u64)) {
    static struct storage s[3];
    u64 answer[3];
    double best[3] = {1e9, 1e9, 1e9};
    x = 1;
    for (u64 at = 0; at < WORDS; at++) store[at] = drawn(at);
    told(name, &s[0]);
    for (int k = 0; k < TURNS; k++) {
        for (int e = 0; e < 3; e++) {
            double took = timed(engines[e], &s[e], &answer[e]);
            if (took < best[e]) best[e] = took;
        }
    }
    if (!same(answer, s)) return 0;
    for (int e = 0; e < 3; e++)
        printf("  %-30s %7.1f ns a cycle, %5.2f times the plain engine, %6.4f of 750 ns\n", names[e], best[e], best[e] / best[0],
               best[e] / 750);
    return 1;
}

int main(int count, char **arguments) {
    if (count != 3 || !(small = run_of(arguments[1])) || !(large = run_of(arguments[2]))) {
        printf("host needs the two boards' libraries\n");
        return 1;
    }
    printf("The best of %d runs of %d cycles.\n", TURNS, BUDGET);
    return compared("the loop", word) && compared("the tour", toured) ? 0 : 1;
}
