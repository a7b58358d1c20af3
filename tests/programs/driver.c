/* Drives the panel for tests/panel.rs: reads calls on standard input, makes them through include/panel.h, and writes what
 * each answered and what then stands in every slice that was lent. A number is 8 bytes, low byte first; a slice is its
 * count and its elements. Each slice stands between guards, and a call that touches one ends the program with status 3.
 */
#include "../../include/panel.h"

/* Of the C library, whose headers the kit leaves out. */
long read(int descriptor, void *bytes, size_t count);
long write(int descriptor, const void *bytes, size_t count);
void *malloc(size_t count);
void free(void *bytes);
void exit(int status);

enum { GUARD = 64, SLICES = 4 };

struct slice {
    uint8_t *whole, *bytes;
    size_t count, size; /* elements, and bytes of one */
};

static struct slice lent[SLICES];
static int slices;

static uint8_t waiting[1 << 16];
static size_t waiting_at, waiting_end;

/* The next byte, or -1 at the end of the input. */
static int next_byte(void) {
    if (waiting_at == waiting_end) {
        long got = read(0, waiting, sizeof waiting);
        if (got <= 0) return -1;
        waiting_at = 0;
        waiting_end = (size_t)got;
    }
    return waiting[waiting_at++];
}

static void take(uint8_t *bytes, size_t count) {
    for (size_t i = 0; i < count; i++) {
        int byte = next_byte();
        if (byte < 0) exit(2);
        bytes[i] = (uint8_t)byte;
    }
}

static uint64_t number(void) {
    uint8_t bytes[8];
    uint64_t value = 0;
    take(bytes, 8);
    for (int i = 8; i-- > 0;) value = value << 8 | bytes[i];
    return value;
}

static void *slice(size_t size) {
    struct slice *s = &lent[slices++];
    s->count = number();
    s->size = size;
    s->whole = malloc(s->count * size + 2 * GUARD);
    if (!s->whole) exit(4);
    s->bytes = s->whole + GUARD;
    for (size_t i = 0; i < GUARD; i++) s->whole[i] = s->bytes[s->count * size + i] = 0xA5;
    take(s->bytes, s->count * size);
    return s->bytes;
}

static size_t count_of(int place) { return lent[place].count; }

static uint8_t leaving[1 << 16];
static size_t leaving_end;

static void flush(void) {
    for (size_t at = 0; at < leaving_end;) {
        long put = write(1, leaving + at, leaving_end - at);
        if (put <= 0) exit(5);
        at += (size_t)put;
    }
    leaving_end = 0;
}

static void give(const uint8_t *bytes, size_t count) {
    for (size_t i = 0; i < count; i++) {
        if (leaving_end == sizeof leaving) flush();
        leaving[leaving_end++] = bytes[i];
    }
}

static void answer(uint64_t value) {
    uint8_t bytes[8];
    for (int i = 0; i < 8; i++) bytes[i] = (uint8_t)(value >> 8 * i);
    give(bytes, 8);
    for (int k = 0; k < slices; k++) {
        struct slice *s = &lent[k];
        for (size_t i = 0; i < GUARD; i++)
            if (s->whole[i] != 0xA5 || s->bytes[s->count * s->size + i] != 0xA5) exit(3);
        give(s->bytes, s->count * s->size);
        free(s->whole);
    }
    slices = 0;
}

/* A call's arguments come in the order of its parameters. */
static uint64_t called(int call) {
    switch (call) {
    case 0: {
        uint64_t word = number();
        uint32_t address = (uint32_t)number();
        uint8_t *fields = slice(1);
        return panel_take_apart(word, address, fields, count_of(0));
    }
    case 1: {
        uint8_t *fields = slice(1);
        uint32_t address = (uint32_t)number();
        uint64_t *word = slice(8);
        return panel_pack(fields, count_of(0), address, word, count_of(1));
    }
    case 2: {
        uint8_t reading = (uint8_t)number();
        uint64_t *store = slice(8);
        uint8_t *main = slice(1), *local = slice(1), *state = slice(1);
        return panel_cycle(reading, store, count_of(0), main, count_of(1), local, count_of(2), state, count_of(3));
    }
    case 3: {
        uint8_t reading = (uint8_t)number();
        uint64_t *store = slice(8);
        uint8_t *main = slice(1), *local = slice(1), *state = slice(1);
        uint32_t budget = (uint32_t)number();
        return panel_run(reading, store, count_of(0), main, count_of(1), local, count_of(2), state, count_of(3), budget);
    }
    case 4: {
        uint8_t *main = slice(1), *local = slice(1);
        size_t first = number(), second = number(), length = number();
        uint8_t carry_in = (uint8_t)number();
        return panel_add_decimal(main, count_of(0), local, count_of(1), first, second, length, carry_in);
    }
    case 5: {
        uint8_t *deck = slice(1);
        uint64_t *words = slice(8);
        return panel_read_deck(deck, count_of(0), words, count_of(1));
    }
    case 6: {
        uint64_t *words = slice(8);
        uint8_t *deck = slice(1);
        return panel_write_deck(words, count_of(0), deck, count_of(1));
    }
    case 7: {
        uint64_t *store = slice(8);
        uint8_t *state = slice(1), *work = slice(1);
        return panel_next_sum(store, count_of(0), state, count_of(1), work, count_of(2));
    }
    case 8:
    case 12: {
        uint16_t first = (uint16_t)number(), second = (uint16_t)number();
        uint8_t length = (uint8_t)number(), on = (uint8_t)number();
        uint8_t *state = slice(1);
        return (call == 8 ? panel_start : panel_start_signed)(first, second, length, on, state, count_of(0));
    }
    case 9:
    case 13: {
        uint64_t *words = slice(8);
        return (call == 9 ? panel_shipped : panel_shipped_signed)(words, count_of(0));
    }
    case 10: {
        uint8_t *field = slice(1);
        int64_t *room = slice(8);
        return panel_read_signed(field, count_of(0), room, count_of(1));
    }
    case 11: {
        int64_t value = (int64_t)number();
        uint8_t *field = slice(1);
        return panel_write_signed(value, field, count_of(0));
    }
    case 14:
    case 15: {
        uint8_t *main = slice(1), *local = slice(1);
        size_t first = number(), second = number(), length = number();
        return (call == 14 ? panel_add_signed : panel_sub_signed)(main, count_of(0), local, count_of(1), first, second,
                                                                  length);
    }
    case 16: {
        uint32_t address = (uint32_t)number();
        uint8_t *state = slice(1);
        return panel_trap(address, state, count_of(0));
    }
    case 17: {
        size_t main_len = number(), a_start = number(), a_end = number(), b_start = number(), b_end = number();
        return panel_open(main_len, a_start, a_end, b_start, b_end);
    }
    case 18: {
        uint8_t reading = (uint8_t)number();
        uint64_t *store = slice(8);
        uint8_t *main = slice(1), *local = slice(1), *state = slice(1);
        size_t start = number(), end = number(), other_start = number(), other_end = number();
        return panel_turn(reading, store, count_of(0), main, count_of(1), local, count_of(2), state, count_of(3), start,
                          end, other_start, other_end);
    }
    case 19: {
        uint8_t *main = slice(1), *local = slice(1);
        size_t first = number(), second = number(), length = number();
        uint8_t carry_in = (uint8_t)number();
        size_t start = number(), end = number();
        return panel_add_decimal_in(main, count_of(0), local, count_of(1), first, second, length, carry_in, start, end);
    }
    default:
        exit(6);
        return 0;
    }
}

int main(void) {
    for (int call; (call = next_byte()) >= 0;) answer(called(call));
    flush();
    return 0;
}
