/* The panel's C interface: what a lamp board's host links, and what tests outside the project drive.
 *
 * Each function is `#[no_mangle] pub extern "C"` of the crate `panel`; a Rattle slice passes as a pointer and
 * then a length. Nothing is required of a caller but that pointer and length are true: each function tests its
 * own input, always returns, and on a refusal changes no lent byte. The numbers are those of documents 01
 * and 02.
 */
#ifndef PANEL_INTERFACE /* not PANEL_H, which is a lamp channel */
#define PANEL_INTERFACE

#include <stddef.h>
#include <stdint.h>

#ifdef __cplusplus
extern "C" {
#endif

/* A state is a record of PANEL_STATE bytes, one lamp channel to a byte. It grows at its end. A latch byte is off at 0
 * and on at any other value; a cycle that ran writes 0 or 1. With ARRIVING off, ARRIVING_BYTE means nothing and a
 * cycle writes 0. A longer record may be lent: the bytes past PANEL_STATE are not touched. */
enum panel_channel {
    PANEL_I, PANEL_J, PANEL_U, PANEL_V, PANEL_L, PANEL_T, PANEL_D, PANEL_R, PANEL_S, PANEL_G, PANEL_H, PANEL_M,
    PANEL_N,
    PANEL_WX_HIGH, PANEL_WX_LOW, /* WX, 16 bits, high byte first */
    PANEL_AC, PANEL_1BC, PANEL_Z0,
    PANEL_ALLOW_WRITE,
    PANEL_LOCAL,    /* the storage kind last selected: 0 main, 1 local */
    PANEL_ARRIVING, PANEL_ARRIVING_BYTE,
    PANEL_DIGIT_CARRY,  /* the carry out of the low digit; off in a logical cycle */
    PANEL_INVALID,      /* a digit over 9 on an input of a decimal cycle, as gated */
    PANEL_FWX_HIGH, PANEL_FWX_LOW, PANEL_OWED,  /* FWX, 16 bits; a return is owed */
    PANEL_STATE     /* = 27, the record's length */
};

enum panel_kind { PANEL_RAN = 0, PANEL_STOPPED = 1, PANEL_REFUSED = 2, PANEL_SPENT = 3, PANEL_SUMMED = 4, PANEL_BAD_DIGIT = 5 };

/* How a store is read. Any other value than 0 is compatibility. */
enum panel_reading { PANEL_BASIC = 0, PANEL_COMPATIBILITY = 1 };

/* The fields of a word by place, high end first: CN 1, PN 2, PA 3, CH 4, CL 5, CM 6, CU 7, CA 8, AA 9, CB 10,
 * CK 11, AK 12, PK 13, PS 14, CD 15, CF 16, CG 17, CV 18, CC 19, CS 20, AS 21, PC 22. Refusal 10 names one. */

/* 0, with the 18 fields other than PN, PA, PS and PC written in word order, one to a byte; or the refusal's
 * number. 19 where fewer than 18 bytes are lent, checked first. */
uint32_t panel_take_apart(uint64_t word, uint32_t address, uint8_t *fields, size_t fields_len);

/* 0, with the word written to word[0]; or the refusal's number. 19 where fewer than 18 fields or no word are
 * lent, checked first; further bytes are not read. */
uint32_t panel_pack(const uint8_t *fields, size_t fields_len, uint32_t address, uint64_t *word, size_t word_len);

/* One cycle. kind + 256 * refusal number + 65536 * field of refusal 10 (else 0). PANEL_RAN, PANEL_STOPPED or
 * PANEL_REFUSED. 19 where fewer than PANEL_STATE bytes of state are lent, checked first. */
uint32_t panel_cycle(uint8_t reading, const uint64_t *store, size_t words, uint8_t *main, size_t main_len,
                     uint8_t *local, size_t local_len, uint8_t *state, size_t state_len);

/* A run. The same three parts, and 2^32 * the cycles that ran. PANEL_STOPPED, PANEL_REFUSED or PANEL_SPENT. */
uint64_t panel_run(uint8_t reading, const uint64_t *store, size_t words, uint8_t *main, size_t main_len,
                   uint8_t *local, size_t local_len, uint8_t *state, size_t state_len, uint32_t budget);

/* The work of the word that would run next, for the jumper and for lamps between the registers and the adder. */
enum panel_work {
    PANEL_A_CHOSEN, PANEL_A_GATED,                  /* A by CA; after crossing and gating */
    PANEL_B_CHOSEN, PANEL_B_GATED, PANEL_B_ENTERING, /* B by CB; gated; as it enters: turned, or with the six */
    PANEL_CARRY_IN,
    PANEL_BEFORE, PANEL_AFTER,                       /* the sum before and after correction */
    PANEL_WORK                                       /* = 8, the record's length */
};

/* 0, with PANEL_WORK bytes written; 1 where no sum would be made (WX not in the store, a word refused by 3 to 9, a
 * stop); 19 where fewer than PANEL_STATE bytes of state or PANEL_WORK bytes of work are lent, checked first. In a
 * logical operation the carry in is 0 and both sums are the result. */
uint32_t panel_next_sum(const uint64_t *store, size_t words, const uint8_t *state, size_t state_len,
                        uint8_t *work, size_t work_len);

/* The state from which the decimal entry runs the shipped words, and those words: 0, or 19 where fewer than
 * PANEL_STATE bytes are lent; the number of words, or 65536 * 19. carry_in: off at 0, on otherwise. */
uint32_t panel_start(uint16_t first, uint16_t second, uint8_t length, uint8_t carry_in, uint8_t *state, size_t state_len);
uint32_t panel_shipped(uint64_t *words, size_t room);

/* As panel_start and panel_shipped, for the words of AP and SP. subtract: off at 0, on otherwise. */
uint32_t panel_start_signed(uint16_t first, uint16_t second, uint8_t length, uint8_t subtract, uint8_t *state, size_t state_len);
uint32_t panel_shipped_signed(uint64_t *words, size_t room);

/* A trap between two cycles: 0, or 19, 29 or 30, and then nothing is changed. 19 where fewer than PANEL_STATE bytes of
 * state are lent, checked first; 29 while a return is owed; 30 for an address over 4,095. A trap that is taken writes WX,
 * FWX and OWED, and no other byte. */
uint32_t panel_trap(uint32_t address, uint8_t *state, size_t state_len);

/* 0, or 32: a fence is empty or reaches outside main storage of so many bytes, or the two overlap. */
uint32_t panel_open(size_t main_len, size_t a_start, size_t a_end, size_t b_start, size_t b_end);

/* One turn: a cycle of the board whose local storage, state and fence these are, beside a board with the other
 * fence. As panel_cycle; 19, then 1, then 32, then the cycle's own refusals, 11 by the board's own fence. */
uint32_t panel_turn(uint8_t reading, const uint64_t *store, size_t words, uint8_t *main, size_t main_len,
                    uint8_t *local, size_t local_len, uint8_t *state, size_t state_len,
                    size_t start, size_t end, size_t other_start, size_t other_end);

/* Decimal add: first field += second field. kind (PANEL_SUMMED, PANEL_BAD_DIGIT or PANEL_REFUSED)
 * + 256 * refusal number + 65536 * carry out + 2^32 * the cycles that ran. carry_in: off at 0, on otherwise. */
uint64_t panel_add_decimal(uint8_t *main, size_t main_len, uint8_t *local, size_t local_len,
                           size_t first, size_t second, size_t length, uint8_t carry_in);

/* The same inside a fence: 1, then 32 for a fence that is empty or reaches outside, 12, 13 by the fence, 14. */
uint64_t panel_add_decimal_in(uint8_t *main, size_t main_len, uint8_t *local, size_t local_len,
                              size_t first, size_t second, size_t length, uint8_t carry_in, size_t start, size_t end);

/* AP and SP, decimal add and subtract with signs: first field += second field, and first field -= second field. The last
 * digit of a field is its sign, A, C, E, F plus, B, D minus. PANEL_SUMMED, PANEL_BAD_DIGIT (or a bad sign) or PANEL_REFUSED
 * + 256 * refusal number + 65536 * overflow + 2^32 * the cycles that ran. */
uint64_t panel_add_signed(uint8_t *main, size_t main_len, uint8_t *local, size_t local_len,
                          size_t first, size_t second, size_t length);
uint64_t panel_sub_signed(uint8_t *main, size_t main_len, uint8_t *local, size_t local_len,
                          size_t first, size_t second, size_t length);

/* Deck to words and words to deck: the count of words, or of bytes, that were written, and
 * 65536 * refusal number (the count is then 0). */
uint32_t panel_read_deck(const uint8_t *deck, size_t deck_len, uint64_t *words, size_t room);
uint32_t panel_write_deck(const uint64_t *words, size_t count, uint8_t *deck, size_t room);

/* The number of a signed field: 8 bytes, fifteen digits and a sign digit, A, C, E, F plus, B, D minus. 0, with the
 * number written to number[0]; or the refusal's number: 33 where other than 8 bytes are lent, 25 for a digit over 9 in
 * the first fifteen places, 26 for a sign digit below A, then 19 where no number is lent. */
uint32_t panel_read_signed(const uint8_t *field, size_t field_len, int64_t *number, size_t room);

/* The signed field of a number, its sign C or D. 0, with the field written; or the refusal's number: 33 where other than
 * 8 bytes are lent, 27 for a number of more than fifteen digits. */
uint32_t panel_write_signed(int64_t number, uint8_t *field, size_t field_len);

#ifdef __cplusplus
}
#endif
#endif
