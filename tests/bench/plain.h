// The plain engine's state: I J U V L T D R S G H M N, one more byte that reads as zero, and the rest.
struct plain {
    unsigned char reg[14];
    unsigned short wx, fwx;
    unsigned char ac, bc1, z0, allow, local, arriving, byte, digit_carry, invalid, owed;
};

// A board's part of main storage; its end is not in it.
struct fence {
    unsigned long start, end;
};

// The reading is basic at 0 and compatibility at any other value.
unsigned long plain_run(struct fence fence, unsigned char reading, const unsigned long *store, unsigned long words,
                        unsigned char *main, unsigned long bytes, unsigned char *local, struct plain *state,
                        unsigned int budget);
