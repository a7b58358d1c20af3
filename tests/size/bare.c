/* A host with no constant of its own: what the panel asks of C, and a start that does nothing. The linker is told to bring in
 * every function of include/panel.h.
 */
#include <stddef.h>

void *memcpy(void *restrict to, const void *restrict from, size_t count) {
    for (size_t k = 0; k < count; k++) ((char *)to)[k] = ((const char *)from)[k];
    return to;
}

void *memset(void *bytes, int value, size_t count) {
    for (size_t k = 0; k < count; k++) ((char *)bytes)[k] = (char)value;
    return bytes;
}

void _start(void) {
    for (;;) {}
}
