/* Memory in which a call that leaves its buffer is found out. */
#ifndef GUARD_H
#define GUARD_H

#include <stdbool.h>
#include <stddef.h>
#include <stdint.h>

/* Bytes between two pages that trap; a buffer stands at either end of them. */
struct guard {
    uint8_t *bytes;
    size_t room;
};

enum guard_end { AT_START, AT_END };

/* Room for buffers of up to `most` bytes. Ends the program where there is no memory. */
struct guard guard_open(size_t most);

/* A copy of the buffer that meets the trap on one side and marked bytes on the other. */
uint8_t *guard_place(struct guard guard, enum guard_end end, const uint8_t *buffer, size_t length);

/* The number, from 1, of the first byte of the copy that is not the buffer's; past its last if a mark fell; else 0. */
size_t guard_wrong(struct guard guard, enum guard_end end, const uint8_t *buffer, size_t length);

/* Whether the call came back without a trap. */
bool guard_run(void (*call)(void *), void *context);

#endif
