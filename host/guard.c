#define _DEFAULT_SOURCE
#include "guard.h"

#include <setjmp.h>
#include <signal.h>
#include <stdio.h>
#include <stdlib.h>
#include <string.h>
#include <sys/mman.h>

/* A multiple of every page size in use. */
enum { PAGES = 65536 };

/* Bytes marked beside a buffer, and their mark. */
enum { MARKED = 64, MARK = 0xa5 };

struct guard guard_open(size_t most)
{
    struct guard guard = {NULL, (most + MARKED + PAGES - 1) / PAGES * PAGES};
    uint8_t *all = mmap(NULL, guard.room + 2 * PAGES, PROT_NONE, MAP_PRIVATE | MAP_ANONYMOUS, -1, 0);

    guard.bytes = all + PAGES;
    if (all == MAP_FAILED || mprotect(guard.bytes, guard.room, PROT_READ | PROT_WRITE) != 0) {
        perror("guard");
        exit(2);
    }
    return guard;
}

static uint8_t *copy_of(struct guard guard, enum guard_end end, size_t length)
{
    return end == AT_START ? guard.bytes : guard.bytes + guard.room - length;
}

static uint8_t *marks_of(struct guard guard, enum guard_end end, size_t length)
{
    return end == AT_START ? guard.bytes + length : guard.bytes + guard.room - length - MARKED;
}

uint8_t *guard_place(struct guard guard, enum guard_end end, const uint8_t *buffer, size_t length)
{
    memset(marks_of(guard, end, length), MARK, MARKED);
    return memcpy(copy_of(guard, end, length), buffer, length);
}

static bool is_marked(const uint8_t *marks)
{
    for (size_t i = 0; i < MARKED; i++)
        if (marks[i] != MARK)
            return false;
    return true;
}

size_t guard_wrong(struct guard guard, enum guard_end end, const uint8_t *buffer, size_t length)
{
    const uint8_t *copy = copy_of(guard, end, length);
    size_t byte = 0;

    if (memcmp(copy, buffer, length) == 0)
        return is_marked(marks_of(guard, end, length)) ? 0 : length + 1;
    while (copy[byte] == buffer[byte])
        byte++;
    return byte + 1;
}

static sigjmp_buf before_call;

static void trapped(int signal)
{
    (void)signal;
    siglongjmp(before_call, 1);
}

bool guard_run(void (*call)(void *), void *context)
{
    struct sigaction action, before;
    volatile bool returned = false;

    memset(&action, 0, sizeof action);
    action.sa_handler = trapped;
    sigaction(SIGSEGV, &action, &before);
    if (sigsetjmp(before_call, 1) == 0) {
        call(context);
        returned = true;
    }
    sigaction(SIGSEGV, &before, NULL);
    return returned;
}
