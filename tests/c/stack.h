/* How much stack a call takes. A program that includes this first defines _POSIX_C_SOURCE as 200809L. */
#ifndef STACK_H
#define STACK_H

#include <limits.h>
#include <pthread.h>
#include <stdint.h>
#include <stdio.h>
#include <string.h>
#include <sys/mman.h>
#include <unistd.h>

/* Memory of whole pages, to be hidden or mapped twice: that of a file without a name. */
static inline FILE *file_of(size_t bytes)
{
    FILE *file = tmpfile();

    if (file == NULL || ftruncate(fileno(file), (off_t)bytes) == 0)
        return file;
    fclose(file);
    return NULL;
}

static inline void *mapped(FILE *file, size_t bytes)
{
    void *memory = mmap(NULL, bytes, PROT_READ | PROT_WRITE, MAP_SHARED, fileno(file), 0);

    return memory == MAP_FAILED ? NULL : memory;
}

/*
 * How deep a call goes: it is made on a stack that was painted before. The same memory is mapped a second time and looked at there,
 * since to a memory checker what lies below a thread's stack pointer is nobody's.
 */
enum { STACK_BYTES = 512 * 1024, PAINT = 0x5C };

/* The stack that repair, and each call that runs it, may take. */
enum { REPAIR_STACK = 48 * 1024 };

static uint8_t *stack_made, *stack_seen;

static inline int make_stack(void)
{
    FILE *file = file_of(STACK_BYTES);

    if (file == NULL)
        return 0;
    stack_made = mapped(file, STACK_BYTES);
    stack_seen = mapped(file, STACK_BYTES);
    fclose(file);
    return stack_made != NULL && stack_seen != NULL;
}

struct deep {
    void (*call)(void);
    uintptr_t top;
};

static inline void *call_deep(void *given)
{
    struct deep *deep = given;
    volatile uint8_t here = 0;

    deep->top = (uintptr_t)&here;
    deep->call();
    return NULL;
}

/* So many bytes of stack a call takes; 0 if it could not be made. */
static inline size_t depth_of(void (*call)(void))
{
    struct deep deep = {call, 0};
    pthread_attr_t attributes;
    pthread_t thread;
    size_t untouched = 0;

    /* Made once before, so that no function has to be looked up while it is measured. */
    call();
    memset(stack_seen, PAINT, STACK_BYTES);
    if (pthread_attr_init(&attributes) != 0 || pthread_attr_setstack(&attributes, stack_made, STACK_BYTES) != 0
        || pthread_create(&thread, &attributes, call_deep, &deep) != 0 || pthread_join(thread, NULL) != 0)
        return 0;
    pthread_attr_destroy(&attributes);
    while (untouched < STACK_BYTES && stack_seen[untouched] == PAINT)
        untouched++;
    return deep.top - (uintptr_t)stack_made - untouched;
}

/*
 * Whether a call can be made on a small stack: so many bytes, and the least that a thread needs for itself. Below it lies a page that
 * nobody may touch, so that a call which needs more ends the program.
 */
static inline int runs_within(void (*call)(void), size_t bytes)
{
    const size_t page = (size_t)sysconf(_SC_PAGESIZE), whole = bytes + PTHREAD_STACK_MIN;
    struct deep deep = {call, 0};
    pthread_attr_t attributes;
    pthread_t thread;
    int made = whole % page == 0 && page + whole <= STACK_BYTES && mprotect(stack_made, page, PROT_NONE) == 0;

    made = made && pthread_attr_init(&attributes) == 0 && pthread_attr_setstack(&attributes, stack_made + page, whole) == 0
           && pthread_create(&thread, &attributes, call_deep, &deep) == 0 && pthread_join(thread, NULL) == 0;
    return mprotect(stack_made, page, PROT_READ | PROT_WRITE) == 0 && made && deep.top != 0;
}

/* Whether a call takes less than so many bytes of stack. */
static inline int takes_less(void (*call)(void), size_t bytes)
{
    const size_t depth = depth_of(call);

    return 0 < depth && depth < bytes;
}

#endif
