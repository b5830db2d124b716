/* How much stack a call takes: it runs in a thread of its own, where all that lies below its caller was painted, and what is no longer
 * painted afterwards was used. What a call skips over without writing counts as far as something below it was written.
 */
#ifndef PAINTED_H
#define PAINTED_H

#include <pthread.h>
#include <stddef.h>
#include <stdint.h>
#include <stdlib.h>

enum { STACK = 1 << 20, PAINT = 0xA5 };

struct painted {
    void (*call)(void);
    uint8_t *bottom; /* of the thread's stack */
    size_t used;
};

/* The lowest bytes of this frame are those asked for last. The bytes are volatile, as a call of memset would paint over itself. */
static void *paint_and_call(void *asked) {
    struct painted *painted = asked;
    volatile uint8_t *top = __builtin_alloca(16), *at;
    for (at = painted->bottom; at < top; at++) *at = PAINT;
    painted->call();
    for (at = painted->bottom; at < top && *at == PAINT; at++) {}
    painted->used = (size_t)(top - at);
    return NULL;
}

static size_t used(void (*call)(void)) {
    struct painted painted = {call, aligned_alloc(4096, STACK), 0};
    pthread_attr_t attributes;
    pthread_t thread;
    if (!painted.bottom) exit(1);
    pthread_attr_init(&attributes);
    if (pthread_attr_setstack(&attributes, painted.bottom, STACK)) exit(1);
    if (pthread_create(&thread, &attributes, paint_and_call, &painted)) exit(1);
    pthread_join(thread, NULL);
    pthread_attr_destroy(&attributes);
    free(painted.bottom);
    return painted.used;
}

#endif
