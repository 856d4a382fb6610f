/* Refuses requests for memory, which are counted from 1: the one whose number stands in REFUSE, and each from the one on whose
   number stands in REFUSE_FROM. Linked to a program with --wrap=malloc,--wrap=realloc, or, with PRELOADED, a library that stands
   in LD_PRELOAD of a program that is linked already. */
#include <stddef.h>
#include <stdlib.h>

#ifdef PRELOADED
void *__libc_malloc(size_t size);
void *__libc_realloc(void *block, size_t size);
#define REAL(name) __libc_##name
#define OURS(name) name
#else
void *__real_malloc(size_t size);
void *__real_realloc(void *block, size_t size);
#define REAL(name) __real_##name
#define OURS(name) __wrap_##name
#endif

static long requests;

static int is_refused(void) {
    const char *number = getenv("REFUSE");
    const char *first = getenv("REFUSE_FROM");
    requests++;
    return (number != NULL && requests == atol(number)) || (first != NULL && requests >= atol(first));
}

void *OURS(malloc)(size_t size) { return is_refused() ? NULL : REAL(malloc)(size); }

void *OURS(realloc)(void *block, size_t size) { return is_refused() ? NULL : REAL(realloc)(block, size); }
