/* Preloaded into a program, this refuses some of its requests for memory: from the one numbered REFUSE_FIRST to the one
 * numbered REFUSE_LAST, counted from 1 as the program starts. Each refusal writes its size, 8 bytes, to the descriptor
 * REFUSE_NOTE. If REFUSE_FIRST is 0, none is refused, and the size of each request is written. What the program draws
 * at random is the same in each run.
 * It is compiled without headers, so what it needs of the C library is declared here. */
typedef __SIZE_TYPE__ size_t;

void *__libc_malloc(size_t size);
void *__libc_calloc(size_t count, size_t size);
void *__libc_realloc(void *old, size_t size);
void *__libc_memalign(size_t alignment, size_t size);
char *getenv(const char *name);
long write(int descriptor, const void *bytes, size_t size);
int *__errno_location(void);

enum { NO_MEMORY = 12 };

static unsigned long first, last, made;
static int note;

#include "../shared/preloaded.h"

__attribute__((constructor)) static void begin(void)
{
    note = (int)number_in("REFUSE_NOTE");
    last = number_in("REFUSE_LAST");
    first = number_in("REFUSE_FIRST");
    made = 0;
}

static int refused(size_t size)
{
    made++;
    if (first != 0 && (made < first || made > last))
        return 0;
    write(note, &size, sizeof size);
    *__errno_location() = NO_MEMORY;
    return first != 0;
}

int getentropy(void *bytes, size_t size)
{
    static unsigned char drawn;
    for (size_t at = 0; at < size; at++)
        ((unsigned char *)bytes)[at] = ++drawn;
    return 0;
}

void *malloc(size_t size)
{
    return refused(size) ? 0 : __libc_malloc(size);
}

void *calloc(size_t count, size_t size)
{
    return refused(count * size) ? 0 : __libc_calloc(count, size);
}

void *realloc(void *old, size_t size)
{
    return refused(size) ? 0 : __libc_realloc(old, size);
}

void *memalign(size_t alignment, size_t size)
{
    return refused(size) ? 0 : __libc_memalign(alignment, size);
}

void *aligned_alloc(size_t alignment, size_t size)
{
    return memalign(alignment, size);
}

int posix_memalign(void **place, size_t alignment, size_t size)
{
    void *got = memalign(alignment, size);
    if (!got)
        return NO_MEMORY;
    *place = got;
    return 0;
}
