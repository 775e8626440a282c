/* Preloaded into a program, this gives its standard output room for ROOM_BYTES bytes: a write takes what there is room
 * for, and each later one fails with ENOSPC, as on a disk that is full. Other descriptors are left alone. It is
 * compiled without headers, so what it needs of the C library is declared here. */
typedef __SIZE_TYPE__ size_t;
typedef __PTRDIFF_TYPE__ ssize_t;

void *dlsym(void *handle, const char *name);
char *getenv(const char *name);
int *__errno_location(void);

#define NEXT(name) dlsym((void *)-1L, name)

enum { STANDARD_OUTPUT = 1, NO_SPACE = 28 };

static size_t room;

#include "../shared/preloaded.h"

__attribute__((constructor)) static void begin(void)
{
    room = number_in("ROOM_BYTES");
}

ssize_t write(int descriptor, const void *bytes, size_t size)
{
    int is_bounded = descriptor == STANDARD_OUTPUT;
    ssize_t written;
    if (is_bounded && room == 0) {
        *__errno_location() = NO_SPACE;
        return -1;
    }
    written = ((ssize_t(*)(int, const void *, size_t))NEXT("write"))(
        descriptor, bytes, is_bounded && size > room ? room : size);
    if (is_bounded && written > 0)
        room -= (size_t)written;
    return written;
}
