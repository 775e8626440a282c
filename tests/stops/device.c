/* Preloaded into a program, this counts its calls that read and change files, and interferes with some of them: those
 * numbered from DEVICE_FIRST to DEVICE_LAST, counted from 1 as the program starts. DEVICE_MODE says how:
 *   k  the program is killed before the call
 *   h  half of what a call writes is written, and then the program is killed; what writes no two bytes isn't counted
 *   f  the call fails with EIO, and does nothing
 *   n  each that changes a file is noted, and the program is killed before the one that comes after DEVICE_LAST, if
 *      that isn't 0
 *   e  as f, and each call on any file that changes it is noted as in mode n, but one that fails as the operation x
 *   b  each read that has the byte at the place DEVICE_FIRST fails with EIO; nothing is counted
 * Reads are counted in mode f if DEVICE_READS is 1, and not in the other modes. If DEVICE_ONLY names a file, calls on
 * others are left alone and not counted. Each call that was interfered with, and in modes n and e each change, is
 * written to the descriptor DEVICE_NOTE: an operation and a file as two bytes, an offset, the length of the path and
 * that of what is written as eight bytes each, then the path, and then what is written. The files are d, a path that
 * ends in "/db", l, one that ends in "/db-wal", and o, any other; 1 is standard output, which fails only if named.
 * Standard error never fails. If DEVICE_STEADY is 1, what the program draws at random is the same in each run.
 * It is compiled without headers, so what it needs of the C library is declared here. */
typedef __SIZE_TYPE__ size_t;
typedef __PTRDIFF_TYPE__ ssize_t;
typedef long off_t;
typedef int (*call_with_path)(const char *, ...);

void *dlsym(void *handle, const char *name);
char *getenv(const char *name);
int *__errno_location(void);
int raise(int signal);
size_t strlen(const char *text);
int strcmp(const char *left, const char *right);

#define NEXT(name) dlsym((void *)-1L, name)

enum { IO_ERROR = 5, KILL = 9, CREATES = 0100, DESCRIPTORS = 1024, LONGEST = 1024 };

static unsigned long first, last, made;
static int note, reads, steady;
static char mode = '-', only, paths[DESCRIPTORS][LONGEST];
static const char standard_output[] = "standard output";

#include "../shared/preloaded.h"

static void remember(int descriptor, const char *path)
{
    size_t at = 0;
    if (descriptor < 0 || descriptor >= DESCRIPTORS)
        return;
    for (; path[at] && at < LONGEST - 1; at++)
        paths[descriptor][at] = path[at];
    paths[descriptor][at] = 0;
}

static const char *path_of(int descriptor)
{
    return descriptor >= 0 && descriptor < DESCRIPTORS ? paths[descriptor] : "";
}

static int ends_in(const char *path, const char *end)
{
    size_t length = strlen(path), part = strlen(end);
    return length >= part && strcmp(path + length - part, end) == 0;
}

static char kind_at(const char *path)
{
    if (strcmp(path, standard_output) == 0)
        return '1';
    return ends_in(path, "/db") ? 'd' : ends_in(path, "/db-wal") ? 'l' : 'o';
}

__attribute__((constructor)) static void begin(void)
{
    const char *asked = getenv("DEVICE_MODE"), *file = getenv("DEVICE_ONLY");
    first = number_in("DEVICE_FIRST");
    last = number_in("DEVICE_LAST");
    reads = (int)number_in("DEVICE_READS");
    steady = (int)number_in("DEVICE_STEADY");
    note = (int)number_in("DEVICE_NOTE");
    only = file ? *file : 0;
    remember(1, standard_output);
    made = 0;
    mode = asked ? *asked : '-';
}

static ssize_t put(int descriptor, const void *bytes, size_t size)
{
    return ((ssize_t(*)(int, const void *, size_t))NEXT("write"))(descriptor, bytes, size);
}

static void tell(char operation, char kind, const char *path, off_t offset, size_t size, const void *bytes)
{
    struct __attribute__((packed)) {
        char operation, kind;
        off_t offset;
        size_t length, size;
    } head = {operation, kind, offset, strlen(path), bytes ? size : 0};
    put(note, &head, sizeof head);
    put(note, path, head.length);
    put(note, bytes, head.size);
}

/* Whether a call is one of those that the mode is about. It is counted if it may be. */
static int is_meant(char operation, char kind, off_t offset, size_t size)
{
    int is_read = operation == 'r', may_fail = mode == 'f' || mode == 'e';
    if (mode == '-' || (only && kind != only))
        return 0;
    if (mode == 'b')
        return is_read && first - (unsigned long)offset < size;
    if ((is_read && !(mode == 'f' && reads)) || (may_fail && kind == '1' && only != '1'))
        return 0;
    if (mode == 'h' && (operation != 'w' || size < 2))
        return 0;
    made++;
    return mode == 'n' || (made >= first && made <= last);
}

/* Whether a call has to fail. If the program is to be killed within it, this returns in mode h alone, with `half`
 * set. */
static int interferes(char operation, const char *path, off_t offset, size_t size, const void *bytes, int *half)
{
    char kind = kind_at(path);
    int is_one = is_meant(operation, kind, offset, size);
    if (mode == 'n' && is_one && last && made > last)
        raise(KILL);
    if (is_one ? mode == 'n' : mode == 'e' && operation != 'r') {
        tell(operation, kind, path, offset, size, bytes);
        return 0;
    }
    if (!is_one)
        return 0;
    tell(mode == 'e' ? 'x' : operation, kind, path, offset, 0, 0);
    if (mode == 'h') {
        *half = 1;
        return 0;
    }
    if (mode == 'k')
        raise(KILL);
    *__errno_location() = IO_ERROR;
    return 1;
}

int open(const char *path, int flags, unsigned mode_of_file)
{
    int descriptor;
    if (interferes(flags & CREATES ? 'c' : 'r', path, 0, 0, 0, 0))
        return -1;
    descriptor = ((call_with_path)NEXT("open"))(path, flags, mode_of_file);
    remember(descriptor, path);
    return descriptor;
}

ssize_t read(int descriptor, void *bytes, size_t size)
{
    if (interferes('r', path_of(descriptor), 0, size, 0, 0))
        return -1;
    return ((ssize_t(*)(int, void *, size_t))NEXT("read"))(descriptor, bytes, size);
}

ssize_t pread(int descriptor, void *bytes, size_t size, off_t offset)
{
    if (interferes('r', path_of(descriptor), offset, size, 0, 0))
        return -1;
    return ((ssize_t(*)(int, void *, size_t, off_t))NEXT("pread"))(descriptor, bytes, size, offset);
}

ssize_t write(int descriptor, const void *bytes, size_t size)
{
    int half = 0;
    ssize_t written;
    if (descriptor != 2 && interferes('w', path_of(descriptor), -1, size, bytes, &half))
        return -1;
    written = put(descriptor, bytes, half ? size / 2 : size);
    if (half)
        raise(KILL);
    return written;
}

ssize_t pwrite(int descriptor, const void *bytes, size_t size, off_t offset)
{
    int half = 0;
    ssize_t written;
    if (interferes('w', path_of(descriptor), offset, size, bytes, &half))
        return -1;
    written = ((ssize_t(*)(int, const void *, size_t, off_t))NEXT("pwrite"))(
        descriptor, bytes, half ? size / 2 : size, offset);
    if (half)
        raise(KILL);
    return written;
}

int getentropy(void *bytes, size_t size)
{
    static unsigned char drawn;
    if (!steady)
        return ((int (*)(void *, size_t))NEXT("getentropy"))(bytes, size);
    for (size_t at = 0; at < size; at++)
        ((unsigned char *)bytes)[at] = ++drawn;
    return 0;
}

int ftruncate(int descriptor, off_t length)
{
    if (interferes('t', path_of(descriptor), length, 0, 0, 0))
        return -1;
    return ((int (*)(int, off_t))NEXT("ftruncate"))(descriptor, length);
}

int fsync(int descriptor)
{
    if (interferes('s', path_of(descriptor), 0, 0, 0, 0))
        return -1;
    return ((int (*)(int))NEXT("fsync"))(descriptor);
}

int fdatasync(int descriptor)
{
    if (interferes('s', path_of(descriptor), 0, 0, 0, 0))
        return -1;
    return ((int (*)(int))NEXT("fdatasync"))(descriptor);
}

int rename(const char *from, const char *to)
{
    if (interferes('m', to, 0, 0, 0, 0))
        return -1;
    return ((int (*)(const char *, const char *))NEXT("rename"))(from, to);
}

int unlink(const char *path)
{
    if (interferes('u', path, 0, 0, 0, 0))
        return -1;
    return ((int (*)(const char *))NEXT("unlink"))(path);
}

int mkdir(const char *path, unsigned mode_of_folder)
{
    if (interferes('k', path, 0, 0, 0, 0))
        return -1;
    return ((int (*)(const char *, unsigned))NEXT("mkdir"))(path, mode_of_folder);
}
