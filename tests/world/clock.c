/* Preloaded into a program, this sets its clock. The file CLOCK_FILE has two numbers of seconds: what is added to the
 * time of day, and what is added to the time for which the machine has run. Without the file nothing is. Three more may
 * follow: how often the machine was started since, which changes the id of its start; how many bytes its disks have
 * free; and for how many seconds it has slept, which the time since its start has in it. It is compiled without
 * headers, so what it needs of the C library is declared here. */
typedef __SIZE_TYPE__ size_t;
typedef __PTRDIFF_TYPE__ ssize_t;

struct moment {
    long seconds, rest;
};

void *dlsym(void *handle, const char *name);
char *getenv(const char *name);
ssize_t read(int file, void *bytes, size_t size);
ssize_t write(int file, const void *bytes, size_t size);
int close(int file);
int pipe(int *ends);
int strcmp(const char *left, const char *right);

#define NEXT(name) dlsym((void *)-1L, name)

enum { REALTIME = 0, MONOTONIC_RAW = 4, REALTIME_COARSE = 5, BOOTTIME = 7, CLOSE_ON_EXEC = 02000000 };

typedef int (*opening)(const char *, int, ...);

/* The number of this place in the file; 0 if there is none. */
static long added(int place)
{
    const char *path = getenv("CLOCK_FILE");
    char text[96];
    int file = path ? ((opening)NEXT("open"))(path, CLOSE_ON_EXEC) : -1;
    if (file < 0)
        return 0;
    ssize_t size = read(file, text, sizeof text - 1);
    close(file);
    text[size > 0 ? size : 0] = 0;
    const char *next = text;
    while (place > 0 && *next)
        if (*next++ == ' ')
            place--;
    int negative = *next == '-';
    long number = 0;
    for (next += negative; *next >= '0' && *next <= '9'; next++)
        number = number * 10 + (*next - '0');
    return negative ? -number : number;
}

int clock_gettime(int clock, struct moment *moment)
{
    int told = ((int (*)(int, struct moment *))NEXT("clock_gettime"))(clock, moment);
    if (told == 0 && (clock == REALTIME || clock == REALTIME_COARSE))
        moment->seconds += added(0);
    if (told == 0 && clock == MONOTONIC_RAW)
        moment->seconds += added(1);
    if (told == 0 && clock == BOOTTIME)
        moment->seconds += added(1) + added(4);
    return told;
}

long time(long *kept)
{
    struct moment moment = {0, 0};
    clock_gettime(REALTIME, &moment);
    if (kept)
        *kept = moment.seconds;
    return moment.seconds;
}

int gettimeofday(struct moment *moment, void *zone)
{
    (void)zone;
    int told = clock_gettime(REALTIME, moment);
    moment->rest /= 1000;
    return told;
}

/* The id of the machine's start, with how often it was started since in its first place. */
static int opened(const char *name, const char *path, int flags, unsigned mode)
{
    long starts = strcmp(path, "/proc/sys/kernel/random/boot_id") == 0 ? added(2) : 0;
    int file = ((opening)NEXT(name))(path, flags, mode), ends[2];
    char id[37];
    if (starts == 0 || file < 0 || read(file, id, sizeof id) != sizeof id || pipe(ends) < 0)
        return file;
    close(file);
    id[0] = (char)('g' + starts % 20);
    write(ends[1], id, sizeof id);
    close(ends[1]);
    return ends[0];
}

int open(const char *path, int flags, unsigned mode)
{
    return opened("open", path, flags, mode);
}

int open64(const char *path, int flags, unsigned mode)
{
    return opened("open64", path, flags, mode);
}

struct disk {
    unsigned long block, unit, units, free, available, rest[9];
};

static int disk_of(const char *name, const char *path, struct disk *disk)
{
    int told = ((int (*)(const char *, struct disk *))NEXT(name))(path, disk);
    long bytes = added(3);
    if (told == 0 && bytes > 0)
        disk->available = (unsigned long)bytes / disk->unit;
    return told;
}

int statvfs(const char *path, struct disk *disk)
{
    return disk_of("statvfs", path, disk);
}

int statvfs64(const char *path, struct disk *disk)
{
    return disk_of("statvfs64", path, disk);
}
