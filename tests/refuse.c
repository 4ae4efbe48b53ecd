// refuse.c: refuses or holds back calls of a program, and lists those of files. It is loaded before the C library, by LD_PRELOAD; refuser.py
// compiles it and gives its orders. It takes no header, so that a compiler alone is enough, and the numbers of the system are those of x86-64.
//
// The file that REFUSE names is mapped as the `orders` below. A call is counted, in `seen`, where its name is one of `names`, a bit for each,
// and the path of its file ends in `ending`; it is the path that is given, or that of what is open. `malloc` and `realloc` are one name, and
// `open` is an `openat`. The call that is counted as number `at` is refused, and with `for_good` each one behind it; `at` 0 refuses none.
// `way` is the errno that is told, or 0 for a `pwrite` that takes one byte. Where `pause` is not 0, no call is refused, but it begins so many
// milliseconds later. The file that REFUSE_LIST names gets a line for each call but those for memory: its name and its path, and behind it
// `refused` where it was.

typedef unsigned long size_t;
typedef long ssize_t;
typedef long off_t;

enum name { MEMORY, PWRITE, FDATASYNC, FSYNC, FTRUNCATE, RENAME, OPENAT, PREAD, UNLINK, NAMES };

static const char *const spelled[NAMES] = {"memory", "pwrite", "fdatasync", "fsync", "ftruncate", "rename", "openat", "pread", "unlink"};

enum number { READ_AT = 17, WRITE_AT = 18, WRITE = 1, CLOSE = 3, MAP = 9, SLEEP = 35, SYNC = 74, SYNC_DATA = 75, TRUNCATE = 77, NAME_ANEW = 82,
              REMOVE = 87, READ_LINK = 89, OPEN_AT = 257 };

enum { WORKING_FOLDER = -100, TO_READ_AND_WRITE = 2, TO_WRITE = 1, CREATED = 0100, APPENDED = 02000, CLOSED_BY_EXEC = 02000000 };

enum { READABLE = 1, WRITABLE = 2, SHARED = 1 };

enum { PATH_BYTES = 1024, ENDING_BYTES = 96 };

struct orders {
    unsigned names, way, for_good, pause;
    unsigned long at, seen, refused;
    char ending[ENDING_BYTES];
};

extern long syscall(long, ...);
extern char *getenv(const char *);
extern int *__errno_location(void);
extern void *__libc_malloc(size_t);
extern void *__libc_realloc(void *, size_t);

static struct orders none;
static struct orders *orders = &none;
static int list = -1;

__attribute__((constructor)) static void begin(void) {
    const char *path = getenv("REFUSE"), *listed = getenv("REFUSE_LIST");
    int file = path ? (int)syscall(OPEN_AT, WORKING_FOLDER, path, TO_READ_AND_WRITE | CLOSED_BY_EXEC) : -1;
    if (file < 0)
        return;
    long found = syscall(MAP, 0L, sizeof none, READABLE | WRITABLE, SHARED, file, 0L);
    if (found != -1)
        orders = (struct orders *)found;
    syscall(CLOSE, file);
    if (listed)
        list = (int)syscall(OPEN_AT, WORKING_FOLDER, listed, TO_WRITE | CREATED | APPENDED | CLOSED_BY_EXEC, 0666);
}

static size_t length(const char *text) {
    size_t count = 0;
    while (text[count])
        count++;
    return count;
}

static int ends_in(const char *path, const char *ending) {
    size_t long_one = length(path), short_one = length(ending);
    if (short_one > long_one)
        return 0;
    for (size_t place = 0; place < short_one; place++)
        if (path[long_one - short_one + place] != ending[place])
            return 0;
    return 1;
}

// Adds a text behind what a line has, as far as there is room. How long the line is then.
static size_t add(char *line, size_t at, const char *text) {
    while (*text && at < PATH_BYTES + 64)
        line[at++] = *text++;
    return at;
}

static void tell(enum name name, const char *path, const char *behind) {
    char line[PATH_BYTES + 64];
    size_t size = add(line, 0, spelled[name]);
    size = add(line, size, " ");
    size = add(line, size, path);
    size = add(line, size, behind);
    syscall(WRITE, list, line, size);
}

// Puts the path of an open file into the room, or nothing.
static const char *path_of(int file, char *room) {
    char digits[12], link[32];
    size_t count = 0, size = add(link, 0, "/proc/self/fd/");
    for (unsigned rest = (unsigned)file; count == 0 || rest; rest /= 10)
        digits[count++] = (char)('0' + rest % 10);
    while (count)
        link[size++] = digits[--count];
    link[size] = 0;
    long read = syscall(READ_LINK, link, room, (size_t)PATH_BYTES - 1);
    room[read < 0 ? 0 : read] = 0;
    return room;
}

// Whether this call is the one to refuse. It is counted then, where it is one of those.
static int is_meant(enum name name, const char *path) {
    unsigned long at = __atomic_load_n(&orders->at, __ATOMIC_SEQ_CST);
    if (!(orders->names >> name & 1) || !ends_in(path, orders->ending))
        return 0;
    unsigned long count = __atomic_add_fetch(&orders->seen, 1, __ATOMIC_SEQ_CST);
    if (at == 0 || (orders->for_good ? count < at : count != at))
        return 0;
    __atomic_add_fetch(&orders->refused, 1, __ATOMIC_SEQ_CST);
    return 1;
}

// Whether a call on this path, or on this open file, is refused, as errno says then.
static int is_refused(enum name name, const char *path, int file) {
    char room[PATH_BYTES];
    int is_listed = list >= 0 && name != MEMORY;
    if (orders == &none || (!is_listed && !(orders->names >> name & 1)))
        return 0;
    if (!path)
        path = is_listed || orders->ending[0] ? path_of(file, room) : "";
    int is_one = is_meant(name, path);
    if (is_listed)
        tell(name, path, is_one && !orders->pause ? " refused\n" : "\n");
    if (is_one && orders->pause) {
        long pause[2] = {orders->pause / 1000, orders->pause % 1000 * 1000000L};
        syscall(SLEEP, pause, 0L);
        return 0;
    }
    if (is_one)
        *__errno_location() = (int)orders->way;
    return is_one;
}

void *malloc(size_t size) {
    return is_refused(MEMORY, "", -1) ? 0 : __libc_malloc(size);
}

void *realloc(void *old, size_t size) {
    return is_refused(MEMORY, "", -1) ? 0 : __libc_realloc(old, size);
}

// Each hands on to the system what is not refused.
#define HANDS_ON(name, path, file, result, call, taken, ...)                        \
    result call taken {                                                             \
        return is_refused(name, path, file) ? -1 : (result)syscall(__VA_ARGS__);    \
    }

HANDS_ON(FDATASYNC, 0, file, int, fdatasync, (int file), SYNC_DATA, file)
HANDS_ON(FSYNC, 0, file, int, fsync, (int file), SYNC, file)
HANDS_ON(FTRUNCATE, 0, file, int, ftruncate, (int file, off_t size), TRUNCATE, file, size)
HANDS_ON(FTRUNCATE, 0, file, int, ftruncate64, (int file, off_t size), TRUNCATE, file, size)
HANDS_ON(RENAME, from, -1, int, rename, (const char *from, const char *to), NAME_ANEW, from, to)
HANDS_ON(UNLINK, path, -1, int, unlink, (const char *path), REMOVE, path)
HANDS_ON(PREAD, 0, file, ssize_t, pread, (int file, void *to, size_t size, off_t at), READ_AT, file, to, size, at)
HANDS_ON(PREAD, 0, file, ssize_t, pread64, (int file, void *to, size_t size, off_t at), READ_AT, file, to, size, at)

ssize_t pwrite(int file, const void *from, size_t size, off_t at) {
    if (!is_refused(PWRITE, 0, file))
        return syscall(WRITE_AT, file, from, size, at);
    return orders->way == 0 && size > 0 ? syscall(WRITE_AT, file, from, (size_t)1, at) : -1;
}

ssize_t pwrite64(int file, const void *from, size_t size, off_t at) {
    return pwrite(file, from, size, at);
}

#define OPENS(call, folder, ...)                                                                            \
    int call(__VA_ARGS__, ...) {                                                                            \
        __builtin_va_list more;                                                                             \
        __builtin_va_start(more, flags);                                                                    \
        unsigned mode = __builtin_va_arg(more, unsigned);                                                   \
        __builtin_va_end(more);                                                                             \
        return is_refused(OPENAT, path, -1) ? -1 : (int)syscall(OPEN_AT, folder, path, flags, mode);        \
    }

OPENS(openat, folder, int folder, const char *path, int flags)
OPENS(open, WORKING_FOLDER, const char *path, int flags)
