/* Preloaded before a program, it stands between that and the system. The environment says what it does; without a word of
   it each call goes on as it is.

   The clock.
     CLOCK_SECONDS, CLOCK_NANOSECONDS   it says that moment
     CLOCK_FILE                         it says what stands in that file, a struct timespec

   Memory, by malloc, calloc and realloc.
     FAIL_ALLOC     the allocation of that number, from 1 on, is refused, and no other; those of all threads are counted
     COUNT_ALLOC    a file, in which at the end stands a line for each write to standard output: how many allocations came
                    before it and behind the last one; and then how many came behind all of them

   Reads and writes, of any file.
     READ_SIZE               the most bytes of a read
     FAIL_READ, FAIL_WRITE   the read of that number and each behind it fails; the same of writes to standard output
     COUNT_CALLS             a file, in which at the end stands how many reads and writes to standard output came
     FAIL_READ_AT            the read at a place that has that number fails
     LONGEST_READ_AT         so does one of more bytes
     FAIL_LOOK               the question for a file's length that has that number fails

   The calls on the files below the folder FAULTS_FOLDER, and on the folder itself. Each is told in the file FAULTS_LOG, its
   kind and the last part of its path. A call fails as the file FAULTS_PLAN says, a line SERIAL KIND NTH HOW NUMBER: the NTH
   call of that kind since SERIAL was another. HOW is
     fail       nothing is done, and the system's error is NUMBER
     short      half of the bytes are written or read, rounded up
     full       the same of a write; the next one fails with NUMBER
     on         the NTH call and each behind it fails with NUMBER
     elsewhere  a look at a path tells of another file than stands there
     abroad     it tells of the file of that number on another device
   The kinds are open, look (at a path), stat (of an open file), read, write, truncate, datasync, sync, rename (of what is told the
   old name) and unlink.

   Each call that changes or syncs a file below the folder STOP_FOLDER, or syncs that folder, is counted from 1 on, and once it
   is done it is told in the file STOP_LOG by a line:
     create NAME            write NAME AT SIZE     cut NAME TO
     sync NAME              folder                 unlink NAME
     rename NAME TO
   At the call of the number STOP_BEFORE the program ends before it, as by kill -9, and at that of STOP_AFTER behind it. The
   write of the number STOP_FAILS, of those alone, is done and fails.

   Of both folders the file by which a daemon locks them is left out: each call on it goes on as it is.

   Threads that are told apart, as those that write the daemon's notes, which come whenever it is time for them.
     ASIDE        FIRST LAST: the threads that are started as these, from 1 on. Their calls are told in ASIDE_LOG and fail by ASIDE_PLAN
                  in place of the words above; and for STOP_FOLDER they don't count, unless ASIDE_COUNTS is set
     ASIDE_GATE   a file: while it is there each of their calls on files waits before it is made
     WHO_LOG      a file, in which each file that is made is told by the number of the thread and its path

   Calls that are held, and threads.
     HOLDS       a file of lines KIND PATH NUMBER. A call of that kind on a path that begins so is held until no line says so any
                 more; then it goes on, or, if NUMBER isn't 0, fails with that error of the system. The kinds are open, read,
                 write, sync, truncate, rename, unlink and look; and futex, whose PATH is the number of a thread and a slash: a thread
                 that waited for a lock is held as it wakes
     HOLDS_LOG   each call that is held is told there, by a line KIND PATH
     PAUSES      SEED PERCENT MICROS: of all these calls, held or not, and of waking others by a lock, so many wait up to so
                 long first, as drawn for each thread; so that threads meet in many orders

   Connections.
     QUIET_SECONDS   a read or a write that may wait 300 seconds waits so many
     WIRE            a file that says at each connection how that is cut and what fails, in numbers: the most bytes of its first
                     read, of each later one and of a write, 0 for as many as there are; the read and the write that fail, 0
                     for none; and whether that write takes no byte in place of an error. Behind that, at 64, it is told at
                     the end how often was read and written. A read waits for as much as it may have, or for the end. */
#define _GNU_SOURCE
#include <dlfcn.h>
#include <errno.h>
#include <fcntl.h>
#include <linux/futex.h>
#include <pthread.h>
#include <signal.h>
#include <stdarg.h>
#include <stdio.h>
#include <stdlib.h>
#include <string.h>
#include <sys/socket.h>
#include <sys/stat.h>
#include <sys/syscall.h>
#include <sys/time.h>
#include <time.h>
#include <unistd.h>

#define NEXT(name) ((__typeof__(&name))dlsym(RTLD_NEXT, #name))

extern void *__libc_malloc(size_t size);
extern void *__libc_calloc(size_t count, size_t size);
extern void *__libc_realloc(void *old, size_t size);
extern void __libc_free(void *old);

static long number_in(const char *name)
{
    const char *word = getenv(name);

    return word ? atol(word) : 0;
}

static int fails_with(int number)
{
    errno = number;
    return -1;
}

/* Adds a line to a file that the environment names. */
static void tell(const char *name, const char *line, int size)
{
    const char *path = getenv(name);
    int file = path ? syscall(SYS_openat, AT_FDCWD, path, O_WRONLY | O_APPEND | O_CREAT, 0600) : -1;

    if (file >= 0) {
        syscall(SYS_write, file, line, size);
        syscall(SYS_close, file);
    }
}

/* --- Threads that are told apart ------------------------------------------------------------------------------------ */

static long threads_started;
static __thread long own_number;
static __thread int aside;

struct begun { void *(*run)(void *); void *given; long number; };

static void *run_begun(void *given)
{
    struct begun begun = *(struct begun *)given;
    const char *word = getenv("ASIDE");
    long first, last;

    __libc_free(given);
    own_number = begun.number;
    aside = word && sscanf(word, "%ld %ld", &first, &last) == 2 && first <= begun.number && begun.number <= last;
    return begun.run(begun.given);
}

int pthread_create(pthread_t *thread, const pthread_attr_t *attributes, void *(*run)(void *), void *given)
{
    struct begun *begun = __libc_malloc(sizeof *begun);

    if (!begun)
        return EAGAIN;
    *begun = (struct begun){run, given, __atomic_add_fetch(&threads_started, 1, __ATOMIC_SEQ_CST)};
    return NEXT(pthread_create)(thread, attributes, run_begun, begun);
}

/* Waits while those that are told apart are not to go on. */
static void wait_aside(void)
{
    const char *gate = aside ? getenv("ASIDE_GATE") : NULL;
    struct stat there;

    while (gate && syscall(SYS_newfstatat, AT_FDCWD, gate, &there, 0) == 0)
        usleep(1000);
}

/* --- Calls that are held, and threads ------------------------------------------------------------------------------- */

/* Waits a little before some calls of a thread, as PAUSES says. */
static void pause_some(void)
{
    static __thread unsigned long drawn;
    const char *word = getenv("PAUSES");
    unsigned long seed, percent, micros;

    if (!word || sscanf(word, "%lu %lu %lu", &seed, &percent, &micros) != 3)
        return;
    if (!drawn)
        drawn = (seed + 1) * 2654435761UL ^ (unsigned long)syscall(SYS_gettid) << 20 ^ 88172645463325252UL;
    drawn ^= drawn << 13;
    drawn ^= drawn >> 7;
    drawn ^= drawn << 17;
    if (drawn % 100 < percent)
        usleep((drawn >> 20) % micros);
}

/* Whether HOLDS says that a call of this kind on this path is held, and with which number. */
static int is_held(const char *kind, const char *path, long *number)
{
    char text[4000], held[16], begins[400];
    int file = syscall(SYS_openat, AT_FDCWD, getenv("HOLDS"), O_RDONLY), size = 0;
    ssize_t read = file < 0 ? 0 : syscall(SYS_read, file, text, sizeof text - 1);

    if (file >= 0)
        syscall(SYS_close, file);
    text[read < 0 ? 0 : read] = 0;
    for (char *at = text; sscanf(at, "%15s %399s %ld\n%n", held, begins, number, &size) == 3; at += size)
        if (strcmp(held, kind) == 0 && strncmp(path, begins, strlen(begins)) == 0)
            return 1;
    return 0;
}

/* Holds a call for as long as HOLDS says. Whether it fails then. */
static int held(const char *kind, const char *path)
{
    char line[500];
    long number = 0, last = 0;
    int told = 0;

    wait_aside();
    pause_some();
    while (path && getenv("HOLDS") && is_held(kind, path, &number)) {
        if (!told++)
            tell("HOLDS_LOG", line, snprintf(line, sizeof line, "%s %.400s\n", kind, path));
        last = number;
        usleep(1000);
    }
    if (last)
        errno = last;
    return last != 0;
}

/* The same of a call on an open file. */
static int held_file(const char *kind, int file)
{
    char link[40], path[400];
    ssize_t size;

    if (!getenv("HOLDS")) {
        wait_aside();
        pause_some();
        return 0;
    }
    snprintf(link, sizeof link, "/proc/self/fd/%d", file);
    size = readlink(link, path, sizeof path - 1);
    path[size < 0 ? 0 : size] = 0;
    return held(kind, path);
}

/* A thread waits for a lock, or wakes others, by this call. */
long syscall(long number, ...)
{
    static long (*next)(long, ...);
    char thread[40];
    long words[6], answer;
    int failed, call;
    va_list rest;

    va_start(rest, number);
    for (int at = 0; at < 6; at++)
        words[at] = va_arg(rest, long);
    va_end(rest);
    if (!next)
        next = NEXT(syscall);
    if (number != SYS_futex)
        return next(number, words[0], words[1], words[2], words[3], words[4], words[5]);
    call = words[1] & FUTEX_CMD_MASK;
    answer = next(number, words[0], words[1], words[2], words[3], words[4], words[5]);
    failed = errno;
    if (call == FUTEX_WAIT || call == FUTEX_WAIT_BITSET) {
        snprintf(thread, sizeof thread, "%ld/", next(SYS_gettid));
        held("futex", thread);
    } else {
        pause_some();
    }
    errno = failed;
    return answer;
}

/* --- The clock ------------------------------------------------------------------------------------------------------ */

int clock_gettime(clockid_t clock, struct timespec *now)
{
    const char *path = getenv("CLOCK_FILE");

    if (clock == CLOCK_REALTIME && path) {
        int file = syscall(SYS_openat, AT_FDCWD, path, O_RDONLY);
        ssize_t count = syscall(SYS_read, file, now, sizeof *now);

        syscall(SYS_close, file);
        return count == sizeof *now ? 0 : -1;
    }
    if (clock == CLOCK_REALTIME && getenv("CLOCK_SECONDS")) {
        *now = (struct timespec){atoll(getenv("CLOCK_SECONDS")), number_in("CLOCK_NANOSECONDS")};
        return 0;
    }
    return syscall(SYS_clock_gettime, clock, now);
}

/* --- Memory --------------------------------------------------------------------------------------------------------- */

/* The writes that are told apart; what is allocated behind the last of them is told together. */
#define WRITES 4096

/* The number of the allocation that is refused, 0 for none; less than that before it was read. */
static long refused = -1;
/* Threads allocate at once, so each sum is an atomic one. */
static unsigned long allocated, since;
static unsigned long before[WRITES];
static unsigned writes_told;

static int refuses(void)
{
    unsigned long number = __atomic_add_fetch(&allocated, 1, __ATOMIC_SEQ_CST);

    __atomic_add_fetch(&since, 1, __ATOMIC_SEQ_CST);
    if (refused < 0)
        refused = number_in("FAIL_ALLOC");
    if (refused == 0 || number != (unsigned long)refused)
        return 0;
    errno = ENOMEM;
    return 1;
}

void *malloc(size_t size) { return refuses() ? NULL : __libc_malloc(size); }
void *calloc(size_t count, size_t size) { return refuses() ? NULL : __libc_calloc(count, size); }
void *realloc(void *old, size_t size) { return refuses() ? NULL : __libc_realloc(old, size); }

/* --- Reads and writes of any file, counted -------------------------------------------------------------------------- */

static long reads, writes, reads_at, looks;

static int is_counted_out(const char *name, long number)
{
    long first = number_in(name);

    return first > 0 && number >= first;
}

__attribute__((destructor)) static void tell_counts(void)
{
    unsigned long last = since;
    const char *path = getenv("COUNT_ALLOC");
    FILE *file;

    /* What is allocated here is none of the program's. */
    refused = 0;
    file = path ? fopen(path, "w") : NULL;
    if (file) {
        for (unsigned at = 0; at < writes_told; at++)
            fprintf(file, "%lu\n", before[at]);
        fprintf(file, "%lu\n", last);
        fclose(file);
    }
    path = getenv("COUNT_CALLS");
    file = path ? fopen(path, "w") : NULL;
    if (file) {
        fprintf(file, "%ld %ld\n", reads, writes);
        fclose(file);
    }
}

/* A program with threads ends by this call, behind which nothing is told. */
void _exit(int status)
{
    tell_counts();
    for (;;)
        syscall(SYS_exit_group, status);
}

/* --- The files of a folder ------------------------------------------------------------------------------------------ */

#define MOST_FILES 1024

/* The open files that are watched: the last part of the path of each, "." for the folder itself. */
static char planned[MOST_FILES][256], counted[MOST_FILES][256];

#define LOCK ".lock~"

/* The last part of a path of the folder that the environment names, "." for the folder; NULL for another path, and for the
   file by which the folder is locked. */
static const char *name_in(const char *path, const char *place)
{
    const char *folder = getenv(place), *name;
    size_t size = folder ? strlen(folder) : 0;

    if (!folder || !path || strncmp(path, folder, size) != 0 || (path[size] != '/' && path[size] != 0))
        return NULL;
    name = path[size] == '/' && path[size + 1] ? strrchr(path, '/') + 1 : ".";
    return strcmp(name, LOCK) == 0 ? NULL : name;
}

static const char *name_of(char names[][256], int file)
{
    return file >= 0 && file < MOST_FILES && names[file][0] ? names[file] : NULL;
}

static void keep(char names[][256], int file, const char *name)
{
    if (file >= 0 && file < MOST_FILES)
        snprintf(names[file], sizeof names[file], "%s", name ? name : "");
}

enum how { GOES, FAILS, SHORT, FULL, ELSEWHERE, ABROAD };

/* Threads call at once. */
static pthread_mutex_t plan_read = PTHREAD_MUTEX_INITIALIZER, changing = PTHREAD_MUTEX_INITIALIZER;

/* How far a plan is: which it is, how many calls of its kind came since, and the kind whose next call fails. */
struct progress { long serial, count; char full_kind[16]; };

/* That of all threads but some, and that of those which are told apart. */
static struct progress progress[2] = {{-1, 0, ""}, {-1, 0, ""}};

/* What becomes of a call of this kind, for who has the plan alone. */
static enum how planned_for(const char *kind, const char *name, struct progress *at)
{
    char text[100] = "", wanted[16] = "", how[16] = "";
    const char *path = getenv(aside ? "ASIDE_PLAN" : "FAULTS_PLAN");
    long now = 0, nth = 0, number = 0;
    int plan;

    tell(aside ? "ASIDE_LOG" : "FAULTS_LOG", text, snprintf(text, sizeof text, "%s %.80s\n", kind, name));
    memset(text, 0, sizeof text);
    plan = path ? syscall(SYS_openat, AT_FDCWD, path, O_RDONLY) : -1;
    if (plan >= 0) {
        syscall(SYS_read, plan, text, sizeof text - 1);
        syscall(SYS_close, plan);
    }
    if (sscanf(text, "%ld %15s %ld %15s %ld", &now, wanted, &nth, how, &number) != 5)
        return GOES;
    if (now != at->serial) {
        at->serial = now;
        at->count = 0;
        at->full_kind[0] = 0;
    }
    if (strcmp(kind, at->full_kind) == 0) {
        at->full_kind[0] = 0;
        errno = number;
        return FAILS;
    }
    if (strcmp(kind, wanted) != 0 || ++at->count < nth || (at->count > nth && strcmp(how, "on") != 0))
        return GOES;
    if (strcmp(how, "short") == 0)
        return SHORT;
    if (strcmp(how, "elsewhere") == 0)
        return ELSEWHERE;
    if (strcmp(how, "abroad") == 0)
        return ABROAD;
    if (strcmp(how, "full") == 0) {
        strcpy(at->full_kind, kind);
        return SHORT;
    }
    errno = number;
    return FAILS;
}

/* What becomes of a call of this kind. */
static enum how struck(const char *kind, const char *name)
{
    enum how how;

    if (!name)
        return GOES;
    pthread_mutex_lock(&plan_read);
    how = planned_for(kind, name, &progress[aside]);
    pthread_mutex_unlock(&plan_read);
    return how;
}

static size_t part(enum how how, size_t size) { return how == SHORT ? (size + 1) / 2 : size; }

static long changes, changing_writes;

/* Whether the changes of this thread count. */
static int counts(void) { return !aside || getenv("ASIDE_COUNTS"); }

static void end_here(void)
{
    syscall(SYS_kill, syscall(SYS_getpid), SIGKILL);
    for (;;)
        sleep(1);
}

/* A call that changes or syncs begins. None of another thread begins before it is done, so that the calls are told in their
   order. */
static void begin(void)
{
    pthread_mutex_lock(&changing);
    if (++changes == number_in("STOP_BEFORE"))
        end_here();
}

/* Tells of such a call that was done, and gives what it answers. */
static long done(long answer, const char *form, ...)
{
    char line[400];
    va_list rest;

    if (answer >= 0) {
        va_start(rest, form);
        tell("STOP_LOG", line, vsnprintf(line, sizeof line, form, rest));
        va_end(rest);
    }
    if (changes == number_in("STOP_AFTER"))
        end_here();
    pthread_mutex_unlock(&changing);
    return answer;
}

static int opened(int folder, const char *path, int flags, mode_t mode)
{
    const char *name = name_in(path, "FAULTS_FOLDER"), *stop = name_in(path, "STOP_FOLDER");
    int is_change = stop && counts() && (flags & (O_CREAT | O_TRUNC)), file;
    char line[500];

    if (held("open", path) || struck("open", name) == FAILS)
        return -1;
    if (is_change)
        begin();
    file = syscall(SYS_openat, folder, path, flags, mode);
    if (file >= 0 && flags & O_CREAT)
        tell("WHO_LOG", line, snprintf(line, sizeof line, "%ld %.400s\n", own_number, path));
    keep(planned, file, name);
    keep(counted, file, stop);
    return is_change ? done(file, "create %s\n", stop) : file;
}

#define OPENS(folder) \
    { \
        va_list rest; \
        mode_t mode = 0; \
        if (flags & (O_CREAT | __O_TMPFILE)) { \
            va_start(rest, flags); \
            mode = va_arg(rest, mode_t); \
            va_end(rest); \
        } \
        return opened(folder, path, flags, mode); \
    }

int open(const char *path, int flags, ...) OPENS(AT_FDCWD)
int open64(const char *path, int flags, ...) OPENS(AT_FDCWD)
int openat(int folder, const char *path, int flags, ...) OPENS(folder)
int openat64(int folder, const char *path, int flags, ...) OPENS(folder)

ssize_t read(int file, void *into, size_t size)
{
    size_t most = number_in("READ_SIZE");
    enum how how;

    if (is_counted_out("FAIL_READ", ++reads))
        return fails_with(EIO);
    if ((how = struck("read", name_of(planned, file))) == FAILS)
        return -1;
    return syscall(SYS_read, file, into, part(how, most > 0 && most < size ? most : size));
}

ssize_t pread64(int file, void *into, size_t size, off64_t at)
{
    size_t longest = number_in("LONGEST_READ_AT");
    enum how how;

    if (held_file("read", file))
        return -1;
    if (++reads_at == number_in("FAIL_READ_AT") || (longest && size > longest))
        return fails_with(EIO);
    if ((how = struck("read", name_of(planned, file))) == FAILS)
        return -1;
    return syscall(SYS_pread64, file, into, part(how, size), at);
}

ssize_t pread(int file, void *into, size_t size, off_t at) { return pread64(file, into, size, at); }

static ssize_t written(int file, const void *bytes, size_t size, off_t at)
{
    const char *name = counts() ? name_of(counted, file) : NULL;
    ssize_t answer;

    if (!name)
        return syscall(SYS_pwrite64, file, bytes, size, at);
    begin();
    answer = syscall(SYS_pwrite64, file, bytes, size, at);
    done(answer, "write %s %lld %lld\n", name, (long long)at, (long long)answer);
    return ++changing_writes == number_in("STOP_FAILS") ? fails_with(EIO) : answer;
}

ssize_t pwrite64(int file, const void *bytes, size_t size, off64_t at)
{
    enum how how = held_file("write", file) ? FAILS : struck("write", name_of(planned, file));

    return how == FAILS ? -1 : written(file, bytes, part(how, size), at);
}

ssize_t pwrite(int file, const void *bytes, size_t size, off_t at) { return pwrite64(file, bytes, size, at); }

ssize_t write(int file, const void *bytes, size_t size)
{
    enum how how;
    off_t at;
    ssize_t answer;

    if (file == STDOUT_FILENO && writes_told < WRITES) {
        before[writes_told++] = __atomic_exchange_n(&since, 0, __ATOMIC_SEQ_CST);
    }
    if (file == STDOUT_FILENO && is_counted_out("FAIL_WRITE", ++writes))
        return fails_with(EIO);
    if (held_file("write", file) || (how = struck("write", name_of(planned, file))) == FAILS)
        return -1;
    size = part(how, size);
    if (!counts() || !name_of(counted, file))
        return syscall(SYS_write, file, bytes, size);
    at = lseek(file, 0, SEEK_CUR);
    if ((answer = written(file, bytes, size, at)) > 0)
        lseek(file, at + answer, SEEK_SET);
    return answer;
}

static int synced(const char *kind, int call, int file)
{
    const char *name = counts() ? name_of(counted, file) : NULL;

    if (held_file("sync", file) || struck(kind, name_of(planned, file)) == FAILS)
        return -1;
    if (!name)
        return syscall(call, file);
    begin();
    return strcmp(name, ".") == 0 ? done(syscall(call, file), "folder\n") : done(syscall(call, file), "sync %s\n", name);
}

int fsync(int file) { return synced("sync", SYS_fsync, file); }
int fdatasync(int file) { return synced("datasync", SYS_fdatasync, file); }

int ftruncate64(int file, off64_t size)
{
    const char *name = counts() ? name_of(counted, file) : NULL;

    if (held_file("truncate", file) || struck("truncate", name_of(planned, file)) == FAILS)
        return -1;
    if (!name)
        return syscall(SYS_ftruncate, file, size);
    begin();
    return done(syscall(SYS_ftruncate, file, size), "cut %s %lld\n", name, (long long)size);
}

int ftruncate(int file, off_t size) { return ftruncate64(file, size); }

static int given_up(int folder, const char *path, int flags)
{
    const char *name = counts() ? name_in(path, "STOP_FOLDER") : NULL;
    struct stat there;

    if (held("unlink", path) || struck("unlink", name_in(path, "FAULTS_FOLDER")) == FAILS)
        return -1;
    /* Where nothing is there nothing changes. */
    if (!name || syscall(SYS_newfstatat, folder, path, &there, AT_SYMLINK_NOFOLLOW) != 0)
        return syscall(SYS_unlinkat, folder, path, flags);
    begin();
    return done(syscall(SYS_unlinkat, folder, path, flags), "unlink %s\n", name);
}

static int renamed(int folder, const char *path, int to_folder, const char *to, unsigned flags)
{
    const char *name = counts() ? name_in(path, "STOP_FOLDER") : NULL;

    if (held("rename", path) || struck("rename", name_in(path, "FAULTS_FOLDER")) == FAILS)
        return -1;
    if (!name)
        return syscall(SYS_renameat2, folder, path, to_folder, to, flags);
    begin();
    return done(syscall(SYS_renameat2, folder, path, to_folder, to, flags), "rename %s %s\n", name, name_in(to, "STOP_FOLDER"));
}

int rename(const char *path, const char *to) { return renamed(AT_FDCWD, path, AT_FDCWD, to, 0); }
int renameat(int folder, const char *path, int to_folder, const char *to) { return renamed(folder, path, to_folder, to, 0); }
int renameat2(int folder, const char *path, int to_folder, const char *to, unsigned flags)
{
    return renamed(folder, path, to_folder, to, flags);
}

int unlink(const char *path) { return given_up(AT_FDCWD, path, 0); }
int unlinkat(int folder, const char *path, int flags) { return given_up(folder, path, flags); }

/* Of a look at a path. */
#define LOOKS(call, number, device) \
    { \
        enum how how = held("look", path) ? FAILS : struck("look", name_in(path, "FAULTS_FOLDER")); \
        int answer; \
        if (how == FAILS) \
            return -1; \
        answer = call; \
        if (how == ELSEWHERE) \
            into->number++; \
        if (how == ABROAD) \
            into->device++; \
        return answer; \
    }

/* Of a question about an open file. */
#define ASKS(call) \
    { \
        return struck("stat", name_of(planned, file)) == FAILS ? -1 : call; \
    }

int fstat(int file, struct stat *into) ASKS(NEXT(fstat)(file, into))
int fstat64(int file, struct stat64 *into) ASKS(NEXT(fstat64)(file, into))
int stat(const char *path, struct stat *into) LOOKS(NEXT(stat)(path, into), st_ino, st_dev)
int stat64(const char *path, struct stat64 *into) LOOKS(NEXT(stat64)(path, into), st_ino, st_dev)
int lstat(const char *path, struct stat *into) LOOKS(NEXT(lstat)(path, into), st_ino, st_dev)
int lstat64(const char *path, struct stat64 *into) LOOKS(NEXT(lstat64)(path, into), st_ino, st_dev)
int fstatat(int folder, const char *path, struct stat *into, int flags)
    LOOKS(NEXT(fstatat)(folder, path, into, flags), st_ino, st_dev)
int fstatat64(int folder, const char *path, struct stat64 *into, int flags)
    LOOKS(NEXT(fstatat64)(folder, path, into, flags), st_ino, st_dev)

int statx(int file, const char *path, int flags, unsigned mask, struct statx *into)
{
    if (++looks == number_in("FAIL_LOOK"))
        return fails_with(EIO);
    if (!path[0])
        ASKS(NEXT(statx)(file, path, flags, mask, into))
    LOOKS(NEXT(statx)(file, path, flags, mask, into), stx_ino, stx_dev_minor)
}

/* --- Connections ---------------------------------------------------------------------------------------------------- */

enum { FIRST, MOST, PUT, READ_FAILS, WRITE_FAILS, MUTE, ALL };
#define TOLD_AT 64

static long line[ALL], received, sent, wire = -1;
static FILE *wire_file;

int setsockopt(int socket, int level, int name, const void *value, socklen_t size)
{
    struct timeval wait;

    if (getenv("QUIET_SECONDS") && level == SOL_SOCKET && (name == SO_RCVTIMEO || name == SO_SNDTIMEO) && size == sizeof wait) {
        wait = *(const struct timeval *)value;
        if (wait.tv_sec == 300 && wait.tv_usec == 0)
            wait.tv_sec = number_in("QUIET_SECONDS");
        return syscall(SYS_setsockopt, socket, level, name, &wait, size);
    }
    return syscall(SYS_setsockopt, socket, level, name, value, size);
}

int accept4(int listener, struct sockaddr *address, socklen_t *size, int flags)
{
    int made = syscall(SYS_accept4, listener, address, size, flags);

    if (made < 0 || !getenv("WIRE"))
        return made;
    wire = made;
    wire_file = fopen(getenv("WIRE"), "r+");
    for (int at = received = sent = 0; at < ALL; at++)
        if (!wire_file || fscanf(wire_file, "%ld", &line[at]) != 1)
            abort();
    return made;
}

ssize_t recv(int from, void *into, size_t size, int flags)
{
    size_t most = line[received ? MOST : FIRST];

    if (wire < 0 || from != wire)
        return syscall(SYS_recvfrom, from, into, size, flags, NULL, NULL);
    if (++received == line[READ_FAILS])
        return fails_with(ECONNRESET);
    return syscall(SYS_recvfrom, from, into, most && most < size ? most : size, flags | MSG_WAITALL, NULL, NULL);
}

ssize_t send(int to, const void *bytes, size_t size, int flags)
{
    size_t most = line[PUT];

    if (wire < 0 || to != wire)
        return syscall(SYS_sendto, to, bytes, size, flags, NULL, 0);
    if (++sent == line[WRITE_FAILS])
        return line[MUTE] ? 0 : fails_with(EPIPE);
    return syscall(SYS_sendto, to, bytes, most && most < size ? most : size, flags, NULL, 0);
}

int close(int file)
{
    keep(planned, file, NULL);
    keep(counted, file, NULL);
    if (wire >= 0 && file == wire) {
        fseek(wire_file, TOLD_AT, SEEK_SET);
        fprintf(wire_file, "%-8ld%-8ld", received, sent);
        wire = -1;
        fclose(wire_file);
    }
    return syscall(SYS_close, file);
}
