/* disk MOUNTPOINT LOG IMAGE WRITE_US FLUSH_US SEED: a disk with a volatile cache, as the file `disk` of a file system at MOUNTPOINT,
   for a loop device. It speaks the protocol of linux/fuse.h itself, so it needs no library. What is written to the other file there,
   `mark`, goes into the log alone; but from `fail TEXT` on each write that holds this text is refused with EIO, up to `heal`.

   IMAGE, a file of the disk's size, is what it holds at first, and has each write when that is received. LOG gets an entry for all
   that happens, in its order:
     W  a write was received, with its data    Z  so was a discard or a write of zeros, without data
     A  that write was answered                S  a flush was received    E  that flush was answered
     M  what was written to `mark`           F  a write was refused
   A write is answered after 0 to 2 * WRITE_US microseconds, a flush after as many of FLUSH_US; others are received meanwhile. The
   entry of an answer stands before all that comes in because of it. */
#define _GNU_SOURCE
#include <errno.h>
#include <fcntl.h>
#include <linux/falloc.h>
#include <linux/fuse.h>
#include <poll.h>
#include <stdio.h>
#include <stdlib.h>
#include <string.h>
#include <sys/mman.h>
#include <sys/mount.h>
#include <sys/stat.h>
#include <sys/uio.h>
#include <time.h>
#include <unistd.h>

enum { DISK = FUSE_ROOT_ID + 1, MARK, MOST_WRITTEN = 1 << 20, MOST_WAIT = 4096 };

struct entry { uint8_t kind, pad[3]; uint32_t size; uint64_t id, at; };
/* A request that is answered later: at that moment, in microseconds; with how many bytes written, for a write. */
struct waiting { uint64_t due, request, id; uint32_t written; char kind; };

static char *disk, refused[64];
static uint64_t disk_size, ids;
static int kernel, log_file;
static long write_us, flush_us;
static struct waiting waiting[MOST_WAIT];
static int waits;

static uint64_t now(void)
{
    struct timespec time;

    clock_gettime(CLOCK_MONOTONIC, &time);
    return time.tv_sec * 1000000ull + time.tv_nsec / 1000;
}

static void tell(char kind, uint64_t id, uint64_t at, size_t size, const void *data)
{
    struct entry entry = {kind, {0}, size, id, at};
    struct iovec parts[2] = {{&entry, sizeof entry}, {(void *)data, data ? size : 0}};

    if (writev(log_file, parts, 2) != (ssize_t)(sizeof entry + parts[1].iov_len))
        abort();
}

static void answer(uint64_t request, int error, const void *data, size_t size)
{
    struct fuse_out_header head = {sizeof head + size, -error, request};
    struct iovec parts[2] = {{&head, sizeof head}, {(void *)data, size}};

    /* A request that was given up meanwhile is no fault. */
    if (writev(kernel, parts, 2) < 0 && errno != ENOENT)
        abort();
}

static void answer_later(uint64_t request, char kind, uint64_t id, uint32_t written)
{
    if (waits == MOST_WAIT)
        abort();
    waiting[waits++] = (struct waiting){now() + random() % (2 * (kind == 'E' ? flush_us : write_us)), request, id, written, kind};
}

/* Answers what is due. How many milliseconds there are to the next, -1 for none. */
static int answer_due(void)
{
    uint64_t moment = now(), next = UINT64_MAX;

    for (int at = 0; at < waits;) {
        struct waiting one = waiting[at];
        struct fuse_write_out written = {one.written, 0};
        if (one.due > moment) {
            next = one.due < next ? one.due : next;
            at++;
            continue;
        }
        waiting[at] = waiting[--waits];
        tell(one.kind, one.id, 0, 0, NULL);
        one.written ? answer(one.request, 0, &written, sizeof written) : answer(one.request, 0, NULL, 0);
    }
    return next == UINT64_MAX ? -1 : (int)((next - moment) / 1000);
}

static struct fuse_attr attributes(uint64_t file)
{
    return (struct fuse_attr){.ino = file, .nlink = 1, .size = file == DISK ? disk_size : 0, .blksize = 4096,
                              .mode = file == FUSE_ROOT_ID ? S_IFDIR | 0700 : S_IFREG | 0600};
}

static void look_up(uint64_t request, const char *name)
{
    uint64_t file = !strcmp(name, "disk") ? DISK : !strcmp(name, "mark") ? MARK : 0;
    struct fuse_entry_out found = {.nodeid = file, .entry_valid = 1u << 30, .attr_valid = 1u << 30, .attr = attributes(file)};

    file ? answer(request, 0, &found, sizeof found) : answer(request, ENOENT, NULL, 0);
}

static void begin(uint64_t request, const struct fuse_init_in *asked)
{
    struct fuse_init_out said = {
        .major = FUSE_KERNEL_VERSION, .minor = FUSE_KERNEL_MINOR_VERSION, .max_readahead = asked->max_readahead,
        .flags = asked->flags & (FUSE_ASYNC_READ | FUSE_BIG_WRITES | FUSE_ASYNC_DIO | FUSE_PARALLEL_DIROPS | FUSE_MAX_PAGES),
        .max_background = 256, .congestion_threshold = 192, .max_write = MOST_WRITTEN, .time_gran = 1, .max_pages = 256};

    answer(request, 0, &said, sizeof said);
}

static void read_some(uint64_t request, uint64_t file, const struct fuse_read_in *asked)
{
    uint64_t left = file == DISK && asked->offset < disk_size ? disk_size - asked->offset : 0;

    answer(request, 0, disk + (left ? asked->offset : 0), asked->size < left ? asked->size : left);
}

static void write_some(uint64_t request, uint64_t file, const struct fuse_write_in *asked)
{
    const char *data = (const char *)(asked + 1);
    struct fuse_write_out written = {asked->size, 0};

    if (file == MARK) {
        tell('M', 0, 0, asked->size, data);
        if (asked->size > 5 && asked->size < 5 + sizeof refused && memcmp(data, "fail ", 5) == 0)
            snprintf(refused, sizeof refused, "%.*s", (int)asked->size - 5, data + 5);
        if (asked->size == 4 && memcmp(data, "heal", 4) == 0)
            refused[0] = 0;
        answer(request, 0, &written, sizeof written);
    } else if (refused[0] && memmem(data, asked->size, refused, strlen(refused))) {
        tell('F', 0, asked->offset, asked->size, NULL);
        answer(request, EIO, NULL, 0);
    } else if (asked->offset > disk_size || asked->size > disk_size - asked->offset) {
        answer(request, ENOSPC, NULL, 0);
    } else {
        memcpy(disk + asked->offset, data, asked->size);
        tell('W', ++ids, asked->offset, asked->size, data);
        answer_later(request, 'A', ids, asked->size);
    }
}

static void put_zeros(uint64_t request, const struct fuse_fallocate_in *asked)
{
    if (!(asked->mode & (FALLOC_FL_PUNCH_HOLE | FALLOC_FL_ZERO_RANGE)) || asked->offset > disk_size
        || asked->length > disk_size - asked->offset) {
        answer(request, EOPNOTSUPP, NULL, 0);
        return;
    }
    memset(disk + asked->offset, 0, asked->length);
    tell('Z', ++ids, asked->offset, asked->length, NULL);
    answer_later(request, 'A', ids, 0);
}

/* Takes one request. Whether there may be more. */
static int take(char *buffer, size_t room)
{
    ssize_t size = read(kernel, buffer, room);
    struct fuse_in_header *head = (struct fuse_in_header *)buffer;
    void *asked = head + 1;
    struct fuse_attr_out found = {.attr_valid = 1u << 30, .attr = attributes(size > 0 ? head->nodeid : 0)};
    struct fuse_open_out opened = {.open_flags = FOPEN_DIRECT_IO | FOPEN_PARALLEL_DIRECT_WRITES};
    struct fuse_statfs_out room_left = {.st = {.bsize = 4096, .frsize = 4096, .namelen = 255}};

    if (size < 0)
        return errno != ENODEV;
    switch (head->opcode) {
    case FUSE_INIT: begin(head->unique, asked); break;
    case FUSE_LOOKUP: look_up(head->unique, asked); break;
    case FUSE_GETATTR: answer(head->unique, 0, &found, sizeof found); break;
    case FUSE_OPEN: answer(head->unique, 0, &opened, sizeof opened); break;
    case FUSE_READ: read_some(head->unique, head->nodeid, asked); break;
    case FUSE_WRITE: write_some(head->unique, head->nodeid, asked); break;
    case FUSE_STATFS: answer(head->unique, 0, &room_left, sizeof room_left); break;
    case FUSE_RELEASE: answer(head->unique, 0, NULL, 0); break;
    case FUSE_FALLOCATE: put_zeros(head->unique, asked); break;
    case FUSE_FSYNC:
        tell('S', ++ids, 0, 0, NULL);
        answer_later(head->unique, 'E', ids, 0);
        break;
    case FUSE_FORGET: case FUSE_BATCH_FORGET: case FUSE_INTERRUPT: break;
    case FUSE_DESTROY: answer(head->unique, 0, NULL, 0); return 0;
    default: answer(head->unique, ENOSYS, NULL, 0);
    }
    return 1;
}

int main(int count, char **words)
{
    size_t room = MOST_WRITTEN + 65536;
    char *buffer = malloc(room), options[200];
    int image = count == 7 ? open(words[3], O_RDWR) : -1;
    struct timespec soon = {0, 50000};

    kernel = open("/dev/fuse", O_RDWR | O_CLOEXEC);
    log_file = count == 7 ? open(words[2], O_WRONLY | O_CREAT | O_TRUNC | O_APPEND, 0600) : -1;
    if (kernel < 0 || image < 0 || log_file < 0 || !buffer)
        return 2;
    write_us = atol(words[4]), flush_us = atol(words[5]);
    srandom(atol(words[6]));
    disk_size = lseek(image, 0, SEEK_END);
    disk = mmap(NULL, disk_size, PROT_READ | PROT_WRITE, MAP_SHARED, image, 0);
    snprintf(options, sizeof options, "fd=%d,rootmode=40000,user_id=0,group_id=0", kernel);
    if (disk == MAP_FAILED || mount("disk", words[1], "fuse", MS_NOSUID | MS_NODEV, options))
        return 1;
    for (;;) {
        struct pollfd more = {kernel, POLLIN, 0};
        int wait = answer_due();
        /* What is due within a millisecond is looked for in shorter steps. */
        if (poll(&more, 1, wait > 0 || wait < 0 ? wait : 0) < 0 && errno != EINTR)
            return 1;
        if (more.revents && !take(buffer, room))
            return 0;
        if (!more.revents && wait == 0)
            nanosleep(&soon, NULL);
    }
}
