/* Two ways to receive packets: through a buffer, as the daemon does, or straight into the packet that is due.

     reads

   For records of 64 KB and of 4 KB, each in a packet of its own, it prints the receiver's processor seconds for each GB in
   both ways, the least of five tries. A sender in a process of its own writes over loopback. The receiver copies each packet
   into a body, as a session does, and throws the bodies away. */
#include <arpa/inet.h>
#include <stdint.h>
#include <stdio.h>
#include <stdlib.h>
#include <string.h>
#include <sys/resource.h>
#include <sys/socket.h>
#include <sys/wait.h>
#include <unistd.h>

#define BUFFER 65536 /* what the daemon asks for at once */
#define SMALL 4096   /* what is asked for at once where no payload is due, in the other way */
#define BODY 64488   /* the body of a block of 64,512 bytes */
#define TOTAL 1000000000L
#define TRIES 5

static char body[BODY];
static size_t filled;

static void must(int holds, const char *what)
{
    if (!holds) {
        perror(what);
        exit(1);
    }
}

/* The packet that is due: of its length the bytes that have come, then its payload. */
struct due {
    unsigned char length[4];
    size_t begun, size, have;
    char *payload;
};

static void pack(const char *bytes, size_t count)
{
    while (count > 0) {
        size_t room = BODY - filled, part = count < room ? count : room;

        memcpy(body + filled, bytes, part);
        filled = (filled + part) % BODY;
        bytes += part;
        count -= part;
    }
}

/* Has the memory of a payload ready, all zeros, as a language without unset memory has it. */
static void begin(struct due *due)
{
    uint32_t size;

    memcpy(&size, due->length, 4);
    due->size = ntohl(size);
    due->have = 0;
    due->payload = calloc(1, due->size);
    must(due->payload != NULL, "memory");
}

static void end_if_whole(struct due *due)
{
    if (due->payload != NULL && due->have == due->size) {
        pack(due->payload, due->size);
        free(due->payload);
        due->payload = NULL;
        due->begun = 0;
    }
}

/* Takes what was read into a buffer. */
static void take(struct due *due, const char *bytes, size_t count)
{
    while (count > 0) {
        size_t part;

        if (due->payload == NULL) {
            part = 4 - due->begun < count ? 4 - due->begun : count;
            memcpy(due->length + due->begun, bytes, part);
            due->begun += part;
            if (due->begun == 4)
                begin(due);
        } else {
            part = due->size - due->have < count ? due->size - due->have : count;
            memcpy(due->payload + due->have, bytes, part);
            due->have += part;
            end_if_whole(due);
        }
        bytes += part;
        count -= part;
    }
}

static long receive(int stream, int direct)
{
    static char buffer[BUFFER];
    struct due due = {.begun = 0};
    long total = 0, reads = 0;
    ssize_t came;

    do {
        if (direct && due.payload != NULL) {
            came = read(stream, due.payload + due.have, due.size - due.have);
            if (came > 0) {
                due.have += came;
                end_if_whole(&due);
            }
        } else {
            came = read(stream, buffer, direct ? SMALL : BUFFER);
            if (came > 0)
                take(&due, buffer, came);
        }
        must(came >= 0, "read");
        total += came;
        reads++;
    } while (came > 0);
    must(total >= TOTAL, "all");
    return reads;
}

static void send_all(int port, size_t size)
{
    struct sockaddr_in place = {.sin_family = AF_INET, .sin_addr.s_addr = htonl(INADDR_LOOPBACK), .sin_port = port};
    int stream = socket(AF_INET, SOCK_STREAM, 0);
    size_t packets = (1 << 20) / size, whole = packets * (4 + size);
    char *row = calloc(packets, 4 + size);
    uint32_t length = htonl(size);
    long sent = 0;

    must(row != NULL && connect(stream, (struct sockaddr *)&place, sizeof place) == 0, "connect");
    for (size_t at = 0; at < packets; at++)
        memcpy(row + at * (4 + size), &length, 4);
    while (sent < TOTAL) {
        for (size_t at = 0; at < whole;) {
            ssize_t went = write(stream, row + at, whole - at);

            must(went > 0, "write");
            at += went;
        }
        sent += whole;
    }
    _exit(0);
}

static double used(void)
{
    struct rusage use;

    getrusage(RUSAGE_SELF, &use);
    return use.ru_utime.tv_sec + use.ru_stime.tv_sec + (use.ru_utime.tv_usec + use.ru_stime.tv_usec) / 1e6;
}

static double try(size_t size, int direct, long *reads)
{
    struct sockaddr_in place = {.sin_family = AF_INET, .sin_addr.s_addr = htonl(INADDR_LOOPBACK)};
    socklen_t length = sizeof place;
    int file = socket(AF_INET, SOCK_STREAM, 0), stream;
    double before;

    must(bind(file, (struct sockaddr *)&place, length) == 0 && listen(file, 1) == 0, "listen");
    must(getsockname(file, (struct sockaddr *)&place, &length) == 0, "port");
    if (fork() == 0)
        send_all(place.sin_port, size);
    stream = accept(file, NULL, NULL);
    must(stream >= 0, "accept");
    before = used();
    *reads = receive(stream, direct);
    before = used() - before;
    close(stream);
    close(file);
    wait(NULL);
    return before * 1e9 / TOTAL;
}

int main(void)
{
    static const size_t sizes[] = {65536, 4096};
    static const char *const ways[] = {"through a buffer", "into the packet"};

    for (int at = 0; at < 2; at++) {
        double least[2] = {1e9, 1e9};
        long reads[2];

        for (int round = 0; round < TRIES; round++)
            for (int way = 0; way < 2; way++) {
                double took = try(sizes[at], way, &reads[way]);

                if (took < least[way])
                    least[way] = took;
            }
        for (int way = 0; way < 2; way++)
            printf("records of %zu bytes, %s: %.3f processor s/GB, %ld reads\n", sizes[at], ways[way], least[way], reads[way]);
    }
    return 0;
}
