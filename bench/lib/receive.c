/* What the system itself takes for the bytes of a job: it receives over loopback what one client sends, writes that to a new
   file in blocks of 64,512 bytes, and syncs the file.

     receive FILE

   It prints the port on which it listens, and at the end a line: the seconds from the connection to the sync, its processor
   seconds, and how many bytes there were. */
#include <arpa/inet.h>
#include <fcntl.h>
#include <stdio.h>
#include <stdlib.h>
#include <sys/resource.h>
#include <sys/socket.h>
#include <time.h>
#include <unistd.h>

#define BLOCK 64512

static void must(int holds, const char *what)
{
    if (!holds) {
        perror(what);
        exit(1);
    }
}

/* A socket that listens on a port of its own, which is printed. */
static int listening(void)
{
    struct sockaddr_in place = {.sin_family = AF_INET, .sin_addr.s_addr = htonl(INADDR_LOOPBACK)};
    socklen_t size = sizeof place;
    int file = socket(AF_INET, SOCK_STREAM, 0);

    must(file >= 0 && bind(file, (struct sockaddr *)&place, size) == 0 && listen(file, 1) == 0, "listen");
    must(getsockname(file, (struct sockaddr *)&place, &size) == 0, "port");
    printf("%d\n", ntohs(place.sin_port));
    fflush(stdout);
    return file;
}

/* Receives a block, which is shorter only where the client has ended. */
static size_t received(int stream, char *block)
{
    size_t have = 0;

    while (have < BLOCK) {
        ssize_t came = recv(stream, block + have, BLOCK - have, 0);

        must(came >= 0, "receive");
        if (came == 0)
            break;
        have += came;
    }
    return have;
}

static double seconds_of(struct timeval time) { return time.tv_sec + time.tv_usec / 1e6; }

static double now(void)
{
    struct timespec time;

    clock_gettime(CLOCK_MONOTONIC, &time);
    return time.tv_sec + time.tv_nsec / 1e9;
}

int main(int count, char **words)
{
    static char block[BLOCK];
    struct rusage used;
    long total = 0;
    size_t size;
    double start;
    int file, stream;

    must(count == 2, "receive FILE");
    file = open(words[1], O_WRONLY | O_CREAT | O_EXCL, 0600);
    must(file >= 0, words[1]);
    stream = accept(listening(), NULL, NULL);
    must(stream >= 0, "accept");
    start = now();
    while ((size = received(stream, block)) > 0) {
        must(write(file, block, size) == (ssize_t)size, "write");
        total += size;
    }
    must(fdatasync(file) == 0, "sync");
    getrusage(RUSAGE_SELF, &used);
    printf("%f %f %ld\n", now() - start, seconds_of(used.ru_utime) + seconds_of(used.ru_stime), total);
    return 0;
}
