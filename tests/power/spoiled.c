/* Preloaded before the daemon, it spoils its syncs, for controls. The environment's SPOILED says how:
     none     fdatasync and fsync answer 0, and nothing is done
     tenth    so does every tenth fdatasync
     early    an fdatasync is answered at once, and done by a thread after it */
#define _GNU_SOURCE
#include <pthread.h>
#include <stdlib.h>
#include <string.h>
#include <sys/syscall.h>
#include <unistd.h>

static void *sync_later(void *file)
{
    syscall(SYS_fdatasync, (int)(long)file);
    close((int)(long)file);
    return NULL;
}

static int is(const char *how)
{
    return strcmp(getenv("SPOILED"), how) == 0;
}

int fsync(int file)
{
    return is("none") ? 0 : syscall(SYS_fsync, file);
}

int fdatasync(int file)
{
    static int syncs;
    pthread_t thread;

    if (is("none") || (is("tenth") && __atomic_add_fetch(&syncs, 1, __ATOMIC_SEQ_CST) % 10 == 0))
        return 0;
    if (!is("early"))
        return syscall(SYS_fdatasync, file);
    if (pthread_create(&thread, NULL, sync_later, (void *)(long)dup(file)) != 0)
        abort();
    pthread_detach(thread);
    return 0;
}
