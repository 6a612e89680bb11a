/* Loaded before a program's own libraries, it tells how often the program syncs files, when the first sync began and the last
 * one ended, and how long all of them took together: four numbers of 64 bits in the file that SYNCS names, the latter three in
 * nanoseconds. They are there whatever way the program ends. It proves nothing.
 *
 * build: cc -shared -fPIC -O2 -o syncs.so bench/syncs.c -ldl      use: SYNCS=FILE LD_PRELOAD=./syncs.so PROGRAM ..
 */
#define _GNU_SOURCE
#include <dlfcn.h>
#include <fcntl.h>
#include <stdatomic.h>
#include <stdint.h>
#include <stdlib.h>
#include <sys/mman.h>
#include <time.h>
#include <unistd.h>

/* A call that makes a file's bytes sure. */
typedef int sync_call(int file);

/* What is told. */
struct told {
    atomic_int_fast64_t count;
    atomic_int_fast64_t first;
    atomic_int_fast64_t last;
    atomic_int_fast64_t within;
};

/* Where it is told: in the file, else nowhere that anybody looks. */
static struct told unseen;
static struct told *told = &unseen;

/* Nanoseconds of a clock that only goes on. */
static int_fast64_t now(void)
{
    struct timespec time;
    clock_gettime(CLOCK_MONOTONIC, &time);
    return (int_fast64_t)time.tv_sec * 1000000000 + time.tv_nsec;
}

__attribute__((constructor)) static void begin(void)
{
    const char *name = getenv("SYNCS");
    int file = name ? open(name, O_RDWR | O_CREAT | O_TRUNC, 0600) : -1;
    if (file < 0)
        return;
    if (ftruncate(file, sizeof *told) == 0) {
        void *room = mmap(NULL, sizeof *told, PROT_READ | PROT_WRITE, MAP_SHARED, file, 0);
        if (room != MAP_FAILED)
            told = room;
    }
    close(file);
}

static int counted(const char *name, int file)
{
    sync_call *call = (sync_call *)dlsym(RTLD_NEXT, name);
    int_fast64_t none = 0, begun = now();
    atomic_compare_exchange_strong(&told->first, &none, begun);
    int answer = call(file);
    int_fast64_t ended = now();
    atomic_store(&told->last, ended);
    atomic_fetch_add(&told->within, ended - begun);
    atomic_fetch_add(&told->count, 1);
    return answer;
}

int fdatasync(int file)
{
    return counted("fdatasync", file);
}

int fsync(int file)
{
    return counted("fsync", file);
}
