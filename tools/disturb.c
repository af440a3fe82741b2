// A library that tools/faults and tools/schedules have preloaded into a program. It fails chosen calls of the C library, cuts
// reads and writes into pieces, and holds threads up at random. The environment tells it what to do:
//
//   DISTURB_FAIL=KIND:FIRST:LAST:ERROR   the calls FIRST to LAST of a kind fail with this number of an error; a write that is to
//                                        fail with 0 takes no byte
//   DISTURB_PIECE=N                      a read of standard input, and a write, moves N bytes at most
//   DISTURB_NOTES=ERROR                  each write to standard error fails
//   DISTURB_HOLD=SEED:PERIOD:LONGEST:PAUSE     about every PERIOD microseconds a thread is stopped wherever it is, for up to
//                                        LONGEST microseconds, and so is each thread as it begins; at one of 8 allocations the
//                                        thread pauses for up to PAUSE microseconds
//   DISTURB_COUNTS=FILE                  the counts of calls of each kind, and of failures, 64 bits each, stand in this file
//
// Kinds are 0 allocations, 1 threads, 2 reads of standard input, 3 writes to standard output. Calls are counted over all
// threads from the moment at which the library is ready, before the program's main.
#define _GNU_SOURCE
#include <dirent.h>
#include <dlfcn.h>
#include <errno.h>
#include <fcntl.h>
#include <pthread.h>
#include <signal.h>
#include <stdint.h>
#include <stdio.h>
#include <stdlib.h>
#include <string.h>
#include <sys/mman.h>
#include <sys/syscall.h>
#include <sys/uio.h>
#include <time.h>
#include <unistd.h>

enum { ALLOCATION, THREAD, READ, WRITE, KINDS };

void *__libc_malloc(size_t);
void *__libc_calloc(size_t, size_t);
void *__libc_realloc(void *, size_t);
void *__libc_memalign(size_t, size_t);

static int ready;
static long fail_kind = -1, fail_first, fail_last, fail_error, piece, notes_error, hold_period, hold_longest, hold_pause;
static unsigned long hold_seed;
static uint64_t own_counts[KINDS + 1], *counts = own_counts;
static int (*make_thread)(pthread_t *, const pthread_attr_t *, void *(*)(void *), void *);

// The next random number below a bound; any thread may ask, in a handler too.
static uint64_t below(uint64_t bound) {
    uint64_t z = __atomic_add_fetch(&hold_seed, 0x9e3779b97f4a7c15, __ATOMIC_RELAXED);
    z = (z ^ (z >> 30)) * 0xbf58476d1ce4e5b9;
    z = (z ^ (z >> 27)) * 0x94d049bb133111eb;
    return (z ^ (z >> 31)) % bound;
}

static void pause_for(uint64_t microseconds) {
    struct timespec time = {(time_t)(microseconds / 1000000), (long)(microseconds % 1000000) * 1000};
    syscall(SYS_nanosleep, &time, NULL);
}

// Whether this call of a kind is one that fails; errno then tells the error.
static int fails(int kind) {
    if (!ready)
        return 0;
    if (kind == ALLOCATION && hold_pause > 0 && below(8) == 0)
        pause_for(below((uint64_t)hold_pause));
    long number = (long)__atomic_add_fetch(&counts[kind], 1, __ATOMIC_RELAXED);
    if (kind != fail_kind || number < fail_first || number > fail_last)
        return 0;
    __atomic_add_fetch(&counts[KINDS], 1, __ATOMIC_RELAXED);
    errno = (int)fail_error;
    return 1;
}

void *malloc(size_t size) { return fails(ALLOCATION) ? NULL : __libc_malloc(size); }

void *calloc(size_t count, size_t size) { return fails(ALLOCATION) ? NULL : __libc_calloc(count, size); }

void *realloc(void *block, size_t size) { return fails(ALLOCATION) ? NULL : __libc_realloc(block, size); }

void *reallocarray(void *block, size_t count, size_t size) {
    size_t bytes;
    if (fails(ALLOCATION) || __builtin_mul_overflow(count, size, &bytes))
        return NULL;
    return __libc_realloc(block, bytes);
}

void *memalign(size_t align, size_t size) { return fails(ALLOCATION) ? NULL : __libc_memalign(align, size); }

void *aligned_alloc(size_t align, size_t size) { return fails(ALLOCATION) ? NULL : __libc_memalign(align, size); }

int posix_memalign(void **block, size_t align, size_t size) {
    void *made = fails(ALLOCATION) ? NULL : __libc_memalign(align, size);
    if (made)
        *block = made;
    return made ? 0 : ENOMEM;
}

static size_t cut(size_t size) { return piece > 0 && size > (size_t)piece ? (size_t)piece : size; }

ssize_t read(int file, void *bytes, size_t size) {
    if (file != 0)
        return syscall(SYS_read, file, bytes, size);
    return fails(READ) ? -1 : syscall(SYS_read, file, bytes, cut(size));
}

ssize_t readv(int file, const struct iovec *parts, int count) {
    for (int k = 0; file == 0 && k < count; k++)
        if (parts[k].iov_len > 0)
            return read(file, parts[k].iov_base, parts[k].iov_len);
    return syscall(SYS_readv, file, parts, count);
}

ssize_t write(int file, const void *bytes, size_t size) {
    if (file == 2 && notes_error) {
        errno = (int)notes_error;
        return -1;
    }
    if (file == 1 && fails(WRITE))
        return fail_error ? -1 : 0;
    return syscall(SYS_write, file, bytes, file == 1 || file == 2 ? cut(size) : size);
}

ssize_t __write(int file, const void *bytes, size_t size) { return write(file, bytes, size); }

ssize_t writev(int file, const struct iovec *parts, int count) {
    for (int k = 0; (file == 1 || file == 2) && k < count; k++)
        if (parts[k].iov_len > 0)
            return write(file, parts[k].iov_base, parts[k].iov_len);
    return syscall(SYS_writev, file, parts, count);
}

static void hold(int signal) {
    (void)signal;
    int error = errno;
    pause_for(below((uint64_t)hold_longest));
    errno = error;
}

// Stops one thread of the process after the other, each drawn at random; never itself.
static _Noreturn void *hold_threads(void *unused) {
    (void)unused;
    sigset_t all;
    sigfillset(&all);
    pthread_sigmask(SIG_SETMASK, &all, NULL);
    long own = syscall(SYS_gettid);
    int folder = open("/proc/self/task", O_RDONLY | O_DIRECTORY | O_CLOEXEC);
    for (;;) {
        pause_for(below((uint64_t)hold_period * 2));
        char entries[8192];
        int threads[256], found = 0;
        lseek(folder, 0, SEEK_SET);
        long size = syscall(SYS_getdents64, folder, entries, sizeof entries);
        for (long at = 0; at < size; at += ((struct dirent64 *)(entries + at))->d_reclen) {
            int thread = atoi(((struct dirent64 *)(entries + at))->d_name);
            if (thread > 0 && thread != own && found < 256)
                threads[found++] = thread;
        }
        if (found > 0)
            syscall(SYS_tgkill, getpid(), threads[below((uint64_t)found)], SIGURG);
    }
}

struct start {
    void *(*routine)(void *);
    void *argument;
};

static void *begin(void *given) {
    struct start start = *(struct start *)given;
    free(given);
    pause_for(below((uint64_t)hold_longest * 2));
    return start.routine(start.argument);
}

int pthread_create(pthread_t *thread, const pthread_attr_t *how, void *(*routine)(void *), void *argument) {
    if (fails(THREAD))
        return (int)fail_error;
    struct start *start = hold_longest > 0 ? __libc_malloc(sizeof *start) : NULL;
    if (!start)
        return make_thread(thread, how, routine, argument);
    *start = (struct start){routine, argument};
    int answer = make_thread(thread, how, begin, start);
    if (answer != 0)
        free(start);
    return answer;
}

__attribute__((constructor)) static void prepare(void) {
    const char *words = getenv("DISTURB_COUNTS");
    int file = words ? open(words, O_RDWR | O_CREAT | O_CLOEXEC, 0600) : -1;
    if (file >= 0 && ftruncate(file, sizeof own_counts) == 0) {
        void *shared = mmap(NULL, sizeof own_counts, PROT_READ | PROT_WRITE, MAP_SHARED, file, 0);
        counts = shared == MAP_FAILED ? own_counts : shared;
    }
    if (file >= 0)
        close(file);
    if ((words = getenv("DISTURB_FAIL")))
        sscanf(words, "%ld:%ld:%ld:%ld", &fail_kind, &fail_first, &fail_last, &fail_error);
    if ((words = getenv("DISTURB_PIECE")))
        piece = atol(words);
    if ((words = getenv("DISTURB_NOTES")))
        notes_error = atol(words);
    make_thread = (int (*)(pthread_t *, const pthread_attr_t *, void *(*)(void *), void *))dlsym(RTLD_NEXT, "pthread_create");
    const char *form = "%lu:%ld:%ld:%ld";
    if ((words = getenv("DISTURB_HOLD")) && sscanf(words, form, &hold_seed, &hold_period, &hold_longest, &hold_pause) == 4) {
        struct sigaction action = {.sa_handler = hold, .sa_flags = SA_RESTART};
        sigaction(SIGURG, &action, NULL);
        pthread_t holder;
        make_thread(&holder, NULL, hold_threads, NULL);
        pthread_detach(holder);
    }
    ready = 1;
}
