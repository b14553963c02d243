// bench/hostile.c: calls of the C library that fail on demand; bench/hostile builds it and puts it in front of the program. With
// LAUNCHER it is a small program, `hostile FILE SHIM WORD..`, that runs the words with the shim in front (none where it is empty), and
// writes to the open FILE how it ended and its peak memory: a process that is begun by a large one would count that one's memory.
//
// By the environment: FAIL_REQUEST=N refuses the Nth request for memory, with FAIL_ON=1 all behind it too; FAIL_READ=N and
// FAIL_WRITE=N fail the Nth read or write of standard output with ERROR (EIO where none is named); SHORT_READ=1 and SHORT_WRITE=1 move
// one byte a call; NO_THREADS=1 makes no thread; SHRINK=FILE is cut to SHRINK_TO bytes at the read SHRINK_AT; COUNTS=FILE, of 24
// bytes, has how many requests, reads and writes there were.
#define _GNU_SOURCE
#ifdef LAUNCHER
#include <stdio.h>
#include <stdlib.h>
#include <sys/resource.h>
#include <sys/wait.h>
#include <unistd.h>

int main(int count, char **words) {
    int ended = 0, report = count > 3 ? atoi(words[1]) : -1;
    struct rusage used;
    pid_t child = fork();
    if (child == 0) {
        close(report);
        if (*words[2])
            setenv("LD_PRELOAD", words[2], 1);
        execv(words[3], words + 3);
        _exit(127);
    }
    if (child < 0 || wait4(child, &ended, 0, &used) != child)
        return 1;
    dprintf(report, "%d %ld\n", WIFSIGNALED(ended) ? -WTERMSIG(ended) : WEXITSTATUS(ended), used.ru_maxrss);
    return 0;
}
#else
#include <dlfcn.h>
#include <errno.h>
#include <fcntl.h>
#include <pthread.h>
#include <stdatomic.h>
#include <stdio.h>
#include <stdlib.h>
#include <sys/mman.h>
#include <sys/syscall.h>
#include <unistd.h>

extern void *__libc_malloc(size_t), *__libc_calloc(size_t, size_t), *__libc_realloc(void *, size_t), *__libc_memalign(size_t, size_t);

typedef int make_thread(pthread_t *, const pthread_attr_t *, void *(*)(void *), void *);

// how many requests, reads and writes there were; in COUNTS, so that they stand however the program ends
static atomic_long own[3], *counts = own;
static long fail_request, fail_on, fail_read, fail_write, short_read, short_write, no_threads, shrink_at, shrink_to, failure;
static const char *shrinks;
static make_thread *next_make_thread;
static int ready;

static long number(const char *name) {
    const char *text = getenv(name);
    return text ? atol(text) : 0;
}

__attribute__((constructor)) static void begin(void) {
    fail_request = number("FAIL_REQUEST"), fail_on = number("FAIL_ON");
    fail_read = number("FAIL_READ"), fail_write = number("FAIL_WRITE");
    short_read = number("SHORT_READ"), short_write = number("SHORT_WRITE");
    no_threads = number("NO_THREADS"), shrink_at = number("SHRINK_AT"), shrink_to = number("SHRINK_TO");
    failure = getenv("ERROR") ? number("ERROR") : EIO;
    shrinks = getenv("SHRINK");
    next_make_thread = (make_thread *)dlsym(RTLD_NEXT, "pthread_create");
    int file = getenv("COUNTS") ? open(getenv("COUNTS"), O_RDWR) : -1;
    void *kept = file < 0 ? MAP_FAILED : mmap(NULL, sizeof own, PROT_READ | PROT_WRITE, MAP_SHARED, file, 0);
    if (kept != MAP_FAILED)
        counts = kept;
    ready = 1;
}

static int is_refused(void) {
    long place = ready ? ++counts[0] : 0;
    int is_it = fail_request && place && (fail_on ? place >= fail_request : place == fail_request);
    if (is_it)
        errno = ENOMEM;
    return is_it;
}

void *malloc(size_t size) { return is_refused() ? NULL : __libc_malloc(size); }
void *calloc(size_t count, size_t size) { return is_refused() ? NULL : __libc_calloc(count, size); }
void *realloc(void *old, size_t size) { return is_refused() ? NULL : __libc_realloc(old, size); }
void *aligned_alloc(size_t align, size_t size) { return is_refused() ? NULL : __libc_memalign(align, size); }
void *memalign(size_t align, size_t size) { return is_refused() ? NULL : __libc_memalign(align, size); }
int posix_memalign(void **out, size_t align, size_t size) {
    void *made = is_refused() ? NULL : __libc_memalign(align, size);
    return made ? (*out = made, 0) : ENOMEM;
}

ssize_t read(int file, void *into, size_t size) {
    long place = ++counts[1];
    if (place == fail_read)
        return errno = failure, -1;
    if (place == shrink_at && truncate(shrinks, shrink_to) != 0)
        abort();
    return syscall(SYS_read, file, into, short_read && size ? 1 : size);
}

ssize_t write(int file, const void *from, size_t size) {
    if (file == 1 && ++counts[2] == fail_write)
        return errno = failure, -1;
    return syscall(SYS_write, file, from, short_write && size ? 1 : size);
}
ssize_t __read(int file, void *into, size_t size) { return read(file, into, size); }
ssize_t __write(int file, const void *from, size_t size) { return write(file, from, size); }

int pthread_create(pthread_t *thread, const pthread_attr_t *how, void *(*body)(void *), void *with) {
    return no_threads ? EAGAIN : next_make_thread(thread, how, body, with);
}
#endif
