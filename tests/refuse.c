/* Refuses calls of a program, since a Rattle test cannot make memory fail: preloaded into it, those calls of one kind fail whose numbers REFUSE has (one or two, from
 * 1; 0 for none). REFUSE_KIND is `growth` for malloc and realloc, which then answer that there is no memory, `lasting` for
 * the same from the first such number on, `write` for what is written to standard output, `read` for what is read from any file,
 * `thread` for threads, which then cannot be made, and `file` for what is written to other files, synced and renamed. At such a call `kill` kills the
 * program instead. How many such calls there were, in the program and in those that it starts, stands, as eight bytes, in
 * the file that CALLS names, which is empty before. */
#define _GNU_SOURCE
#include <dlfcn.h>
#include <errno.h>
#include <fcntl.h>
#include <pthread.h>
#include <signal.h>
#include <stdatomic.h>
#include <stdlib.h>
#include <string.h>
#include <sys/mman.h>
#include <sys/syscall.h>
#include <unistd.h>

extern void *__libc_malloc(size_t);
extern void *__libc_realloc(void *, size_t);

enum kind { GROWTH, WRITE, READ, THREAD, FILES };

typedef int create(pthread_t *, const pthread_attr_t *, void *(*)(void *), void *);

static int lasts;
static int kills;
static atomic_long none;
static atomic_long *calls = &none;
static enum kind kind;
static long refused[2];

__attribute__((constructor)) static void begin(void)
{
    const char *numbers = getenv("REFUSE");
    const char *name = getenv("REFUSE_KIND");
    const char *file = getenv("CALLS");
    int shared = file ? open(file, O_RDWR | O_CREAT, 0644) : -1;
    if (shared >= 0 && ftruncate(shared, sizeof *calls) == 0) {
        void *page = mmap(NULL, sizeof *calls, PROT_READ | PROT_WRITE, MAP_SHARED, shared, 0);
        if (page != MAP_FAILED)
            calls = page;
    }
    lasts = name && strcmp(name, "lasting") == 0;
    if (name && strcmp(name, "write") == 0)
        kind = WRITE;
    if (name && strcmp(name, "read") == 0)
        kind = READ;
    if (name && strcmp(name, "thread") == 0)
        kind = THREAD;
    kills = name && strcmp(name, "kill") == 0;
    if (kills || (name && strcmp(name, "file") == 0))
        kind = FILES;
    if (numbers) {
        char *behind;
        refused[0] = strtol(numbers, &behind, 10);
        refused[1] = strtol(behind, NULL, 10);
    }
}

static int is_refused(enum kind of)
{
    if (of != kind)
        return 0;
    long number = atomic_fetch_add(calls, 1) + 1;
    if (lasts)
        return refused[0] > 0 && number >= refused[0];
    int refuses = number == refused[0] || number == refused[1];
    if (refuses && kills)
        raise(SIGKILL);
    return refuses;
}

void *malloc(size_t size)
{
    if (is_refused(GROWTH)) {
        errno = ENOMEM;
        return NULL;
    }
    return __libc_malloc(size);
}

void *realloc(void *block, size_t size)
{
    if (is_refused(GROWTH)) {
        errno = ENOMEM;
        return NULL;
    }
    return __libc_realloc(block, size);
}

ssize_t write(int to, const void *bytes, size_t count)
{
    if ((to == STDOUT_FILENO && is_refused(WRITE)) || (to > STDERR_FILENO && is_refused(FILES))) {
        errno = EIO;
        return -1;
    }
    return syscall(SYS_write, to, bytes, count);
}

ssize_t read(int from, void *bytes, size_t count)
{
    if (is_refused(READ)) {
        errno = EIO;
        return -1;
    }
    return syscall(SYS_read, from, bytes, count);
}

int fsync(int file)
{
    if (is_refused(FILES)) {
        errno = EIO;
        return -1;
    }
    return syscall(SYS_fsync, file);
}

int rename(const char *from, const char *to)
{
    if (is_refused(FILES)) {
        errno = EIO;
        return -1;
    }
    return syscall(SYS_rename, from, to);
}

int pthread_create(pthread_t *thread, const pthread_attr_t *how, void *(*run)(void *), void *with)
{
    create *made = (create *)dlsym(RTLD_NEXT, "pthread_create");
    if (!made || is_refused(THREAD))
        return EAGAIN;
    return made(thread, how, run, with);
}
