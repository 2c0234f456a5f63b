/* Preloaded by tests/refusals/run.py into a program: the host of the program refuses it memory, or fails its calls of files.
 *
 * REFUSE=KIND:FIRST:LAST   of the calls of this kind, counted from 1, those from FIRST to LAST are refused. Kinds are
 *     memory   malloc, calloc, realloc and their like: there is no memory
 *     file     open, read, write, sync, rename and the other calls of a file: the device fails
 *     short    read and write: they move at most one byte, which is no failure
 * REFUSE_REPORT=PATH       the file to which the calls are told when the program ends: how many of memory, and each call of a
 *                          file in one letter.
 *
 * What goes to standard error is neither counted nor refused: it tells of the failure. Nor is what the loader does before.
 */
#define _GNU_SOURCE
#include <dlfcn.h>
#include <errno.h>
#include <fcntl.h>
#include <stdarg.h>
#include <stdio.h>
#include <stdlib.h>
#include <string.h>
#include <sys/stat.h>
#include <sys/syscall.h>
#include <unistd.h>

enum kind { NOTHING, MEMORY, FILES, SHORT };

static enum kind kind;
static unsigned long first, last;
static unsigned long allocations, calls;
static const char *report;
static char told[1 << 16];

static int is_refused(enum kind of, unsigned long number) {
    return kind == of && first <= number && number <= last;
}

/* --- memory --- */

static int is_out(void) {
    allocations++;
    if (!is_refused(MEMORY, allocations))
        return 0;
    errno = ENOMEM;
    return 1;
}

extern void *__libc_malloc(size_t), *__libc_calloc(size_t, size_t), *__libc_realloc(void *, size_t);
extern void *__libc_memalign(size_t, size_t);

void *malloc(size_t size) { return is_out() ? NULL : __libc_malloc(size); }
void *calloc(size_t count, size_t size) { return is_out() ? NULL : __libc_calloc(count, size); }
void *realloc(void *old, size_t size) { return is_out() ? NULL : __libc_realloc(old, size); }
void *memalign(size_t to, size_t size) { return is_out() ? NULL : __libc_memalign(to, size); }
void *aligned_alloc(size_t to, size_t size) { return memalign(to, size); }

int posix_memalign(void **to, size_t alignment, size_t size) {
    void *made = memalign(alignment, size);
    if (made)
        *to = made;
    return made ? 0 : ENOMEM;
}

/* --- files --- */

/* whether a call of a file fails; its letter is told */
static int fails(char letter) {
    if (calls < sizeof told)
        told[calls] = letter;
    calls++;
    if (!is_refused(FILES, calls))
        return 0;
    errno = EIO;
    return 1;
}

static size_t moved(size_t size) { return is_refused(SHORT, calls) && size > 1 ? 1 : size; }

#define REAL(name) ((__typeof__(&name))dlsym(RTLD_NEXT, #name))

int open(const char *path, int flags, ...) {
    va_list more;
    va_start(more, flags);
    mode_t mode = flags & O_CREAT ? va_arg(more, mode_t) : 0;
    va_end(more);
    return fails('o') ? -1 : (int)syscall(SYS_openat, AT_FDCWD, path, flags, mode);
}

ssize_t read(int fd, void *to, size_t size) {
    return fails('r') ? -1 : syscall(SYS_read, fd, to, moved(size));
}

ssize_t write(int fd, const void *from, size_t size) {
    if (fd == 2)
        return syscall(SYS_write, fd, from, size);
    return fails('w') ? -1 : syscall(SYS_write, fd, from, moved(size));
}

int close(int fd) {
    int failed = fails('c');
    syscall(SYS_close, fd);
    return failed ? -1 : 0;
}

int fsync(int fd) { return fails('s') ? -1 : (int)syscall(SYS_fsync, fd); }
int fdatasync(int fd) { return fails('s') ? -1 : (int)syscall(SYS_fdatasync, fd); }
int rename(const char *old, const char *new) {
    return fails('n') ? -1 : (int)syscall(SYS_renameat2, AT_FDCWD, old, AT_FDCWD, new, 0);
}
int unlink(const char *path) { return fails('u') ? -1 : (int)syscall(SYS_unlinkat, AT_FDCWD, path, 0); }
int fchmod(int fd, mode_t mode) { return fails('m') ? -1 : (int)syscall(SYS_fchmod, fd, mode); }
int ftruncate(int fd, off_t size) { return fails('t') ? -1 : (int)syscall(SYS_ftruncate, fd, size); }
int fcntl(int fd, int command, ...) {
    va_list more;
    va_start(more, command);
    long value = va_arg(more, long);
    va_end(more);
    return fails('d') ? -1 : (int)syscall(SYS_fcntl, fd, command, value);
}
int statx(int fd, const char *path, int flags, unsigned mask, struct statx *to) {
    return fails('x') ? -1 : (int)syscall(SYS_statx, fd, path, flags, mask, to);
}
char *realpath(const char *path, char *to) { return fails('p') ? NULL : REAL(realpath)(path, to); }

/* --- the beginning and the end --- */

__attribute__((constructor)) static void begin(void) {
    const char *wanted = getenv("REFUSE"), *where = getenv("REFUSE_REPORT");
    char word[8] = "";
    if (wanted && sscanf(wanted, "%7[a-z]:%lu:%lu", word, &first, &last) == 3)
        kind = !strcmp(word, "memory") ? MEMORY : !strcmp(word, "file") ? FILES : !strcmp(word, "short") ? SHORT : NOTHING;
    report = where;
    allocations = 0;
    calls = 0;
}

__attribute__((destructor)) static void end(void) {
    char line[64];
    if (!report)
        return;
    kind = NOTHING;
    int size = snprintf(line, sizeof line, "%lu ", allocations);
    int to = (int)syscall(SYS_openat, AT_FDCWD, report, O_WRONLY | O_CREAT | O_TRUNC, 0666);
    syscall(SYS_write, to, line, size);
    syscall(SYS_write, to, told, calls < sizeof told ? calls : sizeof told);
}
