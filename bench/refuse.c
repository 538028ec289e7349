/* Refuses one call of a program at a time, and says how it ends each time.
 *
 *   cc -O2 -shared -fPIC -o refuse.so bench/refuse.c
 *   REFUSE=alloc|io [REFUSE_FIRST=N] [REFUSE_LAST=N] [REFUSE_STEP=N] [REFUSE_FILE=NAME] LD_PRELOAD=./refuse.so vcc WORDS.. >OUT 2>TABLE
 *
 * At each call of `malloc` or `realloc` (alloc), or of `open`, `read`, `write` or `lseek` (io), from the first to the last number and by this step, the program is
 * forked: in the copy the call fails, and the copy runs to its end; the program itself waits for it and goes on as if nothing had happened. So every call is tried
 * in one run. What a copy has printed of the call on, and its status, are counted; behind the program's end the table of them stands on standard error: how many
 * copies, the first and last of them, the status (or the signal, below 0), and the last line that was printed. A copy has a file REFUSE_FILE of its own. */
#define _GNU_SOURCE
#include <dlfcn.h>
#include <errno.h>
#include <fcntl.h>
#include <stdarg.h>
#include <stdint.h>
#include <stdio.h>
#include <stdlib.h>
#include <string.h>
#include <sys/syscall.h>
#include <sys/wait.h>
#include <unistd.h>

extern void *__libc_malloc(size_t);
extern void *__libc_realloc(void *, size_t);

enum { NOTHING, ALLOCATIONS, CALLS };

static int what = NOTHING, is_copy, is_ready;
static long first = 1, last = 1L << 60, by = 1, now;
static const char *file;
static char other[512], printed[64];

struct row { long count, first, last; int status; char line[200]; };
static struct row table[64];
static int rows;

static long number(const char *name, long otherwise)
{
    const char *text = getenv(name);
    return text ? atol(text) : otherwise;
}

static void begin(void)
{
    if (is_ready) return;
    is_ready = 1;
    const char *word = getenv("REFUSE");
    if (!word) return;
    first = number("REFUSE_FIRST", first);
    last = number("REFUSE_LAST", last);
    by = number("REFUSE_STEP", by);
    file = getenv("REFUSE_FILE");
    if (file) snprintf(other, sizeof other, "%s.copy", file);
    snprintf(printed, sizeof printed, "/tmp/refuse.%d", (int)getpid());
    what = strcmp(word, "io") ? ALLOCATIONS : CALLS;
}

static void copy_file(void)
{
    char piece[65536];
    long from = syscall(SYS_open, file, O_RDONLY), to = syscall(SYS_open, other, O_WRONLY | O_CREAT | O_TRUNC, 0600), got;
    while (from >= 0 && to >= 0 && (got = syscall(SYS_read, from, piece, sizeof piece)) > 0) syscall(SYS_write, to, piece, got);
    syscall(SYS_close, from);
    syscall(SYS_close, to);
}

static void note(int status)
{
    struct row it = { 1, now, now, status, "" };
    char text[4096];
    long fd = syscall(SYS_open, printed, O_RDONLY), end = syscall(SYS_lseek, fd, 0, SEEK_END);
    long from = end > 4095 ? end - 4095 : 0;
    syscall(SYS_lseek, fd, from, SEEK_SET);
    long got = syscall(SYS_read, fd, text, 4095);
    syscall(SYS_close, fd);
    if (got > 0) {
        text[got] = 0;
        if (text[got - 1] == '\n') text[got - 1] = 0;
        char *line = strrchr(text, '\n');
        strncpy(it.line, line ? line + 1 : text, sizeof it.line - 1);
    }
    for (int i = 0; i < rows; i++)
        if (table[i].status == status && !strcmp(table[i].line, it.line)) { table[i].count++; table[i].last = now; return; }
    if (rows < 64) table[rows++] = it;
}

/* Whether this call is to fail: in the copy, and nowhere else. */
static int refuses(int kind)
{
    begin();
    if (what != kind || is_copy) return 0;
    now++;
    if (now < first || now > last || (now - first) % by) return 0;
    if (file) copy_file();
    long out = syscall(SYS_open, printed, O_WRONLY | O_CREAT | O_TRUNC, 0600);
    pid_t copy = fork();
    if (copy == 0) {
        is_copy = 1;
        syscall(SYS_dup2, out, 1);
        return 1;
    }
    int status = 0;
    syscall(SYS_close, out);
    waitpid(copy, &status, 0);
    note(WIFEXITED(status) ? WEXITSTATUS(status) : -WTERMSIG(status));
    return 0;
}

void *malloc(size_t size) { return refuses(ALLOCATIONS) ? NULL : __libc_malloc(size); }
void *realloc(void *old, size_t size) { return refuses(ALLOCATIONS) ? NULL : __libc_realloc(old, size); }

static int failed(void) { errno = EIO; return -1; }

int open(const char *name, int flags, ...)
{
    va_list more;
    va_start(more, flags);
    int mode = va_arg(more, int);
    va_end(more);
    if (refuses(CALLS)) return failed();
    return (int)syscall(SYS_open, is_copy && file && !strcmp(name, file) ? other : name, flags, mode);
}

ssize_t read(int fd, void *to, size_t count) { return refuses(CALLS) ? failed() : syscall(SYS_read, fd, to, count); }
ssize_t write(int fd, const void *from, size_t count) { return refuses(CALLS) ? failed() : syscall(SYS_write, fd, from, count); }
off_t lseek(int fd, off_t place, int from) { return refuses(CALLS) ? failed() : syscall(SYS_lseek, fd, place, from); }

__attribute__((destructor)) static void end(void)
{
    if (what == NOTHING || is_copy) return;
    unlink(printed);
    what = NOTHING;
    fprintf(stderr, "%ld calls\n", now);
    for (int i = 0; i < rows; i++)
        fprintf(stderr, "%7ld times, %ld to %ld: status %d, %s\n", table[i].count, table[i].first, table[i].last, table[i].status, table[i].line);
}
