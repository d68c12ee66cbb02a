"""A built program one of whose calls of the system fails: a library of C that is loaded before it.

`Loaded(folder)` compiles the library by `cc` into the folder. `run` runs a program with it, and gives its status, its output, its
calls, and how many growths and threads it had. The calls that a program makes are numbered from 1, in the order of the whole process,
and so are its growths, the calls by which it asks for memory, and the threads that it starts. A rule says what happens to the calls of
some numbers: they fail with an error, or take at most so many bytes.
"""
import argparse
import errno
import os
import pathlib
import subprocess
import typing

SECONDS = 60
ALWAYS = 1 << 40

SOURCE = r"""
#define _GNU_SOURCE
#include <dlfcn.h>
#include <errno.h>
#include <fcntl.h>
#include <pthread.h>
#include <stdarg.h>
#include <stdatomic.h>
#include <stdio.h>
#include <stdlib.h>
#include <string.h>
#include <sys/stat.h>
#include <sys/syscall.h>
#include <unistd.h>

extern void *__libc_malloc(size_t), *__libc_calloc(size_t, size_t), *__libc_realloc(void *, size_t), *__libc_memalign(size_t, size_t);

struct rule { long first, last, error, most; };
static struct rule calls[8], growths[8], threads[8];
static int n_calls, n_growths, n_threads, told = -1, begun, files[1024];
static atomic_long call_count, growth_count, thread_count;
static const char *only, *kind;

static int rules(const char *text, struct rule *into) {
    int n = 0;
    for (char *at = (char *)text; at && *at && n < 8; n++) {
        into[n].first = strtol(at, &at, 10), into[n].last = strtol(at, &at, 10);
        into[n].error = strtol(at, &at, 10), into[n].most = strtol(at, &at, 10);
    }
    return n;
}

static struct rule *rule_at(struct rule *all, int n, long number) {
    for (int i = 0; i < n; i++)
        if (all[i].first <= number && number <= all[i].last) return &all[i];
    return NULL;
}

__attribute__((constructor)) static void begin(void) {
    n_calls = rules(getenv("FAILING_CALLS"), calls), n_growths = rules(getenv("FAILING_GROWTHS"), growths);
    n_threads = rules(getenv("FAILING_THREADS"), threads);
    only = getenv("FAILING_FILE"), kind = getenv("FAILING_KIND");
    const char *path = getenv("FAILING_TOLD");
    int fd = path ? syscall(SYS_openat, AT_FDCWD, path, O_WRONLY | O_CREAT | O_APPEND | O_CLOEXEC, 0600) : -1;
    if (fd >= 0) told = syscall(SYS_fcntl, fd, F_DUPFD_CLOEXEC, 900), syscall(SYS_close, fd);
    begun = 1;
}

static void put(const char *line, int n) { if (told >= 0) syscall(SYS_write, told, line, n); }

/* A program ends by a return from its main, or by _exit. */
__attribute__((destructor)) static void end(void) {
    char line[64];
    put(line, snprintf(line, sizeof line, "growths %ld %ld\n", (long)growth_count, (long)thread_count));
}

void _exit(int status) {
    end();
    for (;;) syscall(SYS_exit_group, status);
}

static int refused(void) {
    if (!begun) return 0;
    struct rule *rule = rule_at(growths, n_growths, ++growth_count);
    if (rule) errno = ENOMEM;
    return rule != NULL;
}

void *malloc(size_t n) { return refused() ? NULL : __libc_malloc(n); }
void *calloc(size_t n, size_t m) { return refused() ? NULL : __libc_calloc(n, m); }
void *realloc(void *p, size_t n) { return refused() ? NULL : __libc_realloc(p, n); }
void *memalign(size_t a, size_t n) { return refused() ? NULL : __libc_memalign(a, n); }
void *aligned_alloc(size_t a, size_t n) { return refused() ? NULL : __libc_memalign(a, n); }
int posix_memalign(void **p, size_t a, size_t n) { return refused() ? ENOMEM : (*p = __libc_memalign(a, n)) ? 0 : ENOMEM; }

int pthread_create(pthread_t *thread, const pthread_attr_t *how, void *(*work)(void *), void *with) {
    static int (*start)(pthread_t *, const pthread_attr_t *, void *(*)(void *), void *);
    struct rule *rule = rule_at(threads, n_threads, ++thread_count);
    if (!start) start = dlsym(RTLD_NEXT, "pthread_create");
    return rule ? rule->error : start(thread, how, work, with);
}

static long done(struct rule *rule, const char *name, long fd, long place, long length, long result, const char *path) {
    int error = errno;
    char line[4400];
    put(line, snprintf(line, sizeof line, "%s %ld %ld %ld %ld %d %d %s\n", name, fd, place, length, result, result < 0 ? error : 0, rule != NULL, path));
    errno = error;
    return result;
}

static struct rule *due(const char *name, int is_counted) {
    return begun && is_counted && (!kind || !strcmp(kind, name)) ? rule_at(calls, n_calls, ++call_count) : NULL;
}

static int is_counted(int fd) { return !only || (fd >= 0 && fd < 1024 && files[fd]); }

#define FAILS(rule) ((rule) && (rule)->error && (errno = (rule)->error))
#define FEWER(rule, n) ((rule) && (rule)->most > 0 && (size_t)(rule)->most < (n) ? (size_t)(rule)->most : (n))

static int opened(const char *name, const char *path, int flags, int mode) {
    const char *last = strrchr(path, '/');
    int is_it = only && !strcmp(last ? last + 1 : path, only);
    struct rule *rule = due(name, !only || is_it);
    int fd = FAILS(rule) ? -1 : (int)syscall(SYS_openat, AT_FDCWD, path, flags, mode);
    if (fd >= 0 && fd < 1024) files[fd] = is_it;
    return done(rule, name, fd, -1, flags, fd, path);
}

#define MODE int mode = 0; if (flags & (O_CREAT | O_TMPFILE)) { va_list a; va_start(a, flags); mode = va_arg(a, int); va_end(a); }
int open(const char *path, int flags, ...) { MODE return opened("open", path, flags, mode); }
int open64(const char *path, int flags, ...) { MODE return opened("open", path, flags, mode); }

ssize_t read(int fd, void *to, size_t n) {
    struct rule *rule = due("read", is_counted(fd));
    return done(rule, "read", fd, -1, n, FAILS(rule) ? -1 : syscall(SYS_read, fd, to, FEWER(rule, n)), "");
}

ssize_t write(int fd, const void *from, size_t n) {
    struct rule *rule = due("write", is_counted(fd));
    return done(rule, "write", fd, -1, n, FAILS(rule) ? -1 : syscall(SYS_write, fd, from, FEWER(rule, n)), "");
}

ssize_t pread(int fd, void *to, size_t n, off_t at) {
    struct rule *rule = due("pread", is_counted(fd));
    return done(rule, "pread", fd, at, n, FAILS(rule) ? -1 : syscall(SYS_pread64, fd, to, FEWER(rule, n), at), "");
}
ssize_t pread64(int fd, void *to, size_t n, off_t at) { return pread(fd, to, n, at); }

ssize_t pwrite(int fd, const void *from, size_t n, off_t at) {
    struct rule *rule = due("pwrite", is_counted(fd));
    return done(rule, "pwrite", fd, at, n, FAILS(rule) ? -1 : syscall(SYS_pwrite64, fd, from, FEWER(rule, n), at), "");
}
ssize_t pwrite64(int fd, const void *from, size_t n, off_t at) { return pwrite(fd, from, n, at); }

int statx(int fd, const char *restrict path, int flags, unsigned mask, struct statx *restrict to) {
    struct rule *rule = due("statx", is_counted(fd));
    return done(rule, "statx", fd, -1, 0, FAILS(rule) ? -1 : (int)syscall(SYS_statx, fd, path, flags, mask, to), "");
}

int fstat(int fd, struct stat *to) {
    struct rule *rule = due("fstat", is_counted(fd));
    return done(rule, "fstat", fd, -1, 0, FAILS(rule) ? -1 : (int)syscall(SYS_fstat, fd, to), "");
}
"""


class Rule(typing.NamedTuple):
    """What happens to the calls from one number to another."""

    first: int
    last: int
    error: int = 0
    most: int = 0


def at(number, error=0, most=0):
    return Rule(number, number, error, most)


class Call(typing.NamedTuple):
    """A call as it was made; `changed` is whether a rule was for it. `path` is that of an open."""

    name: str
    fd: int
    place: int
    length: int
    result: int
    error: int
    changed: bool
    path: str


class Came(typing.NamedTuple):
    status: int
    output: bytes
    calls: list
    growths: int | None
    threads: int | None


def read_told(path):
    calls, counts = [], (None, None)
    for line in path.read_text(errors="replace").splitlines() if path.exists() else ():
        if line.startswith("growths "):
            counts = tuple(map(int, line.split()[1:]))
            continue
        name, fd, place, length, result, error, changed, path = line.split(" ", 7)
        calls.append(Call(name, int(fd), int(place), int(length), int(result), int(error), changed == "1", path))
    return calls, counts


class Loaded:
    def __init__(self, folder):
        folder = pathlib.Path(folder)
        self.library = folder / "made_to_fail.so"
        source = folder / "made_to_fail.c"
        source.write_text(SOURCE)
        subprocess.run(["cc", "-O1", "-w", "-fPIC", "-shared", "-o", str(self.library), str(source)], check=True)

    def run(self, program, words, folder, calls=(), growths=(), threads=(), only=None, kind=None, tell=True, **how):
        """What comes of a call of a program in a folder. `only` is the name of the file whose calls alone are counted, `kind` that of the
        calls that alone are counted."""
        told = self.library.parent / f"{pathlib.Path(folder).name}.{os.getpid()}.told"
        env = {"LD_PRELOAD": str(self.library)}
        env |= {"FAILING_CALLS": " ".join(" ".join(map(str, rule)) for rule in calls)} if calls else {}
        env |= {"FAILING_GROWTHS": " ".join(" ".join(map(str, rule)) for rule in growths)} if growths else {}
        env |= {"FAILING_THREADS": " ".join(" ".join(map(str, rule)) for rule in threads)} if threads else {}
        env |= {"FAILING_FILE": only} if only else {}
        env |= {"FAILING_KIND": kind} if kind else {}
        env |= {"FAILING_TOLD": str(told)} if tell else {}
        how = {"stdout": subprocess.PIPE, "stderr": subprocess.DEVNULL, "timeout": SECONDS} | how
        done = subprocess.run([program, *words], cwd=folder, env=env, **how)
        made, counts = read_told(told)
        told.unlink(missing_ok=True)
        return Came(done.returncode, done.stdout or b"", made, *counts)


def read_words(what):
    """The words of a script that tries a program, and the path of the program."""
    words = argparse.ArgumentParser(description=what, formatter_class=argparse.RawDescriptionHelpFormatter)
    words.add_argument("program")
    words.add_argument("--jobs", type=int, default=4)
    words.add_argument("picks", nargs="*", metavar="WORD")
    words = words.parse_intermixed_args()
    return words, str(pathlib.Path(words.program).resolve())


def error_name(number):
    return errno.errorcode.get(number, str(number))
