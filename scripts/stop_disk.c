/* Loaded in front of the C library: counts the calls on files named *.db and *.db-wal that open, read, write, sync, cut
   or remove them, and stops the one with the number in STOP_AT, as HOW says:
     before  the process is killed before the call
     within  the process is killed within it: half of the bytes are written; any other call is done first
     fail    the call fails, and so does each later one
     once    the call fails, and later ones are done
   With COUNT_CALLS set, the number of calls is printed to standard error at the end. */
#define _GNU_SOURCE
#include <errno.h>
#include <fcntl.h>
#include <signal.h>
#include <stdarg.h>
#include <stdio.h>
#include <stdlib.h>
#include <string.h>
#include <sys/syscall.h>
#include <sys/types.h>
#include <unistd.h>

enum { MOST_FILES = 1024 };

static char is_ours[MOST_FILES]; /* by the number of the open file */
static long calls = 0;
static long stop_at = -1;
static const char *how = "";

static int is_how(const char *word) { return strcmp(how, word) == 0; }

static void end_here(void) { kill(getpid(), SIGKILL); }

/* Counts a call. Answers whether it has to fail; within is set where the process ends within it. */
static int stops(int *within) {
    if (stop_at < 0) {
        const char *number = getenv("STOP_AT"), *word = getenv("HOW");
        stop_at = number ? atol(number) : 0;
        how = word ? word : "";
    }
    calls++;
    *within = 0;
    if (stop_at == 0 || calls < stop_at) return 0;
    if (calls > stop_at) return is_how("fail");
    if (is_how("before")) end_here();
    *within = is_how("within");
    return is_how("fail") || is_how("once");
}

static int is_file(int file) { return file >= 0 && file < MOST_FILES && is_ours[file]; }

static int has_end(const char *path, const char *end) {
    size_t length = strlen(path), most = strlen(end);
    return length >= most && strcmp(path + length - most, end) == 0;
}

static int is_name(const char *path) { return has_end(path, ".db") || has_end(path, ".db-wal"); }

static long failed(void) {
    errno = EIO;
    return -1;
}

/* A call that moves no bytes of ours: done whole, and then the process may end. */
#define STOPPABLE(is_counted, call)           \
    do {                                      \
        int within = 0;                       \
        if (!(is_counted)) return (call);     \
        if (stops(&within)) return failed();  \
        long result = (call);                 \
        if (within) end_here();               \
        return result;                        \
    } while (0)

static int open_at(int folder, const char *path, int flags, mode_t mode) {
    int within = 0;
    if (is_name(path) && stops(&within)) return (int)failed();
    int file = (int)syscall(SYS_openat, folder, path, flags, mode);
    if (file >= 0 && file < MOST_FILES) is_ours[file] = (char)is_name(path);
    if (within) end_here();
    return file;
}

static mode_t mode_of(int flags, va_list rest) { return flags & (O_CREAT | __O_TMPFILE) ? va_arg(rest, mode_t) : 0; }

#define OPENS(name)                                    \
    int name(const char *path, int flags, ...) {       \
        va_list rest;                                  \
        va_start(rest, flags);                         \
        mode_t mode = mode_of(flags, rest);            \
        va_end(rest);                                  \
        return open_at(AT_FDCWD, path, flags, mode);   \
    }
OPENS(open)
OPENS(open64)

#define OPENS_AT(name)                                        \
    int name(int folder, const char *path, int flags, ...) {  \
        va_list rest;                                         \
        va_start(rest, flags);                                \
        mode_t mode = mode_of(flags, rest);                   \
        va_end(rest);                                         \
        return open_at(folder, path, flags, mode);            \
    }
OPENS_AT(openat)
OPENS_AT(openat64)

int close(int file) {
    if (is_file(file)) is_ours[file] = 0;
    return (int)syscall(SYS_close, file);
}

/* Writes at a place, or behind what was written where it is negative. */
static long put(int file, const void *bytes, size_t length, off_t at) {
    return at < 0 ? syscall(SYS_write, file, bytes, length) : syscall(SYS_pwrite64, file, bytes, length, at);
}

static ssize_t write_at(int file, const void *bytes, size_t length, off_t at) {
    int within = 0;
    if (!is_file(file)) return put(file, bytes, length, at);
    if (stops(&within)) return failed();
    long done = put(file, bytes, within ? length / 2 : length, at);
    if (within) end_here();
    return done;
}

ssize_t write(int file, const void *bytes, size_t length) { return write_at(file, bytes, length, -1); }

ssize_t pwrite(int file, const void *bytes, size_t length, off_t at) { return write_at(file, bytes, length, at); }

ssize_t pwrite64(int file, const void *bytes, size_t length, off_t at) { return write_at(file, bytes, length, at); }

ssize_t read(int file, void *bytes, size_t length) {
    STOPPABLE(is_file(file), syscall(SYS_read, file, bytes, length));
}

ssize_t pread(int file, void *bytes, size_t length, off_t at) {
    STOPPABLE(is_file(file), syscall(SYS_pread64, file, bytes, length, at));
}

ssize_t pread64(int file, void *bytes, size_t length, off_t at) {
    STOPPABLE(is_file(file), syscall(SYS_pread64, file, bytes, length, at));
}

int fsync(int file) { STOPPABLE(is_file(file), (int)syscall(SYS_fsync, file)); }

int fdatasync(int file) { STOPPABLE(is_file(file), (int)syscall(SYS_fdatasync, file)); }

int ftruncate(int file, off_t length) { STOPPABLE(is_file(file), (int)syscall(SYS_ftruncate, file, length)); }

int ftruncate64(int file, off_t length) { STOPPABLE(is_file(file), (int)syscall(SYS_ftruncate, file, length)); }

int unlink(const char *path) { STOPPABLE(is_name(path), (int)syscall(SYS_unlink, path)); }

__attribute__((destructor)) static void print_calls(void) {
    if (getenv("COUNT_CALLS")) fprintf(stderr, "%ld\n", calls);
}
