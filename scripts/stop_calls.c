/* Stops the program at one of its calls on a file, has that call fail, be interrupted or last, or tells its calls. A call is a read, a
   write or a sync of a file with the name CALLS_FILE, or of the one with `.new` after it, which is to take its place, or the call that
   gives that one the name, or a sync of the folder while the name is new. The one that is meant has the number CALLS_AT, from 1 on.
   With CALLS_END=kill the program is killed just before it; with `fail` it fails; with `interrupt` it does nothing, and answers that a
   signal interrupted it (but the new name is given); with `wait` it lasts until the file CALLS_ALSO has CALLS_SIZE bytes, and if that
   takes too long the program ends with 99. With `log` each call of the file, and of the file CALLS_ALSO, adds a line to the file
   CALLS_LOG.
   A program that is killed leaves two more files, with what a loss of power may leave under the name: NAME.lost has nothing that was
   written since the last sync, and NAME.sevens has the byte 7 in each place that was written or added since then, also where it held
   the same byte before. While the name is new and the folder was not synced, NAME.lost is the file that had it before. Made into a
   library by stop_rows, which has the program load it before the C library. */
#define _GNU_SOURCE
#include <dlfcn.h>
#include <errno.h>
#include <fcntl.h>
#include <pthread.h>
#include <signal.h>
#include <stdio.h>
#include <stdlib.h>
#include <string.h>
#include <sys/stat.h>
#include <sys/syscall.h>
#include <sys/types.h>
#include <unistd.h>

#define MOST_BYTES (1 << 20)

/* One call of the file at a time, so that each has one number. */
static pthread_mutex_t lock = PTHREAD_MUTEX_INITIALIZER;
static unsigned long calls;

/* What a file held at the last sync, or at the first call, and which places were written since. */
struct image {
    char synced[MOST_BYTES], written[MOST_BYTES];
    ssize_t size;
    int file;
};

/* The file that has the name, the one that is to take its place, and the one that had the name before the folder's last sync. */
static struct image files[3] = {{.size = -1}, {.size = -1}, {.size = -1}};
static struct image *named = &files[0], *next = &files[1], *before = &files[2];
static int is_renamed;

static const char *setting(const char *name) {
    const char *text = getenv(name);
    return text ? text : "";
}

/* The path of an open file; and its last name. */
static const char *name_of(int file, char *path, size_t room) {
    char link[64];
    ssize_t size;
    snprintf(link, sizeof link, "/proc/self/fd/%d", file);
    size = readlink(link, path, room - 1);
    path[size < 0 ? 0 : size] = 0;
    return strrchr(path, '/') ? strrchr(path, '/') + 1 : path;
}

/* The image of this file, if its calls are counted. */
static struct image *meant(int file) {
    char path[4096], to[300];
    const char *name = name_of(file, path, sizeof path);
    if (strcmp(name, setting("CALLS_FILE")) == 0) return named;
    snprintf(to, sizeof to, "%s.new", setting("CALLS_FILE"));
    return strcmp(name, to) == 0 ? next : NULL;
}

/* Makes the file CALLS_FILE with this ending, with these bytes. */
static void make(const char *ending, const char *bytes, ssize_t size) {
    char to[4200];
    int out;
    snprintf(to, sizeof to, "%s%s", setting("CALLS_FILE"), ending);
    out = syscall(SYS_openat, AT_FDCWD, to, O_WRONLY | O_CREAT | O_TRUNC, 0644);
    if (size > 0 && syscall(SYS_write, out, bytes, size) != size) abort();
    syscall(SYS_close, out);
}

/* Makes the files of a loss of power. */
static void make_images(void) {
    static char bytes[MOST_BYTES];
    struct image *old = is_renamed ? before : named;
    ssize_t size = named->size < 0 ? 0 : syscall(SYS_pread64, named->file, bytes, sizeof bytes, 0), k;
    for (k = 0; k < size; k++)
        if (k >= named->size || named->written[k]) bytes[k] = 7;
    make(".lost", old->synced, old->size);
    make(".sevens", bytes, size);
}

/* Adds a line to the log if this file has a name that is told. */
static void tell(const char *what, int file) {
    char path[4096], line[300];
    const char *name = name_of(file, path, sizeof path);
    int out, size;
    if (strcmp(name, setting("CALLS_FILE")) != 0 && strcmp(name, setting("CALLS_ALSO")) != 0) return;
    size = snprintf(line, sizeof line, "%s %s\n", what, name);
    out = syscall(SYS_openat, AT_FDCWD, setting("CALLS_LOG"), O_WRONLY | O_CREAT | O_APPEND, 0644);
    if (syscall(SYS_write, out, line, (size_t)size) != size) abort();
    syscall(SYS_close, out);
}

static void note_sync(struct image *of, int file) {
    of->file = file;
    of->size = syscall(SYS_pread64, file, of->synced, sizeof of->synced, 0);
    memset(of->written, 0, sizeof of->written);
}

static void note_write(struct image *of, off_t at, ssize_t size) {
    for (; size-- > 0; at++)
        if (at >= 0 && at < MOST_BYTES) of->written[at] = 1;
}

/* Counts a call. Whether it is to fail. */
static int fails(void) {
    const char *end = setting("CALLS_END");
    if (++calls != strtoul(setting("CALLS_AT"), NULL, 10)) return 0;
    if (strcmp(end, "kill") == 0) {
        make_images();
        kill(getpid(), SIGKILL);
    }
    return strcmp(end, "fail") == 0 || strcmp(end, "interrupt") == 0;
}

/* Why a call fails that is to. */
static int reason(void) { return strcmp(setting("CALLS_END"), "interrupt") == 0 ? EINTR : EIO; }

/* Lets the call that is meant last until the other file is long enough. */
static void last(void) {
    off_t size = strtoul(setting("CALLS_SIZE"), NULL, 10);
    struct stat file;
    int k;
    if (strcmp(setting("CALLS_END"), "wait") != 0 || calls != strtoul(setting("CALLS_AT"), NULL, 10)) return;
    for (k = 0; k < 20000; k++) {
        if (stat(setting("CALLS_ALSO"), &file) == 0 && file.st_size >= size) return;
        usleep(1000);
    }
    _exit(99);
}

/* Makes the call `CALL`, which gives `got`, and then `NOTE` of the image `of`, unless it is to fail. */
#define COUNTED(WHAT, FILE, CALL, NOTE)                                               \
    do {                                                                              \
        struct image *of;                                                             \
        *(void **)&given = dlsym(RTLD_NEXT, __func__);                                \
        if (strcmp(setting("CALLS_END"), "log") == 0) tell(WHAT, FILE);               \
        if (!(of = meant(FILE))) return CALL;                                         \
        pthread_mutex_lock(&lock);                                                    \
        if (of->size < 0) note_sync(of, FILE);                                        \
        of->file = FILE;                                                              \
        if (fails()) {                                                                \
            pthread_mutex_unlock(&lock);                                              \
            errno = reason();                                                         \
            return -1;                                                                \
        }                                                                             \
        got = CALL;                                                                   \
        NOTE;                                                                         \
        last();                                                                       \
        pthread_mutex_unlock(&lock);                                                  \
        return got;                                                                   \
    } while (0)

/* A sync of the folder while the name is new. */
static int sync_folder(int file, int (*given)(int)) {
    int got = -1;
    pthread_mutex_lock(&lock);
    if (fails())
        errno = reason();
    else if ((got = given(file)) == 0)
        is_renamed = 0;
    pthread_mutex_unlock(&lock);
    return got;
}

int fsync(int file) {
    int (*given)(int), got;
    struct stat of_file;
    *(void **)&given = dlsym(RTLD_NEXT, "fsync");
    if (is_renamed && fstat(file, &of_file) == 0 && S_ISDIR(of_file.st_mode)) return sync_folder(file, given);
    COUNTED("sync", file, given(file), if (got == 0) note_sync(of, file));
}

/* The call that gives the next file the name. */
int rename(const char *from, const char *to) {
    int (*given)(const char *, const char *), got = -1;
    struct image *old;
    *(void **)&given = dlsym(RTLD_NEXT, "rename");
    if (strcmp(to, setting("CALLS_FILE")) != 0) return given(from, to);
    pthread_mutex_lock(&lock);
    if (fails() && reason() == EIO) {
        errno = EIO;
    } else if ((got = given(from, to)) == 0) {
        old = before;
        before = named;
        named = next;
        next = old;
        next->size = -1;
        is_renamed = 1;
    }
    pthread_mutex_unlock(&lock);
    return got;
}

ssize_t pwrite(int file, const void *bytes, size_t size, off_t at) {
    ssize_t (*given)(int, const void *, size_t, off_t), got;
    COUNTED("write", file, given(file, bytes, size, at), note_write(of, at, got));
}

ssize_t write(int file, const void *bytes, size_t size) {
    ssize_t (*given)(int, const void *, size_t), got;
    COUNTED("write", file, given(file, bytes, size), (void)got);
}

ssize_t pread(int file, void *bytes, size_t size, off_t at) {
    ssize_t (*given)(int, void *, size_t, off_t), got;
    COUNTED("read", file, given(file, bytes, size, at), (void)got);
}

ssize_t read(int file, void *bytes, size_t size) {
    ssize_t (*given)(int, void *, size_t), got;
    COUNTED("read", file, given(file, bytes, size), (void)got);
}
