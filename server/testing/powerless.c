/* A disk that loses power with its process: LD_PRELOAD this into a server, and `kill -9` is a power loss.

   Of the files in the folder that POWERLESS names, what was written and isn't synced stays in the process, and so do new,
   changed and removed names until the folder is synced. A sync writes in two pieces, in either order, with pauses between:
   a kill there leaves a batch that is torn, or whose first sectors are zeros.

   With POWERLESS_LIES a sync says that all is well, and writes what the sync before it should have written: for the
   control, in which commits that were acknowledged have to be missed. With POWERLESS_FAILS=N the N-th sync fails. With
   POWERLESS_ENDS=N the process ends at the N-th step of the disk: before a sync, between its pieces, before each name
   that changes, and behind a sync, when all is there and nobody was told.

   With POWERLESS_NAMES=FILE bytes and names are there at once, so that a process may die and the machine live on: steps are
   those of names alone. FILE has a line for each name that isn't synced yet, so that the test can undo it:

       + PATH                a new file
       > FROM TO             a file that has got another name
       - PATH KEPT           a file that is gone, and where it is kept
       / FOLDER              the folder itself, as long as the one above it isn't synced

   With POWERLESS_STANDS=FILE a sync stands still as long as FILE is there. */

#define _GNU_SOURCE
#include <dlfcn.h>
#include <errno.h>
#include <fcntl.h>
#include <pthread.h>
#include <signal.h>
#include <stdarg.h>
#include <stdio.h>
#include <stdlib.h>
#include <string.h>
#include <sys/stat.h>
#include <unistd.h>

enum { FILES = 1024, NAMES = 256, SECTOR = 512 };

struct file {
    int kind; /* 0: not ours, 1: a file that is written, 2: the folder; 3 to 5 the folder, the one above and a file, whose
                 bytes are there at once */
    char *waiting;
    size_t length, synced;
};

/* A change of the folder that isn't synced: `from` becomes `to`, or goes. */
struct change {
    char from[512], to[512];
};

static struct file files[FILES];
static struct change changes[NAMES];
static int changed, syncs;
static pthread_mutex_t lock = PTHREAD_MUTEX_INITIALIZER;
static unsigned seed;

static const char *folder(void) {
    const char *name = getenv("POWERLESS");
    return name ? name : "";
}

static const char *names(void) {
    return getenv("POWERLESS_NAMES");
}

static int is_ours(const char *path) {
    size_t length = strlen(folder());
    return length && !strncmp(path, folder(), length) && path[length] == '/' && !strstr(path, "/lock");
}

static unsigned draw(unsigned below) {
    if (!seed)
        seed = (unsigned)getpid() * 2654435761u | 1;
    return (unsigned)rand_r(&seed) % below;
}

static void step(void) {
    static int steps;
    const char *ends = getenv("POWERLESS_ENDS");
    if (ends && ++steps == atoi(ends))
        kill(getpid(), SIGKILL);
}

/* Notes a name that isn't synced. */
static void note(const char *line) {
    FILE *out = fopen(names(), "a");
    if (!out || fprintf(out, "%s\n", line) < 0 || fclose(out))
        abort();
}

/* A sync of the folder, or of the one above it: what was noted of its names goes. */
static void forget_names(int is_above) {
    char kept[NAMES][1100];
    int count = 0;
    FILE *in = fopen(names(), "r");
    while (in && count < NAMES && fgets(kept[count], sizeof kept[0], in))
        count += (kept[count][0] == '/') != is_above;
    if (in)
        fclose(in);
    FILE *out = fopen(names(), "w");
    for (int at = 0; at < count; at++)
        fputs(kept[at], out);
    fclose(out);
}

/* Where a new file stands until its name is synced. */
static void hidden(const char *path, char *out) {
    const char *name = strrchr(path, '/') + 1;
    snprintf(out, 512, "%.*s.unsynced-%s", (int)(name - path), path, name);
}

/* A file whose name wasn't synced is gone with its process, and so isn't there for the next one. */
static void forget(const char *place) {
    static int (*next)(const char *);
    if (!next)
        next = (int (*)(const char *))dlsym(RTLD_NEXT, "unlink");
    next(place);
}

/* Where a file really stands: the changes that wait, undone. */
static void really(const char *path, char *out) {
    snprintf(out, 512, "%s", path);
    for (int at = changed - 1; at >= 0; at--)
        if (!strcmp(changes[at].to, out))
            snprintf(out, 512, "%s", changes[at].from);
}

static void change(const char *from, const char *to) {
    if (changed == NAMES)
        abort();
    snprintf(changes[changed].from, 512, "%s", from);
    snprintf(changes[changed++].to, 512, "%s", to);
}

int open64(const char *path, int flags, ...) {
    static int (*next)(const char *, int, ...);
    if (!next)
        next = (int (*)(const char *, int, ...))dlsym(RTLD_NEXT, "open64");
    va_list rest;
    va_start(rest, flags);
    mode_t mode = flags & O_CREAT ? va_arg(rest, mode_t) : 0;
    va_end(rest);
    pthread_mutex_lock(&lock);
    int kind = !strcmp(path, folder()) ? 2 : is_ours(path) && (flags & (O_WRONLY | O_RDWR)) ? 1 : 0;
    char place[512], line[1100];
    really(path, place);
    struct stat there;
    if (names()) {
        size_t length = strlen(path);
        int is_above = strlen(folder()) > length && !strncmp(folder(), path, length) && folder()[length] == '/' &&
                       !strchr(folder() + length + 1, '/');
        if (kind == 1 && (flags & O_CREAT) && stat(path, &there)) {
            step();
            snprintf(line, sizeof line, "+ %s", path);
            note(line);
        }
        int file = next(path, flags, mode);
        if (file >= 0 && file < FILES)
            files[file].kind = kind == 2 ? 3 : is_above ? 4 : kind == 1 ? 5 : 0;
        pthread_mutex_unlock(&lock);
        return file;
    }
    if (kind == 1 && (flags & O_CREAT) && stat(place, &there)) {
        hidden(path, place);
        forget(place);
        change(place, path);
    }
    int file = next(kind == 1 ? place : path, flags, mode);
    if (file >= 0 && file < FILES && kind) {
        files[file] = (struct file){.kind = kind};
        if (kind == 1 && !fstat(file, &there))
            files[file].synced = (size_t)there.st_size;
    }
    pthread_mutex_unlock(&lock);
    return file;
}

static struct file *file_of(int file) {
    return file >= 0 && file < FILES && files[file].kind ? &files[file] : NULL;
}

ssize_t write(int file, const void *data, size_t length) {
    static ssize_t (*next)(int, const void *, size_t);
    if (!next)
        next = (ssize_t (*)(int, const void *, size_t))dlsym(RTLD_NEXT, "write");
    struct file *ours = file_of(file);
    if (!ours || ours->kind > 2)
        return next(file, data, length);
    pthread_mutex_lock(&lock);
    ours->waiting = realloc(ours->waiting, ours->length + length);
    memcpy(ours->waiting + ours->length, data, length);
    ours->length += length;
    pthread_mutex_unlock(&lock);
    return (ssize_t)length;
}

/* Files are opened to append, and an append ignores the place: so each piece goes by a descriptor of its own. */
static void put(int file, const char *data, size_t length, size_t place) {
    char link[64];
    snprintf(link, sizeof link, "/proc/self/fd/%d", file);
    static int (*next)(const char *, int, ...);
    if (!next)
        next = (int (*)(const char *, int, ...))dlsym(RTLD_NEXT, "open64");
    int other = next(link, O_WRONLY);
    if (other < 0 || pwrite(other, data, length, (off_t)place) != (ssize_t)length)
        abort();
    close(other);
}

static void write_out(int file, struct file *ours) {
    size_t count = ours->length, first = draw(3) ? draw((unsigned)count + 1) : count;
    int is_backwards = draw(2);
    if (is_backwards) /* whole sectors are lost */
        first = (ours->synced + first) / SECTOR * SECTOR > ours->synced ? (ours->synced + first) / SECTOR * SECTOR - ours->synced : 0;
    usleep(draw(2000));
    for (int turn = 0; turn < 2; turn++) {
        if ((turn == 0) != is_backwards)
            put(file, ours->waiting, first, ours->synced);
        else
            put(file, ours->waiting + first, count - first, ours->synced + first);
        usleep(draw(2000));
        if (turn == 0)
            step();
    }
    ours->synced += count;
    ours->length = 0;
}

static void change_names(void) {
    static int (*rename_next)(const char *, const char *), (*unlink_next)(const char *);
    if (!rename_next)
        rename_next = (int (*)(const char *, const char *))dlsym(RTLD_NEXT, "rename");
    if (!unlink_next)
        unlink_next = (int (*)(const char *))dlsym(RTLD_NEXT, "unlink");
    for (int at = 0; at < changed; at++) {
        usleep(draw(1000));
        step();
        if (changes[at].to[0] ? rename_next(changes[at].from, changes[at].to) : unlink_next(changes[at].from))
            abort();
    }
    changed = 0;
}

static int sync_one(int file) {
    struct file *ours = file_of(file);
    if (!ours)
        return 0;
    const char *stands = getenv("POWERLESS_STANDS");
    struct stat there;
    while (stands && !stat(stands, &there))
        usleep(10000);
    pthread_mutex_lock(&lock);
    if (ours->kind < 5)
        step();
    const char *fails = getenv("POWERLESS_FAILS");
    int result = 0;
    if (fails && ++syncs >= atoi(fails)) {
        errno = EIO;
        result = -1;
    } else if (ours->kind > 2) {
        if (ours->kind < 5)
            forget_names(ours->kind == 4);
    } else if (ours->kind == 2) {
        change_names();
    } else if (ours->length && getenv("POWERLESS_LIES")) {
        usleep(1000); /* it is kept, and will never be written where nothing comes after it */
        static char *kept;
        static size_t length;
        static int of = -1;
        char *now = ours->waiting;
        size_t count = ours->length;
        if (of == file && length) {
            put(file, kept, length, ours->synced);
            ours->synced += length;
        }
        free(kept);
        kept = now, length = count, of = file;
        ours->waiting = NULL, ours->length = 0;
    } else if (ours->length) {
        write_out(file, ours);
    }
    if (ours->kind < 5)
        step();
    pthread_mutex_unlock(&lock);
    return result;
}

int fdatasync(int file) {
    return sync_one(file);
}

int fsync(int file) {
    return sync_one(file);
}

int close(int file) {
    static int (*next)(int);
    if (!next)
        next = (int (*)(int))dlsym(RTLD_NEXT, "close");
    struct file *ours = file_of(file);
    if (ours) {
        free(ours->waiting);
        *ours = (struct file){0};
    }
    return next(file);
}

int rename(const char *from, const char *to) {
    static int (*next)(const char *, const char *);
    if (!next)
        next = (int (*)(const char *, const char *))dlsym(RTLD_NEXT, "rename");
    if (!is_ours(from))
        return next(from, to);
    pthread_mutex_lock(&lock);
    int result = 0;
    if (names()) {
        char line[1100];
        step();
        snprintf(line, sizeof line, "> %s %s", from, to);
        note(line);
        result = next(from, to);
    } else {
        change(from, to);
    }
    pthread_mutex_unlock(&lock);
    return result;
}

int mkdir(const char *path, mode_t mode) {
    static int (*next)(const char *, mode_t);
    if (!next)
        next = (int (*)(const char *, mode_t))dlsym(RTLD_NEXT, "mkdir");
    int result = next(path, mode);
    if (!result && names() && !strcmp(path, folder())) {
        char line[1100];
        snprintf(line, sizeof line, "/ %s", path);
        note(line);
        step();
    }
    return result;
}

int unlink(const char *path) {
    static int (*next)(const char *);
    if (!next)
        next = (int (*)(const char *))dlsym(RTLD_NEXT, "unlink");
    if (!is_ours(path))
        return next(path);
    pthread_mutex_lock(&lock);
    char place[512];
    really(path, place);
    struct stat there;
    int is_there = !stat(place, &there);
    if (is_there && names()) {
        static int kept;
        char line[1100];
        snprintf(place, sizeof place, "%s.%d.%d", names(), (int)getpid(), kept++);
        snprintf(line, sizeof line, "- %s %s", path, place);
        step();
        note(line);
        if (link(path, place) || next(path))
            abort();
    } else if (is_there) {
        change(path, "");
    }
    pthread_mutex_unlock(&lock);
    errno = ENOENT;
    return is_there ? 0 : -1;
}
