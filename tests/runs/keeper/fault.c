/*
 * Faults for a process that keeps a ledger, loaded before it (LD_PRELOAD).
 *
 *   FAULT_ROOT    calls on files below this folder count, and calls on sockets
 *   FAULT_AT      the number of the call, counted from 1, at which the fault comes; 0 is every call
 *   FAULT_ONLY    a list of names, ",write,fsync,": only these count
 *   FAULT_DO      kill-before, kill-after, EIO, ENOSPC, short (half of a write), cut-before, cut-after (the socket is shut)
 *   FAULT_STICKY  the fault comes at every call from there on
 *   FAULT_LOG     gets a line for the first fault that came: the call's name and its path
 *   FAULT_DISK    a folder that has what a machine would find after losing its power: the content of each file at its last sync,
 *                 by inode number, and the folder's names at its last sync. The real sync is left out.
 */
#define _GNU_SOURCE
#include <dirent.h>
#include <dlfcn.h>
#include <errno.h>
#include <fcntl.h>
#include <signal.h>
#include <stdarg.h>
#include <stdio.h>
#include <stdlib.h>
#include <string.h>
#include <sys/socket.h>
#include <sys/stat.h>
#include <unistd.h>

#define REAL(name) ((__typeof__(&name))dlsym(RTLD_NEXT, #name))
#define ROOM 4096

enum fault { NONE, AFTER, FAIL, HALF };

static int calls;
static int failing; /* the error of FAIL */

static int below_root(const char *path) {
    const char *root = getenv("FAULT_ROOT");
    return root && *root && strncmp(path, root, strlen(root)) == 0;
}

static int path_of(int fd, char path[ROOM]) {
    char link[64];
    snprintf(link, sizeof link, "/proc/self/fd/%d", fd);
    ssize_t length = readlink(link, path, ROOM - 1);
    path[length < 0 ? 0 : length] = 0;
    return length > 0 && (below_root(path) || strncmp(path, "socket:", 7) == 0);
}

static void log_fault(const char *name, const char *path) {
    const char *file = getenv("FAULT_LOG");
    int fd = file ? REAL(open64)(file, O_WRONLY | O_CREAT | O_APPEND, 0600) : -1;
    char line[ROOM + 64];
    int length = snprintf(line, sizeof line, "%s %s\n", name, path);
    if (fd >= 0 && REAL(write)(fd, line, (size_t)length) >= 0)
        close(fd);
}

/* Counts the call and says what is to become of it. A kill before it does not come back. */
static enum fault fault_at(const char *name, const char *path, int fd) {
    const char *at = getenv("FAULT_AT"), *what = getenv("FAULT_DO"), *only = getenv("FAULT_ONLY");
    char word[32];
    snprintf(word, sizeof word, ",%s,", name);
    if (!at || !what || (only && !strstr(only, word)))
        return NONE;
    int wanted = atoi(at), call = ++calls;
    if (wanted && call != wanted && !(getenv("FAULT_STICKY") && call > wanted))
        return NONE;
    if (call == wanted || !wanted)
        log_fault(name, path);
    if (!strcmp(what, "kill-before"))
        raise(SIGKILL);
    if (!strcmp(what, "cut-before"))
        shutdown(fd, SHUT_RDWR);
    failing = !strcmp(what, "EIO") ? EIO : ENOSPC;
    if (!strcmp(what, "short"))
        return HALF;
    return !strcmp(what, "EIO") || !strcmp(what, "ENOSPC") ? FAIL : !strcmp(what, "kill-after") || !strcmp(what, "cut-after") ? AFTER : NONE;
}

static void after(int fd) {
    if (!strcmp(getenv("FAULT_DO"), "kill-after"))
        raise(SIGKILL);
    shutdown(fd, SHUT_RDWR);
}

/* The disk: what a sync has made safe. */
static void copy_to_disk(int fd, const char *disk, ino_t inode) {
    char path[ROOM], bytes[65536];
    snprintf(path, sizeof path, "%s/%lu.part", disk, (unsigned long)inode);
    int to = REAL(open64)(path, O_WRONLY | O_CREAT | O_TRUNC, 0600);
    ssize_t length;
    for (off_t at = 0; (length = REAL(pread64)(fd, bytes, sizeof bytes, at)) > 0; at += length)
        if (REAL(write)(to, bytes, (size_t)length) != length)
            abort();
    if (length < 0) { /* opened for writing alone */
        char link[64];
        snprintf(link, sizeof link, "/proc/self/fd/%d", fd);
        int from = REAL(open64)(link, O_RDONLY);
        while ((length = REAL(read)(from, bytes, sizeof bytes)) > 0)
            if (REAL(write)(to, bytes, (size_t)length) != length)
                abort();
        close(from);
    }
    close(to);
    char name[ROOM];
    snprintf(name, sizeof name, "%s/%lu", disk, (unsigned long)inode);
    REAL(rename)(path, name);
}

/* The folder's names, and a link that keeps each inode's number from being given away. */
static void list_to_disk(const char *folder, const char *disk) {
    char part[ROOM], list[ROOM];
    snprintf(part, sizeof part, "%s/list.part", disk);
    snprintf(list, sizeof list, "%s/list", disk);
    FILE *to = fopen(part, "w");
    DIR *names = opendir(folder);
    for (struct dirent *entry; (entry = readdir(names));) {
        char path[2 * ROOM], held[2 * ROOM];
        if (entry->d_name[0] == '.')
            continue;
        fprintf(to, "%s %lu\n", entry->d_name, (unsigned long)entry->d_ino);
        snprintf(path, sizeof path, "%s/%s", folder, entry->d_name);
        snprintf(held, sizeof held, "%s/held.%lu", disk, (unsigned long)entry->d_ino);
        if (link(path, held) && errno != EEXIST)
            abort();
    }
    closedir(names);
    fclose(to);
    REAL(rename)(part, list);
}

static int to_disk(int fd, const char *path) {
    const char *disk = getenv("FAULT_DISK");
    struct stat file;
    if (!disk)
        return 0;
    fstat(fd, &file);
    if (S_ISDIR(file.st_mode))
        list_to_disk(path, disk);
    else
        copy_to_disk(fd, disk, file.st_ino);
    return 1;
}

/* The calls. */
#define FAULTY(name, path, fd, do_it)             \
    enum fault fault = fault_at(name, path, fd);  \
    if (fault == FAIL) {                          \
        errno = failing;                          \
        return -1;                                \
    }                                             \
    do_it;                                        \
    if (fault == AFTER)                           \
        after(fd);

#define OPEN(name)                                                        \
    int name(const char *path, int flags, ...) {                          \
        va_list words;                                                    \
        va_start(words, flags);                                           \
        mode_t mode = (mode_t)va_arg(words, int);                         \
        va_end(words);                                                    \
        if (!below_root(path))                                            \
            return REAL(name)(path, flags, mode);                         \
        int opened;                                                       \
        FAULTY("open", path, -1, opened = REAL(name)(path, flags, mode)) \
        return opened;                                                    \
    }

OPEN(open)
OPEN(open64)

/* Reads and writes, those at a place too; short ones come to half. */
#define SHORT(length) (fault == HALF && (length) > 1 ? (length) / 2 : (length))
#define PIECE(name, kind, parameters, ...)                                              \
    ssize_t name parameters {                                                           \
        char path[ROOM];                                                                \
        ssize_t done;                                                                   \
        enum fault fault = path_of(fd, path) ? fault_at(kind, path, fd) : NONE;         \
        if (fault == FAIL) {                                                            \
            errno = failing;                                                            \
            return -1;                                                                  \
        }                                                                               \
        done = REAL(name)(fd, bytes, SHORT(length)__VA_ARGS__);                         \
        if (fault == AFTER)                                                             \
            after(fd);                                                                  \
        return done;                                                                    \
    }

PIECE(write, "write", (int fd, const void *bytes, size_t length))
PIECE(read, "read", (int fd, void *bytes, size_t length))
PIECE(pwrite, "write", (int fd, const void *bytes, size_t length, off_t at), , at)
PIECE(pwrite64, "write", (int fd, const void *bytes, size_t length, off64_t at), , at)
PIECE(pread, "read", (int fd, void *bytes, size_t length, off_t at), , at)
PIECE(pread64, "read", (int fd, void *bytes, size_t length, off64_t at), , at)

int fsync(int fd) {
    char path[ROOM];
    int done;
    if (!path_of(fd, path))
        return REAL(fsync)(fd);
    FAULTY("fsync", path, fd, done = to_disk(fd, path) ? 0 : REAL(fsync)(fd))
    return done;
}

int fdatasync(int fd) {
    char path[ROOM];
    int done;
    if (!path_of(fd, path))
        return REAL(fdatasync)(fd);
    FAULTY("fsync", path, fd, done = to_disk(fd, path) ? 0 : REAL(fdatasync)(fd))
    return done;
}

int rename(const char *from, const char *to) {
    int done;
    if (!below_root(to))
        return REAL(rename)(from, to);
    FAULTY("rename", to, -1, done = REAL(rename)(from, to))
    return done;
}

/* The message that asks for a commit, and what is received after it, have names of their own. */
static int at_commit;

ssize_t send(int fd, const void *bytes, size_t length, int flags) {
    ssize_t done;
    at_commit = memmem(bytes, length, "COMMIT", 6) && !memmem(bytes, length, "COMMITTED", 9);
    FAULTY(at_commit ? "commit" : "send", "socket", fd, done = REAL(send)(fd, bytes, length, flags))
    return done;
}

ssize_t recv(int fd, void *bytes, size_t length, int flags) {
    ssize_t done;
    FAULTY(at_commit ? "committed" : "recv", "socket", fd, done = REAL(recv)(fd, bytes, length, flags))
    return done;
}
