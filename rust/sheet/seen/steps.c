/* Loaded before the C library. Counts the steps that change a folder: those of rename, unlink, rmdir and mkdir. Before step STEP_KILL the
   process is killed; before each step it waits STEP_WAIT microseconds. The file STEP_LOG gets a line for each, and for each fsync. A folder
   that ends with STEP_UNOPENED can't be opened, as by a broken disk, and of one that ends with STEP_UNREAD nothing is read. */
#define _GNU_SOURCE
#include <dirent.h>
#include <dlfcn.h>
#include <errno.h>
#include <signal.h>
#include <stdio.h>
#include <stdlib.h>
#include <string.h>
#include <sys/types.h>
#include <unistd.h>

static void tell(const char *what) {
    const char *path = getenv("STEP_LOG");
    FILE *file = path == NULL ? NULL : fopen(path, "a");
    if (file != NULL) {
        fprintf(file, "%s\n", what);
        fclose(file);
    }
}

static void step(const char *what) {
    static long taken = 0;
    const char *last = getenv("STEP_KILL"), *wait = getenv("STEP_WAIT");
    tell(what);
    taken += 1;
    if (wait != NULL) {
        usleep((useconds_t)atol(wait));
    }
    if (last != NULL && taken == atol(last)) {
        raise(SIGKILL);
    }
}

int rename(const char *from, const char *to) {
    step("rename");
    return ((int (*)(const char *, const char *))dlsym(RTLD_NEXT, "rename"))(from, to);
}

int unlink(const char *path) {
    step("unlink");
    return ((int (*)(const char *))dlsym(RTLD_NEXT, "unlink"))(path);
}

int rmdir(const char *path) {
    step("rmdir");
    return ((int (*)(const char *))dlsym(RTLD_NEXT, "rmdir"))(path);
}

int mkdir(const char *path, mode_t mode) {
    step("mkdir");
    return ((int (*)(const char *, mode_t))dlsym(RTLD_NEXT, "mkdir"))(path, mode);
}

int fsync(int file) {
    tell("fsync");
    return ((int (*)(int))dlsym(RTLD_NEXT, "fsync"))(file);
}

static int is_named(const char *path, const char *variable) {
    const char *end = getenv(variable);
    return end != NULL && strlen(path) >= strlen(end) && strcmp(path + strlen(path) - strlen(end), end) == 0;
}

static DIR *unread = NULL;

DIR *opendir(const char *path) {
    DIR *opened;
    if (is_named(path, "STEP_UNOPENED")) {
        errno = EIO;
        return NULL;
    }
    opened = ((DIR *(*)(const char *))dlsym(RTLD_NEXT, "opendir"))(path);
    if (is_named(path, "STEP_UNREAD")) {
        unread = opened;
    }
    return opened;
}

struct dirent64 *readdir64(DIR *folder) {
    if (folder == unread) {
        errno = EIO;
        return NULL;
    }
    return ((struct dirent64 *(*)(DIR *))dlsym(RTLD_NEXT, "readdir64"))(folder);
}
