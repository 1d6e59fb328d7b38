/* Preloaded by crashes.py. Keeps in $KEPT what a power loss leaves at least: of each file its bytes at its last sync, and the names of
 * the folder at its last sync. With $NO_SYNC syncs do nothing, and nothing of this life is kept. */
#define _GNU_SOURCE
#include <dirent.h>
#include <dlfcn.h>
#include <fcntl.h>
#include <stdio.h>
#include <stdlib.h>
#include <string.h>
#include <sys/stat.h>
#include <time.h>
#include <unistd.h>

static void copy(const char *from, const char *to, const char *unfinished) {
    char bytes[65536];
    ssize_t count;
    int in = open(from, O_RDONLY), out = open(unfinished, O_WRONLY | O_CREAT | O_TRUNC, 0666);
    if (in < 0 || out < 0) _exit(99);
    while ((count = read(in, bytes, sizeof bytes)) > 0)
        if (write(out, bytes, count) != count) _exit(99);
    close(in);
    close(out);
    if (rename(unfinished, to)) _exit(99);
}

static const char *name_of(const char *path) {
    const char *slash = strrchr(path, '/');
    return slash ? slash + 1 : path;
}

static void keep(int file) {
    char link[64], path[4096], to[4600], unfinished[4600];
    struct stat found;
    const char *kept = getenv("KEPT");
    if (!kept || fstat(file, &found)) return;
    snprintf(link, sizeof link, "/proc/self/fd/%d", file);
    ssize_t length = readlink(link, path, sizeof path - 1);
    if (length < 0) return;
    path[length] = 0;
    if (!S_ISDIR(found.st_mode)) {
        snprintf(to, sizeof to, "%s/data/%s", kept, name_of(path));
        snprintf(unfinished, sizeof unfinished, "%s/data.new", kept);
        copy(path, to, unfinished);
        return;
    }
    const char *folder = getenv("FOLDER");
    if (!folder || strcmp(name_of(folder), name_of(path))) return; /* the folder above */
    snprintf(to, sizeof to, "%s/names", kept);
    snprintf(unfinished, sizeof unfinished, "%s/names.new", kept);
    FILE *names = fopen(unfinished, "w");
    DIR *entries = opendir(path);
    if (!names || !entries) _exit(99);
    for (struct dirent *entry; (entry = readdir(entries));)
        if (entry->d_name[0] != '.') fprintf(names, "%s\n", entry->d_name);
    closedir(entries);
    fclose(names);
    rename(unfinished, to);
    /* A removal that lasts takes the bytes along: a file made anew under the name does not have them. */
    snprintf(to, sizeof to, "%s/data", kept);
    if (!(entries = opendir(to))) _exit(99);
    for (struct dirent *entry; (entry = readdir(entries));) {
        if (entry->d_name[0] == '.') continue;
        snprintf(unfinished, sizeof unfinished, "%s/%s", path, entry->d_name);
        if (access(unfinished, F_OK) == 0) continue;
        snprintf(unfinished, sizeof unfinished, "%s/data/%s", kept, entry->d_name);
        unlink(unfinished);
    }
    closedir(entries);
}

static int synced(const char *call, int file) {
    if (getenv("NO_SYNC")) return 0;
    /* As slow as a disk, so that kills come in between. */
    struct timespec now;
    clock_gettime(CLOCK_MONOTONIC, &now);
    usleep(now.tv_nsec / 100 % 6000);
    int (*real)(int) = dlsym(RTLD_NEXT, call);
    int result = real(file);
    if (!result) keep(file);
    return result;
}

int fsync(int file) { return synced("fsync", file); }

int fdatasync(int file) { return synced("fdatasync", file); }
