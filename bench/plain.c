/* A process that does to files what a command does to them, plainly, each step a word: r:NAME, a file that is opened, synced with
   its folder and read; w:NAME:PLACE:COUNT, so many bytes that are written at this place; s:NAME, a sync. */
#define _GNU_SOURCE
#include <fcntl.h>
#include <stdio.h>
#include <stdlib.h>
#include <string.h>
#include <sys/stat.h>
#include <unistd.h>

enum { FILES = 4, NAME = 32, MOST = 1 << 20 };

static char names[FILES][NAME], bytes[MOST];
static int files[FILES], known;

static void must(int holds, const char *what)
{
    if (!holds) {
        perror(what);
        exit(1);
    }
}

/* The file is opened, synced with its folder, and read. */
static int opened(const char *name)
{
    int fd = open(name, O_RDWR | O_CREAT | O_CLOEXEC, 0600);
    must(fd >= 0, name);
    int folder = open(".", O_RDONLY | O_DIRECTORY | O_CLOEXEC);
    must(folder >= 0 && fsync(fd) == 0 && fsync(folder) == 0, "sync");
    close(folder);
    struct stat s;
    must(fstat(fd, &s) == 0, "fstat");
    char *room = malloc((size_t)s.st_size + 1);
    must(room != NULL && pread(fd, room, (size_t)s.st_size, 0) == s.st_size, "read");
    free(room);
    return fd;
}

static int file_of(const char *name)
{
    for (int i = 0; i < known; i++)
        if (strcmp(names[i], name) == 0)
            return files[i];
    must(known < FILES && strlen(name) < NAME, "too many files");
    strcpy(names[known], name);
    files[known] = opened(name);
    return files[known++];
}

int main(int count, char **words)
{
    for (int i = 1; i < count; i++) {
        char what, name[NAME];
        long place = 0, length = 0;
        must(sscanf(words[i], "%c:%31[^:]:%ld:%ld", &what, name, &place, &length) >= 2 && length <= MOST, words[i]);
        int fd = file_of(name);
        if (what == 'w')
            must(pwrite(fd, bytes, (size_t)length, place) == length, "write");
        else if (what == 's')
            must(fsync(fd) == 0, "sync");
    }
    return 0;
}
