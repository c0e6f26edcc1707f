/* The vendors' packing tool: says of each file that its command line names whether it is a good manifest.
 * Exit status: 0 all are good; 1 one is not or cannot be read, or the lines cannot be written; 2 no file is named. */
#include <errno.h>
#include <stdio.h>
#include <stdlib.h>
#include <string.h>

#include "manifest.h"

struct contents {
    uint8_t *bytes;
    size_t length;
};

/* Reads to the end of the file. Answers 0, or the error that stopped it. */
static int read_all(FILE *file, struct contents *all)
{
    size_t room = 0;
    size_t got;

    do {
        if (all->length == room) {
            room = room == 0 ? 4096 : 2 * room;
            uint8_t *larger = realloc(all->bytes, room);
            if (larger == NULL)
                return errno;
            all->bytes = larger;
        }
        got = fread(all->bytes + all->length, 1, room - all->length, file);
        all->length += got;
    } while (got > 0);
    return ferror(file) ? errno : 0;
}

static int read_file(const char *name, struct contents *all)
{
    FILE *file = fopen(name, "rb");
    if (file == NULL)
        return errno;
    int error = read_all(file, all);
    fclose(file);
    return error;
}

/* Prints the verdict on one file and answers whether it is good. A file that cannot be read gets a reason instead. */
static int is_good(const char *name)
{
    struct contents all = {NULL, 0};
    int good = 0;
    int error = read_file(name, &all);

    if (error != 0) {
        fprintf(stderr, "%s: %s\n", name, strerror(error));
    } else {
        good = manifest_check(all.bytes, all.length) == 0;
        printf("%s: %s\n", name, good ? "good manifest" : "not a good manifest");
    }
    free(all.bytes);
    return good;
}

int main(int count, char **names)
{
    int status = 0;

    if (count < 2) {
        fprintf(stderr, "usage: pack FILE..\n");
        return 2;
    }
    for (int i = 1; i < count; i++)
        if (!is_good(names[i]))
            status = 1;
    if (fflush(stdout) != 0 || ferror(stdout)) {
        fprintf(stderr, "the verdicts were not written: %s\n", strerror(errno));
        status = 1;
    }
    return status;
}
