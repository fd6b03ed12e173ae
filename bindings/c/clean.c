/* Cleans an image: `clean IN [OUT]` prints the report and writes the cleaned image to OUT.

   OUT is written whole or not at all: a file beside it is filled, brought to the medium and renamed, so that a full
   stick leaves the old one. Status: 0 done, 1 the image was refused, 2 wrong use, 3 a file or memory failed. */
#define _XOPEN_SOURCE 700

#include <errno.h>
#include <stdio.h>
#include <stdlib.h>
#include <string.h>
#include <sys/stat.h>
#include <unistd.h>

#include "showclean.h"

enum { DONE = 0, REFUSED = 1, WRONG_USE = 2, FAILED = 3 };

static uint8_t image[SHOWCLEAN_LARGEST_IMAGE + 1];
static uint8_t output[SHOWCLEAN_LARGEST_IMAGE + 1];
static uint32_t work[SHOWCLEAN_WORK(SHOWCLEAN_LARGEST_IMAGE + 1)];

static int failed(const char *what, const char *name)
{
    fprintf(stderr, "clean: cannot %s %s: %s\n", what, name, strerror(errno));
    return FAILED;
}

/* One byte more than the longest image is enough to have it refused. */
static int read_image(const char *name, size_t *length)
{
    FILE *file = fopen(name, "rb");
    int status = DONE;
    if (!file)
        return failed("read", name);
    *length = fread(image, 1, sizeof image, file);
    if (ferror(file))
        status = failed("read", name);
    fclose(file);
    return status;
}

/* Writes, flushes and closes; each can be the first to meet a full medium. */
static int filled(FILE *file, const uint8_t *bytes, size_t length, int is_new)
{
    int written = fwrite(bytes, 1, length, file) == length;
    int flushed = fflush(file) == 0 && (!is_new || fsync(fileno(file)) == 0);
    int error = errno;
    int closed = fclose(file) == 0;
    if (!written || !flushed)
        errno = error;
    return written && flushed && closed;
}

/* Fills a new file beside the one that is meant, then renames it. */
static int replaced(const char *path, const uint8_t *bytes, size_t length, const struct stat *old)
{
    static const char ending[] = ".new-XXXXXX";
    char *beside = (char *)malloc(strlen(path) + sizeof ending);
    int number = -1, done = 0;
    FILE *file = NULL;
    if (!beside)
        return 0;
    strcpy(beside, path);
    strcat(beside, ending);
    number = mkstemp(beside);
    if (number >= 0) {
        mode_t mask = umask(0);
        umask(mask);
        file = fchmod(number, old ? old->st_mode & 0777 : 0666 & ~mask) == 0 ? fdopen(number, "wb") : NULL;
        done = file && filled(file, bytes, length, 1) && rename(beside, path) == 0;
        if (!done) {
            int error = errno;
            if (!file)
                close(number);
            unlink(beside);
            errno = error;
        }
    }
    free(beside);
    return done;
}

/* A device or a pipe is written to as it is; a link is followed. */
static int write_output(const char *name, size_t length)
{
    struct stat old;
    int there = stat(name, &old) == 0, done;
    if (there && !S_ISREG(old.st_mode)) {
        FILE *file = fopen(name, "wb");
        done = file && filled(file, output, length, 0);
    } else {
        char *path = there ? realpath(name, NULL) : NULL;
        done = (path || !there) && replaced(path ? path : name, output, length, there ? &old : NULL);
        free(path);
    }
    return done ? DONE : failed("write", name);
}

static int refused(uint64_t answer)
{
    fprintf(stderr, "clean: refused %u at %lu: %s\n", showclean_number(answer), (unsigned long)showclean_place(answer),
            showclean_refusal_text(showclean_number(answer)));
    return REFUSED;
}

/* A call with no report tells how long it must be. */
static uint64_t cleaned(size_t length, uint8_t *report, size_t report_length)
{
    return showclean_clean(image, length, output, length, work, SHOWCLEAN_WORK(length), report, report_length);
}

static int clean(size_t length, const char *out)
{
    uint64_t answer = cleaned(length, NULL, 0);
    size_t needed = showclean_place(answer);
    uint8_t *report;
    int status = DONE;
    if (showclean_number(answer) != SHOWCLEAN_REPORT_SHORT)
        return refused(answer);
    report = (uint8_t *)malloc(needed);
    if (!report)
        return failed("find memory for", "the report");
    answer = cleaned(length, report, needed);
    if (out)
        status = write_output(out, showclean_output_length(answer));
    if (status == DONE && (fwrite(report, 1, needed, stdout) != needed || fflush(stdout) != 0))
        status = failed("write to", "standard output");
    free(report);
    return status;
}

int main(int count, char **words)
{
    size_t length = 0;
    int status;
    if (count < 2 || count > 3 || words[1][0] == '-') {
        fprintf(stderr, "clean %s: removes from an image the sentences that no call can reach\n"
                        "usage: clean IN [OUT]    (the report goes to standard output, the cleaned image to OUT)\n",
                showclean_version());
        return WRONG_USE;
    }
    status = read_image(words[1], &length);
    return status == DONE ? clean(length, count == 3 ? words[2] : NULL) : status;
}
