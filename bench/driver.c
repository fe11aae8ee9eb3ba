/* Runs a judge that is linked in. JUDGE is the name of its function, set when this is compiled.
 *
 *     driver --pack          reads jobs from standard input, each behind its length in four bytes,
 *                            the lowest first, and writes their reports in that form
 *     driver --time N FILE   judges the file N times, each time with a cleared buffer, and prints
 *                            the least and the middle time in nanoseconds
 *
 * With --pack the buffer is filled with other bytes before each call, and the bytes behind the
 * report must all be 0 after it; a buffer of 2,399 bytes must stay as it is, with the answer 0.
 */
#include <stdint.h>
#include <stdio.h>
#include <stdlib.h>
#include <string.h>
#include <time.h>

enum { LEAST_BUFFER = 2400, LARGEST_BUFFER = 2600 };

size_t JUDGE(const uint8_t *file, size_t file_length, uint8_t *report, size_t report_length);

static uint8_t *read_all(FILE *in, size_t *length)
{
    size_t room = 1 << 20, count = 0, got;
    uint8_t *bytes = malloc(room);
    while (bytes && (got = fread(bytes + count, 1, room - count, in)) > 0) {
        count += got;
        if (count == room)
            bytes = realloc(bytes, room *= 2);
    }
    if (!bytes) {
        fputs("driver: no memory\n", stderr);
        exit(2);
    }
    *length = count;
    return bytes;
}

static int all_are(const uint8_t *bytes, size_t from, size_t to, uint8_t value)
{
    for (size_t k = from; k < to; k++)
        if (bytes[k] != value)
            return 0;
    return 1;
}

/* The report of a job that stands in a block of its own, so that reading past its end shows. */
static size_t checked_report(const uint8_t *job, size_t length, size_t number, uint8_t *report)
{
    size_t room = LEAST_BUFFER + number % (LARGEST_BUFFER - LEAST_BUFFER + 1);
    uint8_t *copy = malloc(length ? length : 1);
    if (!copy)
        exit(2);
    memcpy(copy, job, length);
    memset(report, 0xAA, LARGEST_BUFFER);
    if (JUDGE(copy, length, report, LEAST_BUFFER - 1) != 0 ||
        !all_are(report, 0, LARGEST_BUFFER, 0xAA)) {
        fprintf(stderr, "driver: job %zu: a small buffer is not left alone\n", number);
        exit(1);
    }
    size_t answer = JUDGE(copy, length, report, room);
    if (answer > room || memcmp(copy, job, length) != 0 || !all_are(report, answer, room, 0) ||
        !all_are(report, room, LARGEST_BUFFER, 0xAA)) {
        fprintf(stderr, "driver: job %zu: bytes behind the report, or the job's own\n", number);
        exit(1);
    }
    free(copy);
    return answer;
}

static int pack(void)
{
    size_t total, at = 0, number = 0;
    uint8_t *jobs = read_all(stdin, &total);
    uint8_t report[LARGEST_BUFFER];
    while (at + 4 <= total) {
        size_t length = jobs[at] | jobs[at + 1] << 8 | jobs[at + 2] << 16 | (size_t)jobs[at + 3] << 24;
        at += 4;
        if (length > total - at)
            return 2;
        size_t answer = checked_report(jobs + at, length, number++, report);
        uint8_t prefix[4] = {answer & 255, answer >> 8 & 255, 0, 0};
        fwrite(prefix, 1, 4, stdout);
        fwrite(report, 1, answer, stdout);
        at += length;
    }
    free(jobs);
    return fflush(stdout) ? 2 : 0;
}

static int ascending(const void *left, const void *right)
{
    int64_t a = *(const int64_t *)left, b = *(const int64_t *)right;
    return (a > b) - (a < b);
}

static int times(size_t count, const char *path)
{
    FILE *in = fopen(path, "rb");
    int64_t *taken = calloc(count, sizeof *taken);
    if (!in || !taken || !count)
        return 2;
    size_t length;
    uint8_t *file = read_all(in, &length);
    static uint8_t report[LEAST_BUFFER];
    for (size_t k = 0; k < count; k++) {
        struct timespec start, end;
        memset(report, 0, sizeof report);
        clock_gettime(CLOCK_MONOTONIC, &start);
        JUDGE(file, length, report, sizeof report);
        clock_gettime(CLOCK_MONOTONIC, &end);
        taken[k] = (end.tv_sec - start.tv_sec) * INT64_C(1000000000) + (end.tv_nsec - start.tv_nsec);
    }
    qsort(taken, count, sizeof *taken, ascending);
    printf("%lld %lld\n", (long long)taken[0], (long long)taken[count / 2]);
    free(file);
    free(taken);
    fclose(in);
    return 0;
}

int main(int argc, char **argv)
{
    if (argc == 2 && strcmp(argv[1], "--pack") == 0)
        return pack();
    if (argc == 4 && strcmp(argv[1], "--time") == 0)
        return times(strtoul(argv[2], NULL, 10), argv[3]);
    fputs("driver --pack | --time N FILE\n", stderr);
    return 2;
}
