/* Hands a job file from standard input to the judge, and prints the report. */
#include <stdio.h>

#include "sumacfaro.h"

/* One byte more than a file may have is enough for the judge to refuse it. */
static uint8_t file[65536];
static uint8_t report[SUMACFARO_LEAST_REPORT];

int main(void)
{
    size_t file_len = fread(file, 1, sizeof file, stdin);
    size_t len = judge(file, file_len, report, sizeof report);

    fwrite(report, 1, len, stdout);
    return len == 0;
}
