/* The judge of job files. */
#ifndef SUMACFARO_H
#define SUMACFARO_H

#include <stddef.h>
#include <stdint.h>

/* The least length of a report buffer. */
#define SUMACFARO_LEAST_REPORT 2400

/*
 * Writes the report on a job file into the buffer, then zeros to the buffer's end,
 * and answers the report's length. A buffer under SUMACFARO_LEAST_REPORT bytes is
 * not written, and the answer is 0. The file and the buffer must not overlap.
 */
size_t judge(const uint8_t *file, size_t file_len, uint8_t *report, size_t report_len);

/* The same, judged on the flat store in place of the row store. */
size_t judge_flat(const uint8_t *file, size_t file_len, uint8_t *report, size_t report_len);

#endif
