/* The calls that are measured, for each function all of them. */
#ifndef CASES_H
#define CASES_H

void measure_checks(void);
void measure_looks(void);
void measure_replacements(void);
void measure_writes(void);
void measure_reads(void);

#endif
