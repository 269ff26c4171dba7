/* The tests of the entries, one idea a file. */
#ifndef TESTS_H
#define TESTS_H

void test_example(void); /* document 01's example, to the byte */
void test_refused(void); /* each refusal of the reader */
void test_rooms(void);   /* outputs of every length */
void test_sizes(void);   /* the smallest and largest inputs */
void test_collect(void); /* collecting files from their units */
void test_dropped(void); /* each refusal of collecting */
void test_six(void);     /* the six lines: what the header says of them */
void test_value(void);   /* values by their labels, out of a written form */

#endif
