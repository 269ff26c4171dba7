/* What a person at a terminal sees: how far a long run is, on a line of standard error that is written over and over, and what is said. */
#ifndef PROGRESS_H
#define PROGRESS_H

#include <stdbool.h>
#include <stdio.h>

/* Whether a run over so many files shows how far it is. */
bool shows_progress(bool quiet, int count);

/* "12 of 300", over what it said before. */
void show_progress(int done, int count);

/* Takes that line away; to be called before anything else is written that may go to the same terminal. */
void wipe_progress(void);

/* Standard error for words, below no line of progress. */
FILE *people(void);

#endif
