/* How a run went; the program's status is the worst of all. */
#ifndef STATUS_H
#define STATUS_H

enum status { ACCEPTED = 0, REFUSED = 1, FAILED = 2 };

#endif
