/* Why a file cannot be read or written, in the system's words. */
#ifndef REASON_H
#define REASON_H

/* Of an errno. */
const char *reason(int error);

#endif
