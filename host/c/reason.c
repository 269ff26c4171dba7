/* Why a file cannot be read or written. The C library has the system's words in Italian only where they are installed, so those that may
   be met here are its own, written out; any other is in English. */
#include "reason.h"

#include <errno.h>
#include <stddef.h>
#include <string.h>

#include "language.h"

static const char *in_italian(int error) {
    switch (error) {
    case ENOENT: return "File o directory non esistente";
    case EACCES: return "Permesso negato";
    case EPERM: return "Operazione non permessa";
    case EISDIR: return "È una directory";
    case ENOTDIR: return "Non è una directory";
    case EIO: return "Errore di input/output";
    case ENOSPC: return "Spazio esaurito sul device";
    case EROFS: return "File system in sola lettura";
    case ENAMETOOLONG: return "Nome del file troppo lungo";
    case ELOOP: return "Troppi livelli di collegamenti simbolici";
    default: return NULL;
    }
}

const char *reason(int error) {
    const char *italian = in_italian(error);
    return italian ? IN(strerror(error), italian) : strerror(error);
}
