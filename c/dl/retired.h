/* What readers may still use after it has been replaced. */
#ifndef DWCHECK_DL_RETIRED_H
#define DWCHECK_DL_RETIRED_H

#include "caches.h"

/* The beginning of a value that malloc gave and that readers reach by a pointer, which walks load after they have
   claimed a cache. */
struct dwcheck_dl_retired {
    struct dwcheck_dl_retired *next;
    struct dwcheck_dl_moment moment;
};

/* Frees a value once no reader can have it: after the walks that are under way now. It must have been replaced already.
   The list has those that can't be freed yet, and whoever calls has its lock. */
DWCHECK_DL_HIDDEN void dwcheck_dl_retire(struct dwcheck_dl_retired **list, struct dwcheck_dl_retired *old);

#endif
