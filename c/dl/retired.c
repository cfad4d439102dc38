/* Frees what was replaced, once no walk can use it any more. */
#include "retired.h"

#include <stdlib.h>

void dwcheck_dl_retire(struct dwcheck_dl_retired **list, struct dwcheck_dl_retired *old) {
    if (old != NULL) {
        dwcheck_dl_now(&old->moment);
        old->next = *list;
        *list = old;
    }
    for (struct dwcheck_dl_retired **at = list; *at != NULL;) {
        struct dwcheck_dl_retired *one = *at;
        if (dwcheck_dl_is_past(&one->moment)) *at = one->next, free(one);
        else at = &one->next;
    }
}
