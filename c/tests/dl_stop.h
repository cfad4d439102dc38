/* A walk that keeps why it stopped, for tests of dwcheck_dl_prepare. */
#ifndef DL_STOP_H
#define DL_STOP_H

#include "dl.h"

static uint32_t stop;

static void walk(void) {
    void *addresses[FRAMES];
    dwcheck_dl_request request = {.context = NULL};
    dwcheck_dl_walk(&request, addresses, FRAMES);
    stop = request.stop;
    walks++;
}

#endif
