/* What a call of gco.h tells, compared as a whole. */
#ifndef TOLD_H
#define TOLD_H

#include <string.h>
#include "gco.h"

static gco_outcome told;

/* whether the last call told this, and 0 in each field that is not named */
static int tells(gco_outcome due) {
    return told.data == due.data && told.smooth == due.smooth && told.label == due.label && told.place == due.place
        && told.vmin == due.vmin && told.vmax == due.vmax && told.cycles == due.cycles && told.settled == due.settled
        && told.changed == due.changed && told.alpha == due.alpha && told.beta == due.beta;
}

/* a call whose outcome was filled with ones before; and one that is refused and tells a place, and nothing else */
#define FRESH(call) (memset(&told, 0xff, sizeof told), (call))
#define REFUSED(call, status, at) WANT(FRESH(call) == (status) && tells((gco_outcome){.place = (at)}))

#endif
