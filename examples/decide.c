/* Decides a list of three lines and explains the answer: the program to begin with. With
 * an argument the last line asks for more than the others allow. */
#include "utvpi.h"

#include <inttypes.h>
#include <stdio.h>
#include <stdlib.h>

enum { CAUSE, BRAKE, N };

int main(int argc, char **argv)
{
    const int32_t list[] = {
        1, CAUSE, -1, BRAKE, -1, 0x18DA10F1,   /* cause - brake <= -1: the brake is later */
        -1, CAUSE, 0, 0, -40, 0,               /* -cause <= -40: the cause is at 40 or later */
        1, BRAKE, 0, 0, argc > 1 ? 40 : 45, 0, /* brake <= 45, or brake <= 40 */
    };
    int32_t model[UTVPI_MODEL_ROOM(N)];
    int64_t bounds[UTVPI_BOUNDS_ROOM(N)], *work = malloc(UTVPI_WORK_BYTES(N)); /* in bytes */
    uint32_t groups[UTVPI_GROUPS_ROOM(N)], refutation[UTVPI_REFUTATION_ROOM(N)];
    uint32_t identifiers[UTVPI_IDENTIFIERS_ROOM(N)];
    int64_t result = utvpi_decide(N, list, sizeof list / sizeof list[0],
                                  model, UTVPI_MODEL_ROOM(N), bounds, UTVPI_BOUNDS_ROOM(N),
                                  groups, UTVPI_GROUPS_ROOM(N),
                                  refutation, UTVPI_REFUTATION_ROOM(N), identifiers,
                                  UTVPI_IDENTIFIERS_ROOM(N), work, work ? UTVPI_WORK_ROOM(N) : 0);
    free(work);
    if (UTVPI_IS_REFUSAL(result)) {
        printf("%s: refused: %s\n", argv[0], utvpi_refusal_text(UTVPI_REFUSAL_NUMBER(result)));
    } else if (UTVPI_IS_YES(result)) {
        printf("Yes: the cause at %" PRId32 " and the brake at %" PRId32 ", which can be from %"
               PRId64 " to %" PRId64 ".\n",
               model[CAUSE], model[BRAKE], bounds[2 * BRAKE], bounds[2 * BRAKE + 1]);
    }
    for (uint32_t at = 0; UTVPI_IS_NO(result) && at < refutation[1] + refutation[2]; at++) {
        printf("No: line %" PRIu32 ", of message 0x%08" PRIX32 ", is part of the clash.\n",
               refutation[3 + at] / 2, identifiers[at]);
    }
    return UTVPI_IS_YES(result) ? 0 : 1;
}
