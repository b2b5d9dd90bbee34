/* Reads a phone model. */
#include "twin.h"

enum { STATES = 16, CODE_STEP, SILENT_STEP };

/* Reads the step at a place and says how long its record is; or a refusal, with the length 0. */
static size_t read_step(const uint8_t *bytes, size_t len, size_t at, struct model *m, uint8_t *refused, size_t *place)
{
    uint8_t kind = bytes[at];
    size_t size = kind == CODE_STEP ? 4 : 3;
    if (kind != CODE_STEP && kind != SILENT_STEP) {
        *refused = refuse_at(place, 12, at);
    } else if (m->nsteps == MOST_STEPS) {
        *refused = refuse_at(place, 14, at);
    } else if (len - at < size) {
        *refused = refuse_at(place, 11, len);
    } else {
        uint16_t label = kind == CODE_STEP ? bytes[at + 2] : SILENT;
        struct step step = {label, bytes[at + 1], bytes[at + size - 1]};
        if (step.from < m->states && step.to < m->states) {
            m->steps[m->nsteps++] = step;
            return size;
        }
        *refused = refuse_at(place, 13, at);
    }
    return 0;
}

uint8_t twin_read_model(const uint8_t *bytes, size_t len, struct model *m, size_t *place)
{
    if (len == 0)
        return refuse_at(place, 11, len);
    if (bytes[0] != STATES)
        return refuse_at(place, 12, 0);
    if (len == 1)
        return refuse_at(place, 11, len);
    if (bytes[1] == 0 || bytes[1] > MOST_STATES)
        return refuse_at(place, 12, 0);
    m->states = bytes[1];
    m->nsteps = 0;
    for (size_t at = 2; at < len;) {
        uint8_t refused = 0;
        at += read_step(bytes, len, at, m, &refused, place);
        if (refused)
            return refused;
    }
    return 0;
}
