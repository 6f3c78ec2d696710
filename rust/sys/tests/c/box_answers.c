/*
 * Every call of dimkhoros_box.h whose answer has to be looked at, once and on a line of its own. Each answer is looked at, or, where
 * WRONG is defined, thrown away. This file is C and C++.
 */
#define _POSIX_C_SOURCE 200809L
#include "dimkhoros_box.h"

#ifdef WRONG
#define LOOK(call, at) call
#else
#define LOOK(call, at) seen += (call) at
#endif

size_t look(int folder, int wire, const uint8_t *sheet, size_t length, uint8_t *bytes, uint32_t *eight);

size_t look(int folder, int wire, const uint8_t *sheet, size_t length, uint8_t *bytes, uint32_t *eight) {
    size_t seen = 0;
    DimkhorosBoxLine line;

    LOOK(dimkhoros_box_find(folder, DIMKHOROS_BOX_SESSION, bytes, length), >= 0);
    LOOK(dimkhoros_box_store(folder, bytes, length), != 0);
    LOOK(dimkhoros_box_store_in(&folder, bytes, length), != 0);
    LOOK(dimkhoros_box_below(11), );
    LOOK(dimkhoros_box_nonce(sheet, length, eight), );
    LOOK(dimkhoros_box_hear(wire, &line), != 0);
    LOOK(dimkhoros_box_is(&line, "ready", 0), != 0);
    LOOK(dimkhoros_box_send(wire, "ready", NULL, 0, NULL, 0), != 0);

    /* The calls whose answer need not be looked at. */
    dimkhoros_box_take_apart(&line);
    return seen;
}
