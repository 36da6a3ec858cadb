/*
 * A sentence for each number of vmc.h, for whoever reads it at a dock or in a driver's log. Where a number is given for one of several reasons the
 * sentence names them all; the calls' answers in vmc.h say which it can be. Plain C, and C++, with nothing to link.
 */
#ifndef VMC_TEXT_H
#define VMC_TEXT_H

#include "vmc.h"

static inline const char *vmc_refusal_text(uint32_t number)
{
    switch (number) {
    case VMC_REFUSAL_NONE:
        return "done";

    /* the desk */
    case VMC_REFUSAL_BAD_WANTED:
        return "the request names no box, or its nonce is not 20 bytes long";
    case VMC_REFUSAL_TOO_SHORT:
        return "the proof is too short to have a header";
    case VMC_REFUSAL_UNKNOWN_FORM:
        return "the proof is of an unknown form or kind";
    case VMC_REFUSAL_BAD_COUNT:
        return "the proof has too many openings, or none to close on";
    case VMC_REFUSAL_BAD_LAYOUT:
        return "the proof's length or an offset is wrong: it was cut short or altered";
    case VMC_REFUSAL_BAD_VERDICTS:
        return "the list of signature checks does not fit the proof";
    case VMC_REFUSAL_BAD_CONFIRMATION:
        return "the confirmation is for another box, or states a value above its reading";
    case VMC_REFUSAL_UNCONFIRMED:
        return "the owner did not sign the confirmation";
    case VMC_REFUSAL_DENIED:
        return "the module did not certify a reading";
    case VMC_REFUSAL_CLOSES_ELSEWHERE:
        return "the proof was not made for this request, or closes on one that the owner did not sign";
    case VMC_REFUSAL_WRONG_READING:
        return "the clock readings have a gap";
    case VMC_REFUSAL_BROKEN_CHAIN:
        return "the openings of this box do not follow on one another";
    case VMC_REFUSAL_FORGED:
        return "a request is not one that the module was given";
    case VMC_REFUSAL_REPEATED:
        return "a box stands twice under one reading";

    /* the host */
    case VMC_REFUSAL_UNSOUND:
        return "the image is not sound, or has another length";
    case VMC_REFUSAL_UNSIGNED:
        return "the owner did not sign it";
    case VMC_REFUSAL_MALFORMED:
        return "no box, a nonce that is not 20 bytes long, a value above its reading, or no batch";
    case VMC_REFUSAL_NOT_HELD:
        return "the box is not held";
    case VMC_REFUSAL_ALREADY_HELD:
        return "the box is held already";
    case VMC_REFUSAL_TABLE_FULL:
        return "no more boxes can be held";
    case VMC_REFUSAL_TOO_EARLY:
        return "the reading is before the log, or before the one confirmed last";
    case VMC_REFUSAL_MISSTATED:
        return "the value is not the box's at that reading, or the reading is past the clock or to be the clock's";
    case VMC_REFUSAL_STALE:
        return "not the current value";
    case VMC_REFUSAL_NO_ENTRY:
        return "no opening of the box at that reading";
    case VMC_REFUSAL_LOG_FULL:
        return "the log is full";
    case VMC_REFUSAL_CLOCK_ENDED:
        return "the clock is at its end";
    case VMC_REFUSAL_NO_ROOM:
        return "the output is too short for the proof";
    case VMC_REFUSAL_NAMED_LATER:
        return "the log has a later opening of the box";
    case VMC_REFUSAL_RAISED_ALREADY:
        return "the batch raises the box already";

    /* the program over lines alone */
    case VMC_REFUSAL_UNKNOWN_LINE:
        return "no such line";

    default:
        return "unknown number";
    }
}

#endif
