/* The desk of document 01, with Notes 1, 5 and 7 of document 02, in plain C, to compare and to time the proved one against: the parameters and
 * the answer are those of vmc_desk_verify (include/vmc.h). */
#ifndef DESK_PLAIN_H
#define DESK_PLAIN_H

#include "vmc.h"

/* Check after check, each a loop of its own, as document 01 sets them out. */
vmc_desk_figures plain_desk_verify(const uint8_t *proof, size_t proof_len, const uint8_t *verdicts, size_t verdicts_len, uint32_t id,
                                   const uint8_t *nonce, size_t nonce_len);

/* The same, with checks 9, 30, 31, 11 and 13 in one loop over the entries. */
vmc_desk_figures plain_desk_verify_once(const uint8_t *proof, size_t proof_len, const uint8_t *verdicts, size_t verdicts_len,
                                        uint32_t id, const uint8_t *nonce, size_t nonce_len);

#endif
