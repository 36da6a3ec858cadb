/* SHA-1 (FIPS 180-4) in plain C, for the plain desk and host and to compare and time the proved one against: the parameters and the answer are those
 * of vmc_sha1 (include/vmc.h). */
#ifndef SHA1_PLAIN_H
#define SHA1_PLAIN_H

#include "vmc.h"

vmc_digest plain_sha1(const uint8_t *message, size_t message_len);

#endif
