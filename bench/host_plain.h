/* The host of document 01, with Notes 1, 2, 4, 6 and 7 of document 02, in plain C, to compare and to time the proved one against: answers and
 * parameters are those of vmc_host_* in include/vmc.h, with `lookup` before them in every call but start. */
#ifndef HOST_PLAIN_H
#define HOST_PLAIN_H

#include "vmc.h"

/* The image's form, with where the figures of its header, of a record, of an entry and of a request stand. The header's last figure is zero in a sound
 * image. */
enum { FORM = 5, MAX_COUNTERS = 64, LOG_LEN = 57344 };
enum { CLOCK = 4, COUNTERS = 8, RECORDS_OFFSET = 12, ENTRIES = 16, LOG_OFFSET = 20, ZERO_FIGURE = 24, HEADER_LEN = 28 };
enum { RECORD_VALUE = 4, RECORD_READING = 8, RECORD_CURRENT = 12, RECORD_PROOFS = 16, RECORD_LEN = 20 };
enum { ENTRY_COUNT = 4, ENTRY_NONCE = 8, HEAD_LEN = 28 };
enum { REQUEST_ID = 20, REQUEST_BEFORE = 24, REQUEST_LEN = 28 };
/* What follows from these lengths. */
enum { RECORDS = HEADER_LEN, LOG = RECORDS + RECORD_LEN * MAX_COUNTERS, IMAGE_LEN = LOG + LOG_LEN };

_Static_assert(LOG == 1308, "Note 6 gives the log's offset");
_Static_assert(IMAGE_LEN == VMC_IMAGE_LEN && REQUEST_LEN == VMC_REQUEST_LEN, "vmc.h gives the lengths of image and request");
_Static_assert(COUNTERS == VMC_IMAGE_COUNTERS && RECORDS == VMC_IMAGE_RECORDS && RECORD_LEN == VMC_RECORD_LEN, "vmc.h gives the records' places");
_Static_assert(RECORD_CURRENT == VMC_RECORD_CURRENT && RECORD_PROOFS == VMC_RECORD_PROOFS, "vmc.h gives two places in a record");

/* How the check of an image's soundness finds a request's counter among the records. */
enum plain_lookup {
    /* record after record */
    PLAIN_SEARCH,
    /* by a table of hints, filled from the records, and record after record where the hint is wrong */
    PLAIN_TABLE
};

vmc_host_figures plain_host_start(uint8_t *image, size_t image_len, uint32_t clock);

vmc_host_figures plain_host_open(enum plain_lookup lookup, uint8_t *image, size_t image_len, uint32_t id, uint32_t value, uint32_t reading,
                                 uint32_t verdict);

vmc_host_figures plain_host_tick(enum plain_lookup lookup, uint8_t *image, size_t image_len, const uint8_t *nonce, size_t nonce_len);

vmc_host_batch_figures plain_host_increment(enum plain_lookup lookup, uint8_t *image, size_t image_len, const uint8_t *requests,
                                            size_t requests_len, const uint8_t *verdicts, size_t verdicts_len);

vmc_host_read_figures plain_host_read(enum plain_lookup lookup, const uint8_t *image, size_t image_len, uint32_t id);

vmc_host_figures plain_host_prove(enum plain_lookup lookup, uint8_t *image, size_t image_len, const uint8_t *nonce, size_t nonce_len,
                                  uint32_t id, uint8_t *out, size_t out_len);

vmc_host_figures plain_host_last(enum plain_lookup lookup, uint8_t *image, size_t image_len, uint32_t id, uint32_t t, uint8_t *out,
                                 size_t out_len);

vmc_host_figures plain_host_confirm(enum plain_lookup lookup, uint8_t *image, size_t image_len, uint32_t id, uint32_t value,
                                    uint32_t reading, uint32_t verdict);

vmc_host_figures plain_host_close(enum plain_lookup lookup, uint8_t *image, size_t image_len, uint32_t id, uint32_t value, uint32_t reading,
                                  uint32_t verdict);

#endif
