/* Frames read by the Hridvanolt library, for C (docs/RULES.md, "Reading from C").
 *
 * The archive is crates/plain_c/out/libplain_c.a, for x86-64, which `bash tools/build plain_c` proves and makes. Both functions take any channel
 * number and any bytes, end, and keep nothing between calls. They read no byte behind `size`, write nothing through `bytes`, and may be
 * called by any thread. Where `size` is 0, nothing is read through `bytes`, which may then be NULL. The caller sees to it that otherwise
 * `bytes` points to `size` bytes, which nobody writes during the call. */
#ifndef HRIDVANOLT_H
#define HRIDVANOLT_H

#include <stdbool.h>
#include <stddef.h>
#include <stdint.h>

#ifdef __cplusplus
extern "C" {
#endif

/* What is told of bytes. */
struct hridvanolt_reading {
    uint8_t number;      /* 0: they are a frame on the channel. 1 to 8: why they are none (docs/RULES.md, "Refusal numbers"). */
    bool reserved;       /* the nine fields of the header, in the order in which they are sent; all 0 with a refusal */
    bool preamble;
    bool null_frame_bit; /* as it is sent: clear in a null frame */
    bool sync;
    bool startup;
    uint16_t id;         /* 1 to 2047 */
    uint8_t words;       /* 0 to 127: the payload has twice as many bytes */
    uint16_t checksum;   /* the header checksum */
    uint8_t cycle;       /* 0 to 63 */
    uint32_t found;      /* with 4 and 8 the checksum found in the bytes, else 0 */
    uint32_t expected;   /* with 4 and 8 the checksum worked out, else 0 */
};

/* A checksum. */
struct hridvanolt_checksum {
    uint8_t number; /* 0, or 1: the channel is not 0 (A) or 1 (B) */
    uint32_t value; /* the checksum, below 2 to the power of 24; 0 with a refusal */
};

/* Reads `size` bytes as a frame on a channel, which is 0 (A) or 1 (B). Of an accepted frame the payload is `bytes + 5` on, `size - 8` bytes. */
struct hridvanolt_reading hridvanolt_read(uint8_t channel, const uint8_t *bytes, size_t size);

/* Works out the frame checksum of `size` bytes, of any number of them, on a channel. In a frame it is that of all but the last three. */
struct hridvanolt_checksum hridvanolt_frame_checksum(uint8_t channel, const uint8_t *bytes, size_t size);

#ifdef __cplusplus
}
#endif

#endif
