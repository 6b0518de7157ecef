/* The proved pipe sizing library: design flows, the meter, rating in one call or in two, and choosing of a branched house
 * network, for all its water or for its cold or its hot line; and the heat flow of a hot line.
 *
 * Build: `make target/staticlib/liborder.a` makes it; link it with the C library (it uses memcpy and memset).
 *
 * Every slice is a pointer and then its length in bytes. For every call:
 *   - pointers are not null, also those of empty slices (length 0); lengths are below 2^63;
 *   - out and work overlap neither each other nor anything that is read; slices that are only read (job, meters, cat, sizes,
 *     losses) may overlap or be the same bytes;
 *   - no pointer needs an alignment: all are read and written byte by byte;
 *   - nothing is kept after the call, no memory is allocated, and nothing is shared between calls: threads may call at once
 *     with out and work of their own, on the same job, meters, cat, sizes and losses as long as nobody writes those;
 *   - the stack takes about 60 KB for order_choose and under 27 KB for the others; a thread with 128 KB has enough.
 * Any bytes at all may be lent: each input gets its result or the number of its refusal.
 *
 * ABI: plain C calls of the platform that the archive is built for (System V on Linux, 64-bit little-endian hosts); size_t
 * and pointers have 8 bytes, the result is a 32-bit unsigned number. There are no structs, callbacks, signals or errno.
 *
 * The call gives back 0 for a result, or the number of the refusal:
 *    1  job under 40 bytes, or its length isn't the bytes lent
 *    2  version neither 1 nor 2
 *    3  k, S, T, meter loss, G, H or limit out of range, or in version 2 a service over 2
 *    4  length isn't 40 + 10 * S in version 1, or 41 + 10 * S in version 2
 *    5  a section breaks its own fields' rules
 *    6  a childless section has kind 0
 *    7  residents without fixtures, or the reverse
 *    8  house m or house hour sum over 400,000,000
 *    9  m over 100,000 * fixtures with at most 200 fixtures: house, any section, or house hour
 *   10  catalogue under 7 bytes, wrong length, version or counts
 *   11  a size or row breaks its rules
 *   12  size list isn't S long or names no size
 *   13  a section over its last row or the limit
 *   14  result buffer too short
 *   15  workspace too short
 *   16  no suitable list
 *   17  the list of meters breaks its rules
 *   18  no meter qualifies
 *   19  the losses aren't S long or one is over 4,259,775 cm
 *   20  heat asked for a job that isn't hot
 *   21  temperature over 30 or stated loss over 1,000,000
 * Of several faults the first in the order 1 to 9, then by the call 17, or 19, or 20 and 21, then 10, 11, 12, 14, 15, then 13, 16 or 18 is given back.
 *
 * A refusal leaves every byte of out as it was. A result is written from the start of out and leaves the bytes after it
 * as they were, so a longer buffer is fine. Numbers are big-endian. S is the section count, byte 6 of the job; H is the
 * delivered head, bytes 12 and 13 of the job.
 *
 * A job record has version 1 or 2 (byte 4). In version 1 its S sections of 10 bytes begin at byte 40. In version 2 byte 40 is
 * the service: 0 total, 1 cold, 2 hot; the sections begin at byte 41, and the record is one byte longer. Version 1 means
 * total, as version 2 with service 0 does. The service says which norms the flows are worked out with; all else is the same.
 */

#ifndef ORDER_H
#define ORDER_H

#include <stddef.h>
#include <stdint.h>

#ifdef __cplusplus
extern "C" {
#endif

/* Rises when a call that is here takes or gives something else, or goes; a call or a refusal that is added leaves it as it is.
 * A number that a program does not know is a refusal of a newer library. 2: design flows are never less than one tap.
 * 3: every call takes job records of version 2, which were refused with 2; order_copy and order_meter write them.
 * 4: a flow under the first row of a size takes the straight line from zero, in order_rate, order_losses and order_choose. */
#define ORDER_VERSION 4

/* The greatest sizes that any accepted job needs (S = 63, H = 6,000). */
#define ORDER_FLOW_BYTES 264u      /* 12 + 4 * 63 */
#define ORDER_DUTY_BYTES 4u
#define ORDER_METER_BYTES 672u     /* 1 + 41 + 10 * 63 */
#define ORDER_RATE_BYTES 387u      /* 9 + 6 * 63 */
#define ORDER_LOSSES_BYTES 630u    /* 10 * 63 */
#define ORDER_HEADS_BYTES 9u
#define ORDER_CHOOSE_BYTES 67u     /* 4 + 63 */
#define ORDER_HEAT_BYTES 8u
#define ORDER_COPY_BYTES 671u      /* 41 + 10 * 63 */
#define ORDER_WORK_BYTES 1792256u  /* 4 * 64 * 7,001 */

/* Design flows of a job.
 * job: a job record. out: at least 12 + 4 * S bytes.
 * Result: hour in l/h (4 bytes), day in litres (4), mean hour in l/h (4), then each section's flow in ml/s (4 each): what
 * document 01's formula gives for all fixtures at or below its end, or 10 * the largest Z of their kinds if that is more.
 * Refusals: 1 to 9, 14. */
uint32_t order_flow(const uint8_t *job, size_t job_length, uint8_t *out, size_t out_length);

/* The design flow of the whole house, which its pump set has to deliver.
 * job: a job record. out: at least 4 bytes.
 * Result: the house's design flow in ml/s (4 bytes): what the formula gives for all its fixtures, by the house's m, or 10 *
 * the largest Z of their kinds if that is more. It need not be any section's where several hang on the pump.
 * Refusals: 1 to 9, 14. */
uint32_t order_duty(const uint8_t *job, size_t job_length, uint8_t *out, size_t out_length);

/* The meter of least loss from a list.
 * job: a job record. meters: 1 to 8 meters of 5 bytes: type (1 byte: 1 vane, 2 turbine), resistance in ten-thousandths of
 * m per (l/s) squared (2), service flow in l/h (2), the last two at least 1. out: at least 1 byte more than the job.
 * A meter's loss in cm is resistance * q * q / 100,000,000, up, with q the house's design flow in ml/s as order_duty gives
 * it. A meter qualifies if its loss is at most 500 (vane) or 250 (turbine), and the mean hour that order_flow gives is at
 * most its service flow. Of those that qualify the one of least loss is given, of several the first. The meter loss that the
 * job has must be in its range, as in every job (else 3), and plays no part beyond that.
 * Result: the meter's place in the list, from 1 (1 byte), then the job record with that meter's loss in bytes 8 and 9 (of
 * the record: 9 and 10 of out) and every other byte as it was. The record is out + 1 with the length of the job, ready to be
 * lent: every call that takes a job accepts it.
 * Refusals: 1 to 9, 17, 14, 18, in this order. */
uint32_t order_meter(const uint8_t *job, size_t job_length, const uint8_t *meters, size_t meters_length,
                     uint8_t *out, size_t out_length);

/* Rating of a job with given sizes.
 * job: a job record. cat: a catalogue. sizes: S size numbers of 1 byte, from 1. out: at least 9 + 6 * S bytes.
 * Result: required head in cm (4 bytes, signed two's complement), pump head in cm (4), dictating section (1), then for
 * each section its velocity in mm/s (2) and its loss in cm (4). Velocity and slope are read at the section's flow by the
 * straight line between the rows of its size, each up; under the first row the line comes from zero.
 * Refusals: 1 to 14 (14 is tested before 13). */
uint32_t order_rate(const uint8_t *job, size_t job_length, const uint8_t *cat, size_t cat_length,
                    const uint8_t *sizes, size_t sizes_length, uint8_t *out, size_t out_length);

/* The first of rating's two calls: flow, velocity and loss of each section, without heads.
 * job: a job record. cat: a catalogue. sizes: S size numbers of 1 byte, from 1. out: at least 10 * S bytes.
 * Result: for each section its design flow in ml/s as order_flow gives it (4 bytes), its velocity in mm/s (2) and its loss in cm
 * (4), the last two as order_rate gives them. The losses to gather for order_heads are bytes 10 * (i - 1) + 6 to 10 * (i - 1) + 9
 * of out for section i, counted from 0; no table gives one over 4,259,775.
 * Refusals: 1 to 14 (14 is tested before 13). */
uint32_t order_losses(const uint8_t *job, size_t job_length, const uint8_t *cat, size_t cat_length,
                      const uint8_t *sizes, size_t sizes_length, uint8_t *out, size_t out_length);

/* The second: the heads with given losses.
 * job: a job record. losses: S losses in cm of 4 bytes each, section 1 first, each at most 4,259,775: those of order_losses, or any
 * others, measured ones too; 0 is taken. Each is the section's own, and not that of the way from the pump to it.
 * out: at least 9 bytes.
 * Result: required head in cm (4 bytes, signed two's complement), pump head in cm (4), dictating section (1), worked out from these
 * losses as order_rate works them out from its own.
 * With enough space in each of the three, order_losses and then order_heads with the losses of its result give the number that order_rate
 * gives, or its figures: the 9 bytes of order_heads are the first 9 of order_rate.
 * Refusals: 1 to 9, 19, 14, in this order. */
uint32_t order_heads(const uint8_t *job, size_t job_length, const uint8_t *losses, size_t losses_length,
                     uint8_t *out, size_t out_length);

/* The cheapest suitable sizes.
 * job: a job record. cat: a catalogue. work: at least 4 * (S + 1) * (H + 1,001) bytes with any content.
 * out: at least 4 + S bytes.
 * Result: cost in tenths of the price unit (4 bytes), then S size numbers of 1 byte, from 1. No suitable list costs
 * less; which of equally cheap lists is given is left free.
 * Refusals: 1 to 11, 14, 15, 16. All bytes of work, surplus bytes too, are free after 16 or a result, and as they were
 * after any other refusal. */
uint32_t order_choose(const uint8_t *job, size_t job_length, const uint8_t *cat, size_t cat_length,
                      uint8_t *work, size_t work_length, uint8_t *out, size_t out_length);

/* The heat flow of a hot line, formulas 10 and 11.
 * job: a job record of version 2 with service 2. t: temperature of the cold water in degrees Celsius, 0 to 30. loss: stated loss
 * in watts, 0 to 1,000,000. out: at least 8 bytes.
 * t and loss are unsigned: a negative number is out of range and gives 21, as -1 arrives as 4,294,967,295. A number of more than
 * 32 bits is cut to them by the caller's compiler before the library sees it.
 * Result: watts of the mean hour (4 bytes), then of the greatest hour (4), each 116 * q * (55 - t) / 100, up, plus the loss, with q
 * the mean hour or the hour in l/h as order_flow gives them for the job.
 * Refusals: 1 to 9, 20, 21, 14, in this order. */
uint32_t order_heat(const uint8_t *job, size_t job_length, uint32_t t, uint32_t loss, uint8_t *out, size_t out_length);

/* Reads a job record and writes it again, in its own version.
 * job: a job record. out: at least as many bytes as the job: 40 + 10 * S in version 1, 41 + 10 * S in version 2.
 * Result: the record's own bytes. Refusals: 1 to 7, 14 (8 and 9 are no matter of reading). */
uint32_t order_copy(const uint8_t *job, size_t job_length, uint8_t *out, size_t out_length);

#ifdef __cplusplus
}
#endif

#endif
