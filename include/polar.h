/* Polar frames for groomer modules: the interface for C and C++. Link libpolar.a, which is for x86-64 Linux, for processors that
 * have what x86-64-v2 has, and needs memcpy and memset and nothing else.
 *
 * Each function takes buffers as a pointer and a length in bytes, and keeps no pointer. It only reads its inputs, which may overlap each
 * other; input and output must not overlap, and nothing else may write any of them during the call. The state of a hearing is an input
 * where it is const, and an output elsewhere. A pointer may be NULL where its length is 0. There is no global state and no allocation: all
 * functions are reentrant and may be called from several threads at once. A call takes at most 8 KiB of stack for encode, 48 KiB for
 * resume, 70 KiB for the decoders, 90 KiB for those by sets, 70 KiB for hearings, and 74 KiB for preview, whatever the code.
 *
 * Each answer is one number: bits 0-7 hold the refusal, or 0 for acceptance; bits 8-31 the trial, refusal 16's number of trials, the count
 * of a hearing, or a refusal's first index; bits 32-63 the steps. What an answer lacks is 0. A refusal writes nothing. Where several
 * refusals apply, the answer is the first in the order in which they stand here.
 *
 * A description is a record of kind 1 or of kind 4. Kind 1: length (2 bytes), kind (2 bytes), n, r, polynomial (2 bytes), mask (N/8
 * bytes). Kind 4 has a start value of the check (2 bytes) between polynomial and mask; kind 1 means start 0. N = 2^n is at most 4,096;
 * fields of 2 bytes are little-endian, and the length counts the whole record, at most 522 bytes. Bit i of the polynomial is the
 * coefficient of z^i, and z^r is understood. Bit b of byte m of the mask, b = 0 being the least bit, stands for index 8m + b: 1 for an
 * information index, 0 for a frozen one. K is the number of ones in the mask, and k = K - r the number of payload bits. The check is the
 * remainder of start * z^k + payload * z^r on division by the polynomial. Refusals of the description come first, in this order:
 *   1  fewer than 8 bytes, or fewer than 10 where bytes 2 and 3 say kind 4
 *   2  length field unequal to the bytes lent
 *   3  kind neither 1 nor 4
 *   4  n outside 3..12
 *   5  length not 8 + N/8, or of kind 4 not 10 + N/8
 *   6  r outside 1..16
 *   7  polynomial bit 0 clear, or a bit at r or above set
 *   25 a start bit at r or above set
 *   8  K less than r + 1
 *
 * Silence: with start 0, N zero values are accepted on trial 1 as a payload of zeros, so a receiver with a broken lead looks like a cab
 * that sends zeros. With a nonzero start they fail trial 1 under every code. A later trial may still accept them: whether and when is up
 * to the code and the start value. To know it, decode N zeros once with the decoder that is to be used and the largest trial_limit, K + 1,
 * or 512 with most_flips above 1: the trial that accepts them is the least limit at which silence is accepted, and refusal 16 says that
 * none does. Choose a start, and a trial_limit below that trial.
 */
#ifndef POLAR_H
#define POLAR_H

#include <stddef.h>
#include <stdint.h>

/* Buffers of so many bytes suffice for every code; a call gets the exact length for its code. */
#define POLAR_LONGEST_CODE 4096       /* N channel values, or the N bits that resume writes */
#define POLAR_LONGEST_DESCRIPTION 522 /* 10 + N/8 */
#define POLAR_LONGEST_CODEWORD 512    /* N/8 */
#define POLAR_LONGEST_PAYLOAD 512     /* ceil(k/8), where k is at most N - 1 */

/* The bytes of a hearing's state, for every code. */
#define POLAR_HEARING_SIZE 4619

/* The parts of an answer: the refusal, or 0; the trial, the number of trials, the count or the index; the steps. */
#define POLAR_REFUSAL(answer) ((unsigned)((answer) & 0xff))
#define POLAR_VALUE(answer) ((uint32_t)((answer) >> 8 & 0xffffff))
#define POLAR_STEPS(answer) ((uint32_t)((answer) >> 32))

#ifdef __cplusplus
extern "C" {
#endif

/* Encodes a payload of k bits, packed highest bit first in ceil(k/8) bytes, unused low bits of the last byte zero, into the codeword of N
 * bits, packed highest bit first in N/8 bytes. Acceptance is the number 0. Refusals of the description, then
 *   9 payload not ceil(k/8) bytes; 10 an unused payload bit set; 11 output not N/8 bytes. */
uint64_t polar_encode(const uint8_t *description, size_t description_len,
                      const uint8_t *payload, size_t payload_len,
                      uint8_t *codeword, size_t codeword_len);

/* Decodes one pass whose first bits are forced to the prefix, one bit per byte, at most N, and writes all N bits, one per byte. Channel
 * values are N bytes in two's complement, -31..31, in quarter units; positive favours bit 0. Acceptance carries the steps, one for each
 * value computed. An empty prefix gives a plain pass of n * N steps. Refusals of the description, then
 *   12 channel length not N; 13 a value outside -31..31, with its first index; 17 prefix longer than N; 18 a prefix byte other than
 *   0 or 1, or a 1 at a frozen index, with its first index; 19 output not N bytes. */
uint64_t polar_resume(const uint8_t *description, size_t description_len,
                      const uint8_t *channel, size_t channel_len,
                      const uint8_t *prefix, size_t prefix_len,
                      uint8_t *bits, size_t bits_len);

/* Decode channel values, N bytes as above, into the payload, packed as above in ceil(k/8) bytes. Trial 1 is a plain pass. Each later trial
 * takes the opposite decision at one information index: that of the smallest magnitude of trial 1's leaf value first, of equal magnitudes
 * the lower index. The first trial whose check passes ends the run. trial_limit counts trial 1. The full decoder repeats each trial from
 * the root. The half one resumes a later trial at N/2 where the flipped index is N/2 or above, and otherwise at 0; the restarted one after
 * the flipped index. All three give the same payload and trial, or the same refusal. The restarted one makes fewer steps than the others
 * where more than one trial is made, and the half one at most as many as the full one. Acceptance carries the trial and the steps of all
 * trials made. Refusals of the description, 12, 13, then
 *   14 trial_limit outside 1..K + 1; 15 output not ceil(k/8) bytes; 16 all trials fail, with trial_limit and the steps made. */
uint64_t polar_decode_full(const uint8_t *description, size_t description_len,
                           const uint8_t *channel, size_t channel_len,
                           uint32_t trial_limit,
                           uint8_t *payload, size_t payload_len);
uint64_t polar_decode_half(const uint8_t *description, size_t description_len,
                           const uint8_t *channel, size_t channel_len,
                           uint32_t trial_limit,
                           uint8_t *payload, size_t payload_len);
uint64_t polar_decode_restarted(const uint8_t *description, size_t description_len,
                                const uint8_t *channel, size_t channel_len,
                                uint32_t trial_limit,
                                uint8_t *payload, size_t payload_len);

/* Decode as above, with up to most_flips opposite decisions in a trial, 1 to 3: for frames that one flip cannot recover. A later trial
 * takes the opposite of its own usual decision at each index of a set. A failed trial 1 makes a set of each information index; a failed
 * trial whose set has fewer than most_flips indices makes one more set of each information index above its largest, appended. A set's
 * metric is the sum of the leaf magnitudes at its indices, and 6 for each information index up to and including its largest whose leaf
 * magnitude is at most 20, in the trial that made it. The untried set with the least metric is next, of equal metrics the one whose list of
 * indices comes first, compared from the first index. A later trial resumes by the lowest index of its set as above by the flipped one: in
 * the half decoder at N/2 where it is N/2 or above, and otherwise at 0; in the restarted one after it. All three give the same payload and
 * trial, or the same refusal, with steps as above. The order of single flips is not that of the decoders above, also with most_flips 1.
 * Refusals of the description, 12, 13, then
 *   26 most_flips outside 1..3; 14 trial_limit outside 1..K + 1 where most_flips is 1, and outside 1..512 where it is more;
 *   15 output not ceil(k/8) bytes; 16 all trials fail, with their number, which is below trial_limit where no set is left,
 *   and the steps made. */
uint64_t polar_decode_sets_full(const uint8_t *description, size_t description_len,
                                const uint8_t *channel, size_t channel_len,
                                uint32_t most_flips, uint32_t trial_limit,
                                uint8_t *payload, size_t payload_len);
uint64_t polar_decode_sets_half(const uint8_t *description, size_t description_len,
                                const uint8_t *channel, size_t channel_len,
                                uint32_t most_flips, uint32_t trial_limit,
                                uint8_t *payload, size_t payload_len);
uint64_t polar_decode_sets_restarted(const uint8_t *description, size_t description_len,
                                     const uint8_t *channel, size_t channel_len,
                                     uint32_t most_flips, uint32_t trial_limit,
                                     uint8_t *payload, size_t payload_len);

/* A hearing adds up what was heard of a frame that is sent more than once, so that repeats which fail one by one may decode together. Its
 * state is a buffer of exactly POLAR_HEARING_SIZE bytes that the caller lends to each call: the description of a code, N combined values
 * and the count of vectors in them. Its bytes are this library's own; they may be moved and stored, and are good for this version of the
 * library. While open, add or clear runs on a state, no other call may use it. Refusal 40 comes before all others:
 *   40 state not POLAR_HEARING_SIZE bytes, or, but for open, one that no list of calls leaves.
 * It is no checksum: a state with a changed value or count may be one that other calls leave.
 *
 * open makes a state for a code, whatever the buffer holds: zero values and count 0. Acceptance is the number 0. Refusals: 40, then those
 * of the description.
 *
 * add adds a vector of N channel values as above, value by value, and clips each sum to -31..31, so that the order of adds matters.
 * Acceptance carries the count of vectors added since open or the last clear, this one included. Refusals: 40, 12, 13, then
 *   27 the count is 255.
 *
 * clear returns to zero values and count 0. Acceptance is the number 0. Refusal: 40.
 *
 * decode_full and decode_restarted decode the combined values as polar_decode_full and polar_decode_restarted do, and only read the state:
 * further vectors may be added after them. With count 0 they decode N zero values, which are silence, as above. Refusals: 40, 14, 15, 16.
 *
 * preview tries a vector before it is kept: its answer and payload are those of add and then decode_restarted on a copy of the state. The
 * state itself is only read, and holds afterwards what it held before. A refusal of the add is the answer, and nothing is decoded.
 * Refusals: 40, 12, 13, 27, 14, 15, 16.
 */
uint64_t polar_hearing_open(const uint8_t *description, size_t description_len,
                            uint8_t *state, size_t state_len);
uint64_t polar_hearing_add(uint8_t *state, size_t state_len,
                           const uint8_t *channel, size_t channel_len);
uint64_t polar_hearing_clear(uint8_t *state, size_t state_len);
uint64_t polar_hearing_decode_full(const uint8_t *state, size_t state_len,
                                   uint32_t trial_limit,
                                   uint8_t *payload, size_t payload_len);
uint64_t polar_hearing_decode_restarted(const uint8_t *state, size_t state_len,
                                        uint32_t trial_limit,
                                        uint8_t *payload, size_t payload_len);
uint64_t polar_hearing_preview(const uint8_t *state, size_t state_len,
                               const uint8_t *channel, size_t channel_len,
                               uint32_t trial_limit,
                               uint8_t *payload, size_t payload_len);

#ifdef __cplusplus
}
#endif

#endif
