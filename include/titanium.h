/*
 * Titanium 1.1: encryption scheme, key exchange and the calls below them, as proved functions.
 *
 * Link target/staticlib/libtitanium.a (`library/build` makes it; x86-64).
 *
 * Slices. A slice is a pointer and a length; lengths count elements, not bytes. A pointer must be valid for its length, aligned for its
 * element type, and not null where the length is not 0. No slice that a call writes may overlap another slice of the same call. Under these
 * conditions, which C cannot check, every call is proved to read and write nothing outside its slices and to end.
 *
 * Sets. 0 is Bench (the calls on numbers and the noise sheet only); 1 to 6 are Titanium-CPA Toy64, Lite96, Std128, Med160, Hi192, Super256, the
 * encryption scheme; 7 to 12 are Titanium-CCA in that order, the key exchange.
 *
 *   set                 1      2      3      4      5      6      7      8      9     10     11     12
 *   public key      11552  13088  14720  16448  17952  23552  12192  14720  16352  18272  20512  26912  bytes
 *   secret key         32     32     32     32     32     32  12224  14752  16384  18304  20544  26944  bytes
 *   ciphertext       2560   2976   3520   4512   6016   8320   2720   3008   3552   4544   6048   8352  bytes
 *   work            12022  14328  16375  16631  17913  22521  12022  15831  17910  18166  19960  25080  numbers of 32 bits
 *   work of the transformed middle product: 4 for set 0, else
 *                    1280   1536   1792   2048   2560   3328   1280   1536   1792   2048   2560   3328  numbers of 32 bits
 *   transform        512    768    768    768   1024   1280    512    768    768    768   1024   1280  numbers of 32 bits
 *     sizes         1024   1280   1536   1792   2304   3072   1024   1280   1536   1792   2304   3072
 *                   1280   1536   1792   2048   2560   3328   1280   1536   1792   2048   2560   3328
 *
 * Answers. 0 where the call is accepted; else the number of the refusal plus 256 times its place. A refused call leaves every output as it was.
 * Checks come in the order of the numbers given with each call. A work slice is all zero after a call that passed its checks of the set and the
 * lengths, else untouched.
 *
 *   1  no such set
 *   2  a slice has not the set's length; in the encryption scheme and the key exchange that of a seed, a message, a key or a shared key; in the
 *      partial transform and its inverse a slice has not d1 * d2 numbers
 *   3  a number out of range, with its place
 *   4  the lent bytes end
 *   5  128 candidates in a row were set aside (it is not expected to happen)
 *   6  a slice too long, empty, or of a length that does not fit
 *   7  longer than the set's largest transform
 *   8  a set of the other scheme
 *   9  the ciphertext has not the set's length (encryption scheme and key exchange)
 *  10  the work slice has not the set's length (encryption scheme and key exchange)
 *  11  m is 0 or above d1 (partial transform and its inverse)
 *  12  d1 * d2 is no transform size of the set (partial transform and its inverse)
 *
 * docs/REFUSALS.md says for each what to look at. Later versions may add numbers: take one that is not known for a refusal of its own.
 */
#ifndef TITANIUM_H
#define TITANIUM_H

#include <stddef.h>
#include <stdint.h>

#ifdef __cplusplus
extern "C" {
#endif

/* The number of a refusal, 0 where the call was accepted, and its place. */
#define TITANIUM_REFUSAL(answer) ((unsigned)((answer) & 0xff))
#define TITANIUM_PLACE(answer) ((uint32_t)((answer) >> 8))

/* Bytes of every seed, message and shared key. */
#define TITANIUM_SEED_BYTES 32
#define TITANIUM_MESSAGE_BYTES 32
#define TITANIUM_SHARED_KEY_BYTES 32

/* The largest lengths over all sets. */
#define TITANIUM_MOST_PUBLIC_KEY_BYTES 26912
#define TITANIUM_MOST_SECRET_KEY_BYTES 26944
#define TITANIUM_MOST_CIPHERTEXT_BYTES 8352
#define TITANIUM_MOST_WORK_NUMBERS 25080

/* Lengths of a set's slices; 0 for a set above 12. */
size_t titanium_public_key_bytes(size_t set);
size_t titanium_secret_key_bytes(size_t set);
size_t titanium_ciphertext_bytes(size_t set);
size_t titanium_work_numbers(size_t set);

/* Key exchange, sets 7 to 12. Refused with 1, 8 (sets 1 to 6), 2, 9 (not keypair), 10, 3 (a number of a public key, also of that inside a secret key), 5. */

/* The keys of a seed. */
uint64_t titanium_keypair(size_t set, const uint8_t *seed, size_t seed_length, uint8_t *public_key, size_t public_key_length,
                          uint8_t *secret_key, size_t secret_key_length, uint32_t *work, size_t work_length);

/* A ciphertext and a shared key from a public key and 32 random bytes, the message. */
uint64_t titanium_encapsulate(size_t set, const uint8_t *public_key, size_t public_key_length, const uint8_t *message,
                              size_t message_length, uint8_t *ciphertext, size_t ciphertext_length, uint8_t *shared_key,
                              size_t shared_key_length, uint32_t *work, size_t work_length);

/* The shared key of a ciphertext. A ciphertext that encapsulation did not make is not refused: it gives the standard's reject key. */
uint64_t titanium_decapsulate(size_t set, const uint8_t *secret_key, size_t secret_key_length, const uint8_t *ciphertext,
                              size_t ciphertext_length, uint8_t *shared_key, size_t shared_key_length, uint32_t *work,
                              size_t work_length);

/* Encryption scheme, sets 1 to 6. Refused with 1, 8 (sets 7 to 12), 2, 9 (not encryption_keypair), 10, 3 (a number of a public key or of a ciphertext's
   first part), 5. */

/* The keys of a seed. */
uint64_t titanium_encryption_keypair(size_t set, const uint8_t *seed, size_t seed_length, uint8_t *public_key,
                                     size_t public_key_length, uint8_t *secret_key, size_t secret_key_length, uint32_t *work,
                                     size_t work_length);

/* The ciphertext of a message of 32 bytes under a public key and a sealing seed. */
uint64_t titanium_encrypt(size_t set, const uint8_t *public_key, size_t public_key_length, const uint8_t *message,
                          size_t message_length, const uint8_t *seed, size_t seed_length, uint8_t *ciphertext,
                          size_t ciphertext_length, uint32_t *work, size_t work_length);

/* The message that a ciphertext is read as. */
uint64_t titanium_decrypt(size_t set, const uint8_t *secret_key, size_t secret_key_length, const uint8_t *ciphertext,
                          size_t ciphertext_length, uint8_t *message, size_t message_length, uint32_t *work, size_t work_length);

/* Key, sealing and reading in one call, the self-test of a delivery. Every length is looked at before the first of the three calls, so that a
   refused one leaves every output as it was; the work slice is zero after 5. Refused with 1, 8, 2, 9, 10, 5; what a step gives is never refused by the
   next. The answer is 0 also where bits were misread: compare the message read with the message, or the two shared keys. */

/* Sets 1 to 6: the keys of a seed, the ciphertext of a message under a sealing seed, and the message read from it. */
uint64_t titanium_seal_and_read(size_t set, const uint8_t *seed, size_t seed_length, const uint8_t *message, size_t message_length,
                                const uint8_t *sealing_seed, size_t sealing_seed_length, uint8_t *public_key, size_t public_key_length,
                                uint8_t *secret_key, size_t secret_key_length, uint8_t *ciphertext, size_t ciphertext_length,
                                uint8_t *message_read, size_t message_read_length, uint32_t *work, size_t work_length);

/* Sets 7 to 12: the keys of a seed, the ciphertext of a message with the sender's shared key, and the receiver's shared key. */
uint64_t titanium_share_a_key(size_t set, const uint8_t *seed, size_t seed_length, const uint8_t *message, size_t message_length,
                              uint8_t *public_key, size_t public_key_length, uint8_t *secret_key, size_t secret_key_length,
                              uint8_t *ciphertext, size_t ciphertext_length, uint8_t *sent_key, size_t sent_key_length,
                              uint8_t *received_key, size_t received_key_length, uint32_t *work, size_t work_length);

/* SHAKE256 of FIPS 202, KMAC256 and KMACXOF256 of SP 800-185. Refused with 6 where a slice is longer than 65,536 bytes. */
uint64_t titanium_shake256(const uint8_t *input, size_t input_length, uint8_t *out, size_t out_length);
uint64_t titanium_kmac256(const uint8_t *key, size_t key_length, const uint8_t *input, size_t input_length,
                          const uint8_t *customization, size_t customization_length, uint8_t *out, size_t out_length);
uint64_t titanium_kmacxof256(const uint8_t *key, size_t key_length, const uint8_t *input, size_t input_length,
                             const uint8_t *customization, size_t customization_length, uint8_t *out, size_t out_length);

/* Draws over lent bytes, sets 1 to 12, one result for each number of `out`. Refused with 1, 2 (more than 4,096 results, or a multiplier past a
   sealing's last position), 4, 5. The place of 4 and 5 is the result's; that of 1 and 2 is 0, since no result was begun. For sets 1 to 12
   an empty `out` is accepted, whatever the first position. */
uint64_t titanium_draw_residues(size_t set, const uint8_t *bytes, size_t bytes_length, uint32_t *out, size_t out_length);
uint64_t titanium_draw_errors(size_t set, const uint8_t *bytes, size_t bytes_length, int32_t *out, size_t out_length);
uint64_t titanium_draw_multipliers(size_t set, const uint8_t *bytes, size_t bytes_length, size_t first, int32_t *out,
                                   size_t out_length);

/* The middle product, sets 0 to 12. Refused with 1, 6, 7 (transformed only), 3 with the place counted through a, then b. */
uint64_t titanium_middle_product(size_t set, const uint32_t *a, size_t a_length, const uint32_t *b, size_t b_length, uint32_t *out,
                                 size_t out_length);
uint64_t titanium_transformed_middle_product(size_t set, const uint32_t *a, size_t a_length, const uint32_t *b, size_t b_length,
                                             uint32_t *out, size_t out_length, uint32_t *work, size_t work_length);

/* The partial transform and its inverse, sets 1 to 12 (003, section 3.2.2): the transform with the set's root of the size d1 * d2, any d1 and d2 whose
   product is a transform size of the set. The numbers stand in d1 rows of d2; a transformed vector has at place d2 * r + c the value r + d1 * c of the
   transform. Rows of 256 numbers go through the scheme's own transforms; with other lengths each number takes some d1 + d2 products. input and output must
   not overlap; no work slice is lent. Refused in this order, and the place is 0 but for 3:
     1   the set is not 1 to 12
     11  m is 0 or above d1
     12  d1 * d2 is no transform size of the set; the product is that of whole numbers, and never wraps round
     2   input or output has not d1 * d2 numbers
     3   a number of the input is q or more, those that are skipped among them; the place is the first such number's
   The transform takes the first m rows, and zeros for the others whatever stands there, and writes all of output. The inverse reads all of input, in the
   order in which the transform writes, and writes the first m rows of what it was made from; the rest of output keeps its numbers. A refused call leaves
   all of output as it was. */
uint64_t titanium_partial_transform(size_t set, size_t d1, size_t d2, size_t m, const uint32_t *input, size_t input_length,
                                    uint32_t *output, size_t output_length);
uint64_t titanium_partial_inverse(size_t set, size_t d1, size_t d2, size_t m, const uint32_t *input, size_t input_length,
                                  uint32_t *output, size_t output_length);

/* Key, sealing and reading on numbers, sets 0 to 12. Refused with 1, 2, 3; the place is counted through a, s, e for a key, through a, b, r,
   message for a sealing, through c1, c2, s for a reading. */
uint64_t titanium_key_of_numbers(size_t set, const uint32_t *a, size_t a_length, const uint32_t *s, size_t s_length, const int32_t *e,
                                 size_t e_length, uint32_t *b, size_t b_length);
uint64_t titanium_sealing_of_numbers(size_t set, const uint32_t *a, size_t a_length, const uint32_t *b, size_t b_length,
                                     const int32_t *r, size_t r_length, const uint32_t *message, size_t message_length, uint32_t *c1,
                                     size_t c1_length, uint32_t *c2, size_t c2_length);
uint64_t titanium_reading_of_numbers(size_t set, const uint32_t *c1, size_t c1_length, const uint32_t *c2, size_t c2_length,
                                     const uint32_t *s, size_t s_length, uint32_t *bits, size_t bits_length);

/* The noise sheet of an input, sets 0 to 6: how many bytes of text it wrote, which may be the line of a refusal; 0 where text has fewer than
   1,024 bytes or work has not 22,521 numbers. */
#define TITANIUM_SHEET_BYTES 1024
#define TITANIUM_SHEET_WORK_NUMBERS 22521
size_t titanium_noise_sheet(const uint8_t *input, size_t input_length, uint8_t *text, size_t text_length, uint32_t *work,
                            size_t work_length);

#ifdef __cplusplus
}
#endif

#endif
