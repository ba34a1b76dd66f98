/* Two sides agree on a key: the lock makes its keys, the office encapsulates, the lock decapsulates; then a damaged ciphertext. */
#include "titanium.h"

#include <stdio.h>
#include <string.h>

enum { SET = 9, PUBLIC = 16352, SECRET = 16384, CIPHERTEXT = 3552, WORK = 17910 };

static uint8_t public_key[PUBLIC], secret_key[SECRET], ciphertext[CIPHERTEXT];
static uint32_t work[WORK];

/* Ends the program where a call was refused. */
static int refused(const char *call, uint64_t answer)
{
    if (answer == 0)
        return 0;
    fprintf(stderr, "%s refused: %u at %u\n", call, TITANIUM_REFUSAL(answer), TITANIUM_PLACE(answer));
    return 1;
}

int main(void)
{
    /* Fixed bytes, so that the example prints the same each time; take them from the system's random source. */
    uint8_t seed[TITANIUM_SEED_BYTES], message[TITANIUM_MESSAGE_BYTES];
    uint8_t office[TITANIUM_SHARED_KEY_BYTES], lock[TITANIUM_SHARED_KEY_BYTES];
    memset(seed, 1, sizeof seed);
    memset(message, 2, sizeof message);

    if (refused("keypair", titanium_keypair(SET, seed, sizeof seed, public_key, PUBLIC, secret_key, SECRET, work, WORK)))
        return 1;
    if (refused("encapsulate", titanium_encapsulate(SET, public_key, PUBLIC, message, sizeof message, ciphertext, CIPHERTEXT, office,
                                                    sizeof office, work, WORK)))
        return 1;
    if (refused("decapsulate", titanium_decapsulate(SET, secret_key, SECRET, ciphertext, CIPHERTEXT, lock, sizeof lock, work, WORK)))
        return 1;
    printf("one key: %s\n", memcmp(office, lock, sizeof lock) == 0 ? "yes" : "no");

    ciphertext[0] ^= 1;
    if (refused("decapsulate", titanium_decapsulate(SET, secret_key, SECRET, ciphertext, CIPHERTEXT, lock, sizeof lock, work, WORK)))
        return 1;
    printf("after damage: %s\n", memcmp(office, lock, sizeof lock) == 0 ? "the same key" : "the reject key");

    /* Which length was off: 2 for a key, 9 for the ciphertext, 10 for the work slice. */
    uint64_t answer = titanium_encapsulate(SET, public_key, PUBLIC - 1, message, sizeof message, ciphertext, CIPHERTEXT, office,
                                           sizeof office, work, WORK);
    printf("a public key one byte short: refused with %u\n", TITANIUM_REFUSAL(answer));
    answer = titanium_decapsulate(SET, secret_key, SECRET, ciphertext, CIPHERTEXT - 1, lock, sizeof lock, work, WORK);
    printf("a ciphertext one byte short: refused with %u\n", TITANIUM_REFUSAL(answer));
    answer = titanium_decapsulate(SET, secret_key, SECRET, ciphertext, CIPHERTEXT, lock, sizeof lock, work, WORK - 1);
    printf("a work slice one number short: refused with %u\n", TITANIUM_REFUSAL(answer));
    return 0;
}
