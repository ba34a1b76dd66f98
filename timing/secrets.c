/* Runs one call of the encryption scheme or of the key exchange with its secrets marked undefined: valgrind's memcheck reports every branch and
   every index that depends on a secret where it stands, and callgrind counts what the call executes. The calls before it run unmarked, those after
   it do not run, and every call has a process of its own, since memcheck reports a place only once. */
#include "titanium.h"

#include <stdlib.h>
#include <string.h>
#include <valgrind/callgrind.h>
#include <valgrind/memcheck.h>

static uint8_t public_key[TITANIUM_MOST_PUBLIC_KEY_BYTES], secret_key[TITANIUM_MOST_SECRET_KEY_BYTES];
static uint8_t ciphertext[TITANIUM_MOST_CIPHERTEXT_BYTES];
static uint8_t seed[32], sealing_seed[32], message[32], given[32];
static uint32_t work[TITANIUM_MOST_WORK_NUMBERS];
static const char *marked;

static int asked(const char *call) { return strcmp(call, marked) == 0; }

/* What is executed is counted from here on. */
static void secret(void *bytes, size_t length)
{
    CALLGRIND_ZERO_STATS;
    (void)VALGRIND_MAKE_MEM_UNDEFINED(bytes, length);
}

/* Every call gives 0 here; whether it did may depend on a secret, so it is not looked at. The public key and the ciphertext are open. */
static void encryption(size_t set)
{
    size_t pk = titanium_public_key_bytes(set), sk = titanium_secret_key_bytes(set), ct = titanium_ciphertext_bytes(set);
    size_t numbers = titanium_work_numbers(set);
    if (asked("key"))
        secret(seed, 32);
    titanium_encryption_keypair(set, seed, 32, public_key, pk, secret_key, sk, work, numbers);
    if (asked("key"))
        return;
    if (asked("encrypt"))
        secret(sealing_seed, 32), secret(message, 32);
    titanium_encrypt(set, public_key, pk, message, 32, sealing_seed, 32, ciphertext, ct, work, numbers);
    if (asked("encrypt"))
        return;
    secret(secret_key, sk);
    titanium_decrypt(set, secret_key, sk, ciphertext, ct, given, 32, work, numbers);
}

/* The secret key ends in the public key, which is open. */
static void exchange(size_t set)
{
    size_t pk = titanium_public_key_bytes(set), sk = titanium_secret_key_bytes(set), ct = titanium_ciphertext_bytes(set);
    size_t numbers = titanium_work_numbers(set);
    if (asked("key"))
        secret(seed, 32);
    titanium_keypair(set, seed, 32, public_key, pk, secret_key, sk, work, numbers);
    if (asked("key"))
        return;
    if (asked("encapsulate"))
        secret(message, 32);
    titanium_encapsulate(set, public_key, pk, message, 32, ciphertext, ct, given, 32, work, numbers);
    if (asked("encapsulate"))
        return;
    secret(secret_key, 32);
    titanium_decapsulate(set, secret_key, sk, ciphertext, ct, given, 32, work, numbers);
}

int main(int count, char **words)
{
    size_t set = count > 2 ? strtoul(words[1], NULL, 10) : 1;
    marked = count > 2 ? words[2] : "key";
    memset(seed, 1, 32), memset(sealing_seed, 2, 32), memset(message, 3, 32);
    if (set < 7)
        encryption(set);
    else
        exchange(set);
    return 0;
}
