/*
 * Makes a key pair, seals a message, checks it as it was and altered, and reads a part and the digits of a value.
 *
 *     gcc -std=c11 -I use/include use/example/seal.c target/staticlib/libface.a -o seal
 */
#include <inttypes.h>
#include <stdio.h>
#include <string.h>

#include "skimdral.h"

enum { SET = SKIMDRAL_SHAKE_128F, N = 16, PUBLIC = 32, SECRET = 64, SEAL = 17088, DIGITS = 35, FOREST = 1 };

static uint8_t public_key[PUBLIC];
static uint8_t secret_key[SECRET];
static uint8_t seal[SEAL];

/* In a true program the seeds are drawn at random. */
static uint32_t make_keys(void)
{
    uint8_t secret_seed[N], prf_seed[N], public_seed[N];
    memset(secret_seed, 1, N);
    memset(prf_seed, 2, N);
    memset(public_seed, 3, N);
    return skimdral_make_keys(SET, secret_seed, N, prf_seed, N, public_seed, N, public_key, PUBLIC, secret_key, SECRET);
}

static uint32_t check(const char *message, size_t seal_length)
{
    uint32_t f_calls;
    uint32_t answer = skimdral_check(SET, public_key, PUBLIC, (const uint8_t *)message, strlen(message), seal,
                                     seal_length, &f_calls);
    printf("check: %" PRIu32 ", F calls: %" PRIu32 "\n", answer, f_calls);
    return answer;
}

int main(void)
{
    const char *message = "observations";
    uint32_t digits[DIGITS];
    size_t start, length;

    if (make_keys() != SKIMDRAL_DONE)
        return 1;
    /* No randomizer input: any pointer but NULL, and the length 0. */
    if (skimdral_seal(SET, secret_key, SECRET, (const uint8_t *)message, strlen(message), public_key, 0, seal, SEAL) !=
        SKIMDRAL_DONE)
        return 1;
    if (check(message, SEAL) != SKIMDRAL_DONE)
        return 1;
    if (check("", SEAL) != SKIMDRAL_ROOT_DIFFERS)
        return 1;
    if (check(message, SEAL - 1) != SKIMDRAL_SEAL_LENGTH)
        return 1;
    if (skimdral_part(SET, seal, SEAL, FOREST, &start, &length) != SKIMDRAL_DONE)
        return 1;
    printf("forest: %zu bytes from %zu\n", length, start);
    if (skimdral_digits(SET, seal, N, digits, DIGITS) != SKIMDRAL_DONE)
        return 1;
    printf("first digit of the randomizer: %" PRIu32 "\n", digits[0]);
    return 0;
}
