/*
 * Seals of SLH-DSA (FIPS 205), from the proved library target/staticlib/libface.a (made by
 * `tools/static_library face`).
 *
 * Every function tests its own arguments and ends with an answer; with an answer from 1 to 4 or 6 it has changed no
 * byte of a buffer. What is told beside an answer, through f_calls, start and length, is a part of it and written with
 * every answer. Where several answers apply, the smallest number is given.
 *
 * A buffer is a pointer and the number of its elements. No pointer may be NULL, even with the length 0. A buffer that
 * is written must overlap no other one. The functions keep no pointer and have no state, so threads may share them.
 *
 *   set              n  public key  secret key   seal  parts  digits
 *   1  shake-128s   16          32          64   7856      9      35
 *   2  shake-128f   16          32          64  17088     24      35
 *
 * A seed, a randomizer input and a value have n bytes. Drawing seeds and guarding keys are the caller's work.
 */
#ifndef SKIMDRAL_H
#define SKIMDRAL_H

#include <stddef.h>
#include <stdint.h>

#ifdef __cplusplus
extern "C" {
#endif

/* The sets. */
enum skimdral_set { SKIMDRAL_SHAKE_128S = 1, SKIMDRAL_SHAKE_128F = 2 };

/* The longest message that is sealed or checked, in bytes. */
#define SKIMDRAL_MESSAGE_LIMIT 65536

/* The answers. */
enum skimdral_answer {
    SKIMDRAL_DONE = 0,           /* the outputs are written in full; of a check: accepted */
    SKIMDRAL_UNKNOWN_SET = 1,    /* there is no set of that number */
    SKIMDRAL_INPUT_LENGTH = 2,   /* a seed, key, value or randomizer input has a length the set doesn't allow */
    SKIMDRAL_MESSAGE_LENGTH = 3, /* the message is longer than SKIMDRAL_MESSAGE_LIMIT */
    SKIMDRAL_SEAL_LENGTH = 4,    /* an output, or the seal presented, hasn't exactly its length */
    SKIMDRAL_ROOT_DIFFERS = 5,   /* of a check alone: the recomputed root differs from the key's */
    SKIMDRAL_UNKNOWN_PART = 6    /* of part reading alone: the seal has no part of that number */
};

/* Makes a key pair from three seeds. Public key: public seed, root. Secret key: the three seeds, root. */
uint32_t skimdral_make_keys(uint32_t set, const uint8_t *secret_seed, size_t secret_seed_length,
                            const uint8_t *prf_seed, size_t prf_seed_length, const uint8_t *public_seed,
                            size_t public_seed_length, uint8_t *public_key, size_t public_key_length,
                            uint8_t *secret_key, size_t secret_key_length);

/*
 * Seals a message. `random` has n bytes, which are mixed into the seal's randomizer, or none: then the public seed
 * stands in, and the same key and message give the same seal.
 */
uint32_t skimdral_seal(uint32_t set, const uint8_t *secret_key, size_t secret_key_length, const uint8_t *message,
                       size_t message_length, const uint8_t *random, size_t random_length, uint8_t *seal,
                       size_t seal_length);

/* Checks a seal. *f_calls is how many F calls the check made; 0 with the answers 1 to 4. */
uint32_t skimdral_check(uint32_t set, const uint8_t *public_key, size_t public_key_length, const uint8_t *message,
                        size_t message_length, const uint8_t *seal, size_t seal_length, uint32_t *f_calls);

/* Where a part of a seal lies: 0 is the randomizer, 1 the forest, 2 + j layer j. Both are 0 with a refusal. */
uint32_t skimdral_part(uint32_t set, const uint8_t *seal, size_t seal_length, uint32_t number, size_t *start,
                       size_t *length);

/* Writes the chain digits of a value, checksum digits last. */
uint32_t skimdral_digits(uint32_t set, const uint8_t *value, size_t value_length, uint32_t *digits,
                         size_t digits_length);

#ifdef __cplusplus
}
#endif

#endif
