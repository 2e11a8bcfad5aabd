/* Times forms of the checker's tables, in plain C without index checks: table_forms chain|tree|random OBJECTS SURVIVE RUNS
 *
 * Builds an old heap of OBJECTS objects of two fields, of which one in SURVIVE is live, and a new heap of their replicas: a chain whose
 * replicas have the order of the originals, or, in a shuffled order, a binary tree, or objects of which one field in eight refers to a random
 * object. A form walks both heaps, enters the pairs and compares all objects. Prints for each form the least processor time in
 * milliseconds and the bytes of its tables for each word of the old heap. */
#include <stdbool.h>
#include <stdint.h>
#include <stdio.h>
#include <stdlib.h>
#include <string.h>
#include <time.h>

#define FIELDS 2
#define WORDS (FIELDS + 2)
#define HEADER (16777216 + FIELDS)

typedef struct {
    uint32_t old_address, new_address;
} pair;

static uint64_t *old_words, *new_words;
static size_t old_end, new_end, pair_count, table_bytes;
static pair *pairs;

static void *zeroed(size_t bytes)
{
    void *row = malloc(bytes);
    if (row == NULL) {
        fprintf(stderr, "table_forms: no memory\n");
        exit(1);
    }
    table_bytes += bytes;
    return memset(row, 0, bytes);
}

static double milliseconds(void)
{
    struct timespec now;
    clock_gettime(CLOCK_PROCESS_CPUTIME_ID, &now);
    return now.tv_sec * 1e3 + now.tv_nsec / 1e6;
}

/* Returns the place behind the object at this one, or 0 if there is none. */
static inline size_t next_of(const uint64_t *words, size_t end, size_t at)
{
    uint64_t kind = words[at] >> 24;
    size_t taken = (words[at] & 65535) + 2;
    return (kind == 1 || kind == 3) && taken <= end - at ? at + taken : 0;
}

static inline bool is_reference(uint64_t word, uint32_t *address)
{
    *address = (uint32_t)(word >> 1);
    return word != 0 && word % 2 == 0 && word >> 33 == 0;
}

/* ---- marks, a byte or a bit for each word */

static bool mark_bytes(const uint64_t *words, size_t end, uint8_t *marks)
{
    for (size_t at = 1, next; at < end; at = next) {
        if ((next = next_of(words, end, at)) == 0)
            return false;
        marks[at] = 1;
    }
    return true;
}

static bool mark_bits(const uint64_t *words, size_t end, uint64_t *bits)
{
    for (size_t at = 1, next; at < end; at = next) {
        if ((next = next_of(words, end, at)) == 0)
            return false;
        bits[at / 64] |= (uint64_t)1 << at % 64;
    }
    return true;
}

static inline bool has_bit(const uint64_t *bits, size_t end, uint32_t address)
{
    return address < end && (bits[address / 64] >> address % 64 & 1) != 0;
}

/* Returns how many objects start before this address, given how many start before each word of bits. */
static inline uint32_t number_of(const uint64_t *bits, const uint32_t *ranks, uint32_t address)
{
    return ranks[address / 64] + (uint32_t)__builtin_popcountll(bits[address / 64] & (((uint64_t)1 << address % 64) - 1));
}

/* ---- the parts that all forms share: PARTNER is the entry at an old address, or is not reached if no object starts there */

#define ENTER_IN_ORDER(IS_OLD, IS_NEW, PARTNER)                                                                           \
    for (size_t k = 0, last = 0; k < pair_count; k++) {                                                                    \
        uint32_t a = pairs[k].old_address, b = pairs[k].new_address;                                                      \
        if (!(IS_OLD) || !(IS_NEW) || b <= last || PARTNER != 0)                                                           \
            return false;                                                                                                 \
        PARTNER = b;                                                                                                      \
        last = b;                                                                                                         \
    }

/* Enters the pairs during the walk over the new heap, which needs no marks then. */
#define ENTER_BY_THE_WALK(IS_OLD, PARTNER)                                                                                \
    size_t k = 0;                                                                                                         \
    for (size_t at = 1, next; at < new_end; at = next) {                                                                  \
        if ((next = next_of(new_words, new_end, at)) == 0)                                                                \
            return false;                                                                                                 \
        if (k < pair_count && pairs[k].new_address == at) {                                                               \
            uint32_t a = pairs[k++].old_address;                                                                          \
            if (!(IS_OLD) || PARTNER != 0)                                                                                \
                return false;                                                                                             \
            PARTNER = (uint32_t)at;                                                                                       \
        }                                                                                                                 \
    }                                                                                                                     \
    if (k < pair_count)                                                                                                   \
        return false;

#define COMPARE(ARE_PAIR)                                                                                                 \
    for (size_t k = 0; k < pair_count; k++) {                                                                              \
        const uint64_t *old = old_words + pairs[k].old_address, *new = new_words + pairs[k].new_address;                   \
        if (old[0] != new[0])                                                                                             \
            return false;                                                                                                 \
        for (size_t i = 2; i < (old[0] & 65535) + 2; i++) {                                                               \
            uint32_t a, b;                                                                                                \
            if (old[i] == new[i] && (old[i] == 0 || old[i] % 2 == 1))                                                     \
                continue;                                                                                                 \
            if (!is_reference(old[i], &a) || !is_reference(new[i], &b) || !(ARE_PAIR))                                    \
                return false;                                                                                             \
        }                                                                                                                 \
    }                                                                                                                     \
    return true;

/* ---- the forms; each releases its tables by their owner, `row` */

static void *row[4];

/* The checker's: a byte for each word of both heaps, and partners by old address. */
static bool by_address(void)
{
    uint8_t *is_old = row[0] = zeroed(old_end), *is_new = row[1] = zeroed(new_end);
    uint32_t *partners = row[2] = zeroed(4 * old_end);
    if (!mark_bytes(old_words, old_end, is_old) || !mark_bytes(new_words, new_end, is_new))
        return false;
    ENTER_IN_ORDER(a < old_end && is_old[a], b < new_end && is_new[b], partners[a])
    COMPARE(a < old_end && partners[a] == b)
}

static bool by_address_merged(void)
{
    uint8_t *is_old = row[0] = zeroed(old_end);
    uint32_t *partners = row[1] = zeroed(4 * old_end);
    if (!mark_bytes(old_words, old_end, is_old))
        return false;
    ENTER_BY_THE_WALK(a < old_end && is_old[a], partners[a])
    COMPARE(a < old_end && partners[a] == b)
}

/* Partners by the number of the object: bits of the old heap, and ranks for them. */
static bool by_number_merged(void)
{
    size_t blocks = old_end / 64 + 1;
    uint64_t *bits = row[0] = zeroed(8 * blocks);
    uint32_t *ranks = row[1] = zeroed(4 * blocks), count = 0;
    if (!mark_bits(old_words, old_end, bits))
        return false;
    for (size_t i = 0; i < blocks; i++) {
        ranks[i] = count;
        count += (uint32_t)__builtin_popcountll(bits[i]);
    }
    uint32_t *partners = row[2] = zeroed(4 * ((size_t)count + 1));
    ENTER_BY_THE_WALK(has_bit(bits, old_end, a), partners[number_of(bits, ranks, a)])
    COMPARE(has_bit(bits, old_end, a) && partners[number_of(bits, ranks, a)] == b)
}

/* Partners by half the address, since an object takes two words or more: bits of both heaps. */
static bool by_half(void)
{
    uint64_t *is_old = row[0] = zeroed(8 * (old_end / 64 + 1)), *is_new = row[1] = zeroed(8 * (new_end / 64 + 1));
    uint32_t *partners = row[2] = zeroed(4 * (old_end / 2 + 1));
    if (!mark_bits(old_words, old_end, is_old) || !mark_bits(new_words, new_end, is_new))
        return false;
    ENTER_IN_ORDER(has_bit(is_old, old_end, a), has_bit(is_new, new_end, b), partners[a / 2])
    COMPARE(has_bit(is_old, old_end, a) && partners[a / 2] == b)
}

/* ---- heaps */

static uint64_t random_number(void)
{
    static uint64_t state = 88172645463325252;
    state ^= state << 13, state ^= state >> 7, state ^= state << 17; /* xorshift64 */
    return state;
}

static uint32_t start_of(size_t place)
{
    return (uint32_t)(1 + WORDS * place);
}

static void build(const char *shape, size_t count, size_t survive)
{
    size_t live = count / survive, child;
    bool is_chain = strcmp(shape, "chain") == 0, is_tree = strcmp(shape, "tree") == 0;
    uint32_t *places = zeroed(4 * live);
    for (size_t i = 0; i < live; i++)
        places[i] = (uint32_t)i;
    for (size_t left = is_chain ? 0 : live; left > 1; left--) {
        size_t other = random_number() % left;
        uint32_t kept = places[left - 1];
        places[left - 1] = places[other];
        places[other] = kept;
    }
    old_end = start_of(count), new_end = start_of(live), pair_count = live;
    old_words = zeroed(8 * old_end), new_words = zeroed(8 * new_end), pairs = zeroed(live * sizeof *pairs);
    for (size_t i = 0; i < count; i++) {
        uint64_t *object = old_words + start_of(i);
        object[0] = HEADER;
        object[2] = object[3] = 2 * random_number() + 1;
    }
    for (size_t i = 0; i < live; i++) {
        uint64_t *object = old_words + start_of(i * survive), *replica = new_words + start_of(places[i]);
        replica[0] = HEADER;
        pairs[places[i]] = (pair){start_of(i * survive), start_of(places[i])};
        for (size_t f = 0; f < FIELDS; f++) {
            if (is_chain)
                child = f == 0 ? i + 1 : live;
            else if (is_tree)
                child = 2 * i + 1 + f;
            else
                child = random_number() % 8 == 0 ? random_number() % live : live;
            object[2 + f] = child < live ? 2 * (uint64_t)start_of(child * survive) : 2 * random_number() + 1;
            replica[2 + f] = child < live ? 2 * (uint64_t)start_of(places[child]) : object[2 + f];
        }
    }
    free(places);
}

int main(int given, char **words)
{
    static const struct {
        const char *name;
        bool (*check)(void);
    } forms[] = {{"by address", by_address}, {"by address, merged", by_address_merged}, {"by number, merged", by_number_merged}, {"by half the address", by_half}};
    enum { FORMS = sizeof forms / sizeof *forms };
    double least[FORMS];
    size_t bytes[FORMS] = {0};
    if (given != 5 || atol(words[2]) < 1 || atol(words[3]) < 1) {
        fprintf(stderr, "usage: table_forms chain|tree|random OBJECTS SURVIVE RUNS\n");
        return 1;
    }
    build(words[1], (size_t)atol(words[2]), (size_t)atol(words[3]));
    for (int run = 0; run < atoi(words[4]); run++)
        for (int form = 0; form < FORMS; form++) {
            table_bytes = 0;
            double start = milliseconds();
            bool is_yes = forms[form].check();
            for (int i = 0; i < 4; i++) {
                free(row[i]);
                row[i] = NULL;
            }
            double took = milliseconds() - start;
            if (!is_yes) {
                fprintf(stderr, "table_forms: '%s' says no\n", forms[form].name);
                return 1;
            }
            least[form] = run == 0 || took < least[form] ? took : least[form];
            bytes[form] = table_bytes;
        }
    for (int form = 0; form < FORMS; form++)
        printf("%-20s %9.2f ms  %.2f  %.2f bytes a word\n", forms[form].name, least[form], least[form] / least[0], (double)bytes[form] / (double)old_end);
    return 0;
}
