/* How long the proved reader takes for a manifest, as a ratio to the same check in plain C. Both run in turn in one
 * program, so that the machine weighs on both alike; of many rounds the shortest counts. */
#include <stdio.h>
#include <time.h>

#include "../packing/manifest.h"
#include "plain.h"

enum { MANIFESTS = 64, LONGEST = 474, TIMES = 200, ROUNDS = 15 };

struct manifest {
    uint8_t bytes[LONGEST + 1];
    size_t length;
};

struct counts {
    unsigned uses, defines, components, resources;
};

typedef uint32_t check(const uint8_t *bytes, size_t length);

/* splitmix64 */
static uint64_t random_number(void)
{
    static uint64_t state = 1;
    uint64_t z = state += 0x9E3779B97F4A7C15;

    z = (z ^ z >> 30) * 0xBF58476D1CE4E5B9;
    z = (z ^ z >> 27) * 0x94D049BB133111EB;
    return z ^ z >> 31;
}

static unsigned below(unsigned most)
{
    return random_number() % most;
}

static void put(struct manifest *m, uint64_t number, unsigned size)
{
    for (; size > 0; size--, number >>= 8)
        m->bytes[m->length++] = (uint8_t)number;
}

/* A good manifest. Of its components each second one is a provider, and the resources belong to these in turn. */
static void make(struct manifest *m, struct counts counts)
{
    unsigned number = 1 + below(1000);
    unsigned providers = counts.components / 2;

    m->length = 0;
    put(m, 1 + below(65535), 2);
    put(m, 1 + below(1000000), 4);
    put(m, counts.uses, 1);
    for (unsigned i = 0; i < counts.uses; i++)
        put(m, 1 + 63 * i / counts.uses, 1);
    put(m, counts.defines, 1);
    for (unsigned i = 0; i < counts.defines; i++) {
        unsigned level = below(4);
        put(m, 16 + 3 * i + below(3), 1);
        put(m, level, 1);
        put(m, level == 1 ? below(16) : 0, 1);
    }
    put(m, counts.components, 1);
    for (unsigned i = 0; i < counts.components; i++) {
        int is_provider = i % 2;
        put(m, number + 5 * i, 2);
        put(m, is_provider ? 4 : 1 + below(3), 1);
        put(m, below(2), 1);
        put(m, is_provider ? below(2) : 0, 1);
        put(m, is_provider ? 0 : below(64), 1);
        put(m, is_provider ? below(64) : 0, 1);
        put(m, is_provider ? below(64) : 0, 1);
    }
    put(m, counts.resources, 1);
    for (unsigned i = 0; i < counts.resources; i++) {
        put(m, number + 5 * (2 * (i * providers / counts.resources) + 1), 2);
        put(m, 1 + 3 * i + below(3), 2);
        put(m, random_number(), 4);
    }
}

/* Whether both give the same verdicts on the manifest, on each part that a cut leaves of it, and with a byte more. */
static int agree(const struct manifest *m)
{
    for (size_t length = 0; length <= m->length + 1; length++)
        if (manifest_check(m->bytes, length) != plain_check(m->bytes, length))
            return 0;
    return 1;
}

static unsigned good_of(check *check, const struct manifest *set)
{
    unsigned good = 0;

    for (int i = 0; i < MANIFESTS; i++)
        good += check(set[i].bytes, set[i].length) == 0;
    return good;
}

/* Nanoseconds of processor time for one manifest. */
static double time_of(check *check, const struct manifest *set)
{
    struct timespec began, ended;

    clock_gettime(CLOCK_PROCESS_CPUTIME_ID, &began);
    for (int i = 0; i < TIMES; i++)
        good_of(check, set);
    clock_gettime(CLOCK_PROCESS_CPUTIME_ID, &ended);
    return ((ended.tv_sec - began.tv_sec) * 1e9 + (ended.tv_nsec - began.tv_nsec)) / TIMES / MANIFESTS;
}

static int measure(const char *name, const struct manifest *set, unsigned meant)
{
    double plain = 0, reader = 0;

    for (int i = 0; i < MANIFESTS; i++)
        if (!agree(&set[i])) {
            printf("%s: the verdicts on manifest %d differ\n", name, i);
            return 0;
        }
    unsigned good = good_of(manifest_check, set);
    if (good < meant) {
        printf("%s: %u are good, and at least %u are meant to be\n", name, good, meant);
        return 0;
    }
    for (int i = 0; i < ROUNDS; i++) {
        double of_plain = time_of(plain_check, set), of_reader = time_of(manifest_check, set);
        if (i == 0 || of_plain < plain)
            plain = of_plain;
        if (i == 0 || of_reader < reader)
            reader = of_reader;
    }
    printf("| %s | %.0f | %.0f | %.2f |\n", name, plain, reader, reader / plain);
    return 1;
}

int main(void)
{
    static struct manifest fullest[MANIFESTS], typical[MANIFESTS], mixed[MANIFESTS];

    for (int i = 0; i < MANIFESTS; i++) {
        make(&fullest[i], (struct counts){32, 16, 16, 32});
        make(&typical[i], (struct counts){4 + below(4), 1 + below(3), 4 + below(4), 4 + below(6)});
        mixed[i] = i % 2 ? fullest[i] : typical[i];
        if (i % 4 > 1)
            mixed[i].bytes[below(mixed[i].length)] ^= 1u << below(8);
    }
    printf("| class | plain C, ns | reader, ns | ratio |\n|---|---|---|---|\n");
    return measure("fullest (474 bytes)", fullest, MANIFESTS) && measure("typical", typical, MANIFESTS)
        && measure("mixed, half of them damaged", mixed, MANIFESTS / 2) ? 0 : 1;
}
