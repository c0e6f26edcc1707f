/* The monitor in plain C, with which the proved one's speed is compared. Its state is tables of fixed room, each a list
 * in order of arrival with its count; places past the count are zero. */
#ifndef MONITOR_H
#define MONITOR_H

#include <stddef.h>
#include <stdint.h>

enum { APPS = 16, DEFINITIONS = 256, COMPONENTS = 64, RESOURCES = 128, INSTANCES = 64, LOANS = 128 };
enum { USES = 32, GROUPS = 15 };
enum { NORMAL, DANGEROUS, SIGNATURE, SIGNATURE_OR_SYSTEM };
enum { ACTIVITY = 1, SERVICE, RECEIVER, PROVIDER };
enum { READING = 1, WRITING = 2 };
enum { TO_INSTANCE = 1, TO_APP = 2 };

/* No entry has padding, so that unused places can be compared with zero byte by byte. */
struct app {
    uint32_t signer;
    uint16_t number, used, granted, grouped;
    uint8_t image, uses[USES], grants[USES], groups[GROUPS];
};

struct definition {
    uint16_t app, permission;
    uint8_t level, group;
};

struct component {
    uint16_t app, number;
    uint8_t kind, exported, shares, start, read, write;
};

struct resource {
    uint16_t provider, uri;
    uint32_t value;
};

struct instance {
    uint16_t number, component;
};

struct loan {
    uint8_t kind, operations;
    uint16_t receiver, provider, uri;
};

/* All tables but the loans', which are lent. Bit n - 1 of `running` says that instance n runs. */
struct device {
    struct app apps[APPS];
    struct definition definitions[DEFINITIONS];
    struct component components[COMPONENTS];
    struct resource resources[RESOURCES];
    struct instance instances[INSTANCES];
    size_t app_count, definition_count, component_count, resource_count, instance_count, loan_count;
    uint64_t running;
};

/* A permission that is defined. */
struct permission {
    unsigned level, group;
    uint32_t signer;
};

struct bytes {
    const uint8_t *at;
    size_t length;
};

/* Refusal 0 is done. A refusal has no ground and no value. */
struct answer {
    unsigned refusal, ground;
    uint32_t value;
};

/* Is the state valid? */
int valid(const struct device *d, const struct loan lent[LOANS]);

/* Answers an action on a valid device and makes its change. */
struct answer act(struct device *d, struct loan lent[LOANS], struct bytes action, struct bytes manifest);

/* ---- searches; NULL where there is none. As with strchr, what is found may be changed where the device may. */

static inline struct app *find_app(const struct device *d, uint32_t number)
{
    for (size_t i = 0; i < d->app_count; i++)
        if (d->apps[i].number == number)
            return (struct app *)&d->apps[i];
    return NULL;
}

static inline struct component *find_component(const struct device *d, unsigned number)
{
    for (size_t i = 0; i < d->component_count; i++)
        if (d->components[i].number == number)
            return (struct component *)&d->components[i];
    return NULL;
}

static inline struct resource *find_resource(const struct device *d, unsigned provider, unsigned uri)
{
    for (size_t i = 0; i < d->resource_count; i++)
        if (d->resources[i].provider == provider && d->resources[i].uri == uri)
            return (struct resource *)&d->resources[i];
    return NULL;
}

static inline struct instance *find_instance(const struct device *d, uint32_t number)
{
    for (size_t i = 0; i < d->instance_count; i++)
        if (d->instances[i].number == number)
            return (struct instance *)&d->instances[i];
    return NULL;
}

static inline int has(const uint8_t *list, size_t count, unsigned member)
{
    for (size_t i = 0; i < count; i++)
        if (list[i] == member)
            return 1;
    return 0;
}

/* The definition of a permission in force, the platform's or an app's. Answers 0 where there is none. */
static inline int find_permission(const struct device *d, unsigned number, struct permission *found)
{
    static const struct permission built_in[] = {
        {0, 0, 0}, {NORMAL, 0, 1}, {NORMAL, 0, 1}, {DANGEROUS, 1, 1}, {DANGEROUS, 2, 1}, {DANGEROUS, 2, 1},
        {DANGEROUS, 3, 1}, {SIGNATURE, 0, 1}, {SIGNATURE_OR_SYSTEM, 0, 1}};

    if (number == 0)
        return 0;
    if (number < sizeof built_in / sizeof *built_in) {
        *found = built_in[number];
        return 1;
    }
    for (size_t i = 0; i < d->definition_count; i++)
        if (d->definitions[i].permission == number) {
            const struct app *definer = find_app(d, d->definitions[i].app);
            if (definer == NULL)
                return 0;
            *found = (struct permission){d->definitions[i].level, d->definitions[i].group, definer->signer};
            return 1;
        }
    return 0;
}

#endif
