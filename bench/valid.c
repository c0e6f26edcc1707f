/* The validity test of the monitor in plain C: document 01, "A valid state". */
#include "monitor.h"

_Static_assert(sizeof(struct app) == 92 && sizeof(struct definition) == 6 && sizeof(struct component) == 10
    && sizeof(struct resource) == 8 && sizeof(struct instance) == 4 && sizeof(struct loan) == 8, "padding");

/* How many of an app's entries a table has shown so far, and the last one's key. */
struct shown {
    unsigned count;
    uint32_t last;
};

static int is_zero(const void *from, size_t size)
{
    const uint8_t *bytes = from;
    uint8_t found = 0;

    for (size_t i = 0; i < size; i++)
        found |= bytes[i];
    return found == 0;
}

static int counts_hold(const struct device *d)
{
    if (d->app_count > APPS || d->definition_count > DEFINITIONS || d->component_count > COMPONENTS)
        return 0;
    if (d->resource_count > RESOURCES || d->instance_count > INSTANCES || d->loan_count > LOANS)
        return 0;
    for (size_t i = 0; i < d->app_count; i++)
        if (d->apps[i].used > USES || d->apps[i].granted > USES || d->apps[i].grouped > GROUPS)
            return 0;
    return 1;
}

#define UNUSED_ARE_ZERO(entries, count, room) is_zero((entries) + (count), ((room) - (count)) * sizeof *(entries))

static int unused_are_zero(const struct device *d, const struct loan lent[LOANS])
{
    for (size_t i = 0; i < d->app_count; i++) {
        const struct app *a = &d->apps[i];
        if (!UNUSED_ARE_ZERO(a->uses, a->used, USES) || !UNUSED_ARE_ZERO(a->grants, a->granted, USES)
            || !UNUSED_ARE_ZERO(a->groups, a->grouped, GROUPS))
            return 0;
    }
    return UNUSED_ARE_ZERO(d->apps, d->app_count, APPS)
        && UNUSED_ARE_ZERO(d->definitions, d->definition_count, DEFINITIONS)
        && UNUSED_ARE_ZERO(d->components, d->component_count, COMPONENTS)
        && UNUSED_ARE_ZERO(d->resources, d->resource_count, RESOURCES)
        && UNUSED_ARE_ZERO(d->instances, d->instance_count, INSTANCES)
        && UNUSED_ARE_ZERO(lent, d->loan_count, LOANS);
}

/* The next entry of an app rises, and is not one too many. */
static int rises(struct shown *shown, uint32_t key, unsigned most)
{
    if (key <= shown->last || shown->count == most)
        return 0;
    shown->last = key;
    shown->count++;
    return 1;
}

static int distinct(const uint8_t *list, size_t count)
{
    for (size_t i = 0; i < count; i++)
        if (has(list + i + 1, count - i - 1, list[i]))
            return 0;
    return 1;
}

static int valid_grant(const struct device *d, const struct app *a, unsigned permission)
{
    struct permission found;

    return has(a->uses, a->used, permission) && find_permission(d, permission, &found) && found.level == DANGEROUS;
}

static int valid_app(const struct device *d, const struct app *a)
{
    struct shown uses = {0, 0};

    if (a->number == 0 || a->signer == 0)
        return 0;
    for (size_t i = 0; i < a->used; i++)
        if (a->uses[i] > 63 || !rises(&uses, a->uses[i], USES))
            return 0;
    for (size_t i = 0; i < a->granted; i++)
        if (!valid_grant(d, a, a->grants[i]))
            return 0;
    for (size_t i = 0; i < a->grouped; i++)
        if (a->groups[i] < 1 || a->groups[i] > 15)
            return 0;
    return distinct(a->grants, a->granted) && distinct(a->groups, a->grouped);
}

static int valid_apps(const struct device *d)
{
    for (size_t i = 0; i < d->app_count; i++) {
        if (!valid_app(d, &d->apps[i]))
            return 0;
        for (size_t j = i + 1; j < d->app_count; j++)
            if (d->apps[i].number == d->apps[j].number)
                return 0;
    }
    return 1;
}

static int good_definition(const struct definition *e)
{
    return e->permission >= 16 && e->permission <= 63 && e->level <= SIGNATURE_OR_SYSTEM && e->group <= 15
        && (e->group == 0 || e->level == DANGEROUS);
}

static int valid_definitions(const struct device *d)
{
    struct shown shown[APPS] = {{0, 0}};
    uint64_t defined = 0;

    for (size_t i = 0; i < d->definition_count; i++) {
        const struct definition *e = &d->definitions[i];
        const struct app *a = find_app(d, e->app);
        if (a == NULL || !good_definition(e) || !rises(&shown[a - d->apps], e->permission, 16))
            return 0;
        if (defined >> e->permission & 1)
            return 0;
        defined |= (uint64_t)1 << e->permission;
    }
    return 1;
}

static int good_component(const struct component *e)
{
    if (e->kind < ACTIVITY || e->kind > PROVIDER || e->exported > 1 || e->shares > 1)
        return 0;
    if (e->start > 63 || e->read > 63 || e->write > 63)
        return 0;
    return e->kind == PROVIDER ? e->start == 0 : (e->shares | e->read | e->write) == 0;
}

static int valid_components(const struct device *d)
{
    struct shown shown[APPS] = {{0, 0}};

    for (size_t i = 0; i < d->component_count; i++) {
        const struct component *e = &d->components[i];
        const struct app *a = find_app(d, e->app);
        if (a == NULL || !good_component(e) || !rises(&shown[a - d->apps], e->number, 16))
            return 0;
        for (size_t j = i + 1; j < d->component_count; j++)
            if (e->number == d->components[j].number)
                return 0;
    }
    return 1;
}

static int valid_resources(const struct device *d)
{
    struct shown shown[APPS] = {{0, 0}};

    for (size_t i = 0; i < d->resource_count; i++) {
        const struct resource *e = &d->resources[i];
        const struct component *provider = find_component(d, e->provider);
        if (provider == NULL || provider->kind != PROVIDER || e->uri == 0)
            return 0;
        const struct app *a = find_app(d, provider->app);
        if (a == NULL || !rises(&shown[a - d->apps], (uint32_t)e->provider << 16 | e->uri, 32))
            return 0;
        for (size_t j = i + 1; j < d->resource_count; j++)
            if (e->provider == d->resources[j].provider && e->uri == d->resources[j].uri)
                return 0;
    }
    return 1;
}

static int valid_instances(const struct device *d)
{
    uint64_t running = 0;

    for (size_t i = 0; i < d->instance_count; i++) {
        const struct instance *e = &d->instances[i];
        const struct component *component = find_component(d, e->component);
        if (e->number < 1 || e->number > INSTANCES || component == NULL || component->kind == PROVIDER)
            return 0;
        uint64_t bit = (uint64_t)1 << (e->number - 1);
        if (running & bit)
            return 0;
        running |= bit;
    }
    return running == d->running;
}

static int valid_loan(const struct device *d, const struct loan *e)
{
    if (e->operations < 1 || e->operations > (READING | WRITING))
        return 0;
    if (!(e->kind == TO_INSTANCE && find_instance(d, e->receiver)) && !(e->kind == TO_APP && find_app(d, e->receiver)))
        return 0;
    if (find_resource(d, e->provider, e->uri) == NULL)
        return 0;
    const struct component *provider = find_component(d, e->provider);
    return provider != NULL && provider->kind == PROVIDER && provider->shares;
}

static int valid_loans(const struct device *d, const struct loan lent[LOANS])
{
    for (size_t i = 0; i < d->loan_count; i++) {
        const struct loan *e = &lent[i];
        if (!valid_loan(d, e))
            return 0;
        for (size_t j = i + 1; j < d->loan_count; j++)
            if (e->kind == lent[j].kind && e->receiver == lent[j].receiver && e->provider == lent[j].provider
                && e->uri == lent[j].uri)
                return 0;
    }
    return 1;
}

int valid(const struct device *d, const struct loan lent[LOANS])
{
    return counts_hold(d) && unused_are_zero(d, lent) && valid_apps(d) && valid_definitions(d) && valid_components(d)
        && valid_resources(d) && valid_instances(d) && valid_loans(d, lent);
}
