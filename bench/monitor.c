/* The inner step of the monitor in plain C: document 01, "Conditions and effects". */
#include <string.h>

#include "monitor.h"
#include "plain.h"

enum {
    INSTALL = 1, UNINSTALL, GRANT, REVOKE, GRANT_GROUP, REVOKE_GROUP, START, STOP, READ, WRITE, LEND_TO_INSTANCE,
    LEND_TO_APP, WITHDRAW, ASK
};

enum {
    MALFORMED_ACTION = 2, MALFORMED_MANIFEST, ALREADY_THERE, NO_APP, NO_COMPONENT, NO_INSTANCE, NO_RESOURCE, UNDEFINED,
    CANNOT_BE_GRANTED, NOT_PERMITTED, NOTHING_TO_TAKE_BACK, IN_USE, PART_OF_THE_IMAGE, NO_ROOM
};

struct action {
    unsigned code, a, b, c, d;
    uint32_t e;
};

/* What a read, a write, a lend or a withdraw names. */
struct use {
    const struct component *provider;
    const struct app *app;
    struct resource *resource;
};

/* A section of a manifest. */
struct section {
    const uint8_t *entries;
    size_t count;
};

struct manifest {
    struct section uses, defines, components, resources;
};

/* Keeps the entries e that `keeps` holds of, closes the gaps and clears the places that fall free. */
#define KEEP(type, entries, count, keeps) do { \
        size_t kept = 0; \
        for (size_t i = 0; i < (count); i++) { \
            type e = (entries)[i]; \
            if (keeps) \
                (entries)[kept++] = e; \
        } \
        memset((entries) + kept, 0, ((count) - kept) * sizeof *(entries)); \
        (count) = kept; \
    } while (0)

static struct answer refused(unsigned refusal)
{
    return (struct answer){refusal, 0, 0};
}

static struct answer done(unsigned ground, uint32_t value)
{
    return (struct answer){0, ground, value};
}

static unsigned u16(const uint8_t *at)
{
    return at[0] | (unsigned)at[1] << 8;
}

static uint32_t u32(const uint8_t *at)
{
    return u16(at) | (uint32_t)u16(at + 2) << 16;
}

/* ---- permissions and grounds */

static int holds(const struct device *d, const struct app *a, unsigned permission)
{
    struct permission found;

    if (!find_permission(d, permission, &found) || !has(a->uses, a->used, permission))
        return 0;
    switch (found.level) {
    case NORMAL:
        return 1;
    case DANGEROUS:
        return has(a->grants, a->granted, permission) || has(a->groups, a->grouped, found.group);
    case SIGNATURE:
        return a->signer == found.signer;
    default:
        return a->signer == found.signer || a->image;
    }
}

/* Whether a component's permission is 0 or held by the app. */
static int allows(const struct device *d, const struct app *a, unsigned permission)
{
    return permission == 0 || holds(d, a, permission);
}

static const struct app *app_of(const struct device *d, uint32_t instance)
{
    const struct instance *run = find_instance(d, instance);

    return run == NULL ? NULL : find_app(d, find_component(d, run->component)->app);
}

static int is_on(const struct loan *loan, const struct action *x)
{
    return loan->provider == x->b && loan->uri == x->d;
}

static int is_lent(const struct device *d, const struct loan *lent, const struct action *x, unsigned kind,
                   unsigned receiver, unsigned operation)
{
    for (size_t i = 0; i < d->loan_count; i++)
        if (lent[i].kind == kind && lent[i].receiver == receiver && is_on(&lent[i], x)
            && lent[i].operations & operation)
            return 1;
    return 0;
}

/* The ground of an operation that is no loan, 0 where there is none. */
static unsigned ground_by_right(const struct device *d, const struct use *use, unsigned operation)
{
    if (use->provider->app == use->app->number)
        return 1;
    unsigned needed = operation == READING ? use->provider->read : use->provider->write;
    return use->provider->exported && allows(d, use->app, needed) ? 2 : 0;
}

static unsigned ground(const struct device *d, const struct loan *lent, const struct action *x, const struct use *use,
                       unsigned operation)
{
    unsigned by_right = ground_by_right(d, use, operation);

    if (by_right != 0)
        return by_right;
    if (is_lent(d, lent, x, TO_INSTANCE, x->c, operation))
        return 3;
    return is_lent(d, lent, x, TO_APP, use->app->number, operation) ? 4 : 0;
}

/* Finds what the action names. Answers 0, or the refusal where something is missing. */
static unsigned find_use(const struct device *d, const struct action *x, struct use *use)
{
    use->provider = find_component(d, x->b);
    if (use->provider == NULL || use->provider->kind != PROVIDER)
        return NO_COMPONENT;
    use->app = app_of(d, x->c);
    if (use->app == NULL)
        return NO_INSTANCE;
    use->resource = find_resource(d, x->b, x->d);
    return use->resource == NULL ? NO_RESOURCE : 0;
}

/* ---- the actions */

static struct section take(const uint8_t **at, size_t size)
{
    struct section section = {*at + 1, **at};

    *at = section.entries + section.count * size;
    return section;
}

/* The sections of a good manifest. */
static struct manifest sections(const uint8_t *bytes)
{
    const uint8_t *at = bytes + 6;
    struct manifest m;

    m.uses = take(&at, 1);
    m.defines = take(&at, 3);
    m.components = take(&at, 8);
    m.resources = take(&at, 8);
    return m;
}

static int is_there(const struct device *d, unsigned app, const struct manifest *m)
{
    struct permission found;

    if (find_app(d, app) != NULL)
        return 1;
    for (size_t i = 0; i < m->components.count; i++)
        if (find_component(d, u16(m->components.entries + 8 * i)) != NULL)
            return 1;
    for (size_t i = 0; i < m->defines.count; i++)
        if (find_permission(d, m->defines.entries[3 * i], &found))
            return 1;
    return 0;
}

static struct answer install(struct device *d, const struct action *x, struct bytes bytes)
{
    if (plain_check(bytes.at, bytes.length) != 0)
        return refused(MALFORMED_MANIFEST);
    struct manifest m = sections(bytes.at);
    uint16_t number = u16(bytes.at);
    if (is_there(d, number, &m))
        return refused(ALREADY_THERE);
    if (d->app_count + 1 > APPS || d->component_count + m.components.count > COMPONENTS
        || d->resource_count + m.resources.count > RESOURCES)
        return refused(NO_ROOM);

    struct app *a = &d->apps[d->app_count++];
    a->number = number;
    a->signer = u32(bytes.at + 2);
    a->image = x->a;
    a->used = m.uses.count;
    memcpy(a->uses, m.uses.entries, m.uses.count);
    for (size_t i = 0; i < m.defines.count; i++) {
        const uint8_t *e = m.defines.entries + 3 * i;
        d->definitions[d->definition_count++] = (struct definition){number, e[0], e[1], e[2]};
    }
    for (size_t i = 0; i < m.components.count; i++) {
        const uint8_t *e = m.components.entries + 8 * i;
        d->components[d->component_count++] = (struct component){number, u16(e), e[2], e[3], e[4], e[5], e[6], e[7]};
    }
    for (size_t i = 0; i < m.resources.count; i++) {
        const uint8_t *e = m.resources.entries + 8 * i;
        d->resources[d->resource_count++] = (struct resource){u16(e), u16(e + 2), u32(e + 4)};
    }
    return done(0, 0);
}

static int runs(const struct device *d, unsigned app)
{
    for (size_t i = 0; i < d->instance_count; i++)
        if (find_component(d, d->instances[i].component)->app == app)
            return 1;
    return 0;
}

static int defines(const struct device *d, unsigned app, unsigned permission)
{
    for (size_t i = 0; i < d->definition_count; i++)
        if (d->definitions[i].permission == permission)
            return d->definitions[i].app == app;
    return 0;
}

static struct answer uninstall(struct device *d, struct loan *lent, const struct action *x)
{
    unsigned app = x->b;
    const struct app *gone = find_app(d, app);

    if (gone == NULL)
        return refused(NO_APP);
    if (runs(d, app))
        return refused(IN_USE);
    if (gone->image)
        return refused(PART_OF_THE_IMAGE);

    KEEP(struct loan, lent, d->loan_count,
         find_component(d, e.provider)->app != app && !(e.kind == TO_APP && e.receiver == app));
    KEEP(struct resource, d->resources, d->resource_count, find_component(d, e.provider)->app != app);
    KEEP(struct component, d->components, d->component_count, e.app != app);
    for (struct app *a = d->apps; a < d->apps + d->app_count; a++)
        KEEP(uint8_t, a->grants, a->granted, !defines(d, app, e));
    KEEP(struct definition, d->definitions, d->definition_count, e.app != app);
    KEEP(struct app, d->apps, d->app_count, e.number != app);
    return done(0, 0);
}

static struct answer grant(struct device *d, const struct action *x)
{
    struct app *a = find_app(d, x->b);
    struct permission found;

    if (a == NULL)
        return refused(NO_APP);
    if (has(a->grants, a->granted, x->c))
        return refused(ALREADY_THERE);
    if (!find_permission(d, x->c, &found))
        return refused(UNDEFINED);
    if (!has(a->uses, a->used, x->c) || found.level != DANGEROUS)
        return refused(CANNOT_BE_GRANTED);
    a->grants[a->granted++] = x->c;
    return done(0, 0);
}

static struct answer revoke(struct device *d, const struct action *x)
{
    struct app *a = find_app(d, x->b);
    struct permission found;

    if (a == NULL)
        return refused(NO_APP);
    if (!find_permission(d, x->c, &found))
        return refused(UNDEFINED);
    if (!has(a->grants, a->granted, x->c))
        return refused(NOTHING_TO_TAKE_BACK);
    KEEP(uint8_t, a->grants, a->granted, e != x->c);
    return done(0, 0);
}

static int lists_one_of(const struct device *d, const struct app *a, unsigned group)
{
    struct permission found;

    for (size_t i = 0; i < a->used; i++)
        if (find_permission(d, a->uses[i], &found) && found.level == DANGEROUS && found.group == group)
            return 1;
    return 0;
}

static struct answer grant_group(struct device *d, const struct action *x)
{
    struct app *a = find_app(d, x->b);

    if (a == NULL)
        return refused(NO_APP);
    if (has(a->groups, a->grouped, x->c))
        return refused(ALREADY_THERE);
    if (x->c < 1 || x->c > GROUPS)
        return refused(UNDEFINED);
    if (!lists_one_of(d, a, x->c))
        return refused(CANNOT_BE_GRANTED);
    a->groups[a->grouped++] = x->c;
    return done(0, 0);
}

static struct answer revoke_group(struct device *d, const struct action *x)
{
    struct app *a = find_app(d, x->b);

    if (a == NULL)
        return refused(NO_APP);
    if (x->c < 1 || x->c > GROUPS)
        return refused(UNDEFINED);
    if (!has(a->groups, a->grouped, x->c))
        return refused(NOTHING_TO_TAKE_BACK);
    KEEP(uint8_t, a->groups, a->grouped, e != x->c);
    return done(0, 0);
}

static struct answer start(struct device *d, const struct action *x)
{
    const struct component *component = find_component(d, x->b);

    if (component == NULL || component->kind == PROVIDER)
        return refused(NO_COMPONENT);
    if (x->c == 0) {
        if (!component->exported || component->kind != ACTIVITY)
            return refused(NOT_PERMITTED);
    } else {
        const struct app *caller = app_of(d, x->c);
        if (caller == NULL)
            return refused(NO_INSTANCE);
        if (caller->number != component->app && !(component->exported && allows(d, caller, component->start)))
            return refused(NOT_PERMITTED);
    }
    if (d->instance_count == INSTANCES)
        return refused(NO_ROOM);

    unsigned free_bit = __builtin_ctzll(~d->running);
    d->running |= (uint64_t)1 << free_bit;
    d->instances[d->instance_count++] = (struct instance){free_bit + 1, component->number};
    return done(0, free_bit + 1);
}

static struct answer stop(struct device *d, struct loan *lent, const struct action *x)
{
    if (find_instance(d, x->c) == NULL)
        return refused(NO_INSTANCE);
    d->running &= ~((uint64_t)1 << (x->c - 1));
    KEEP(struct instance, d->instances, d->instance_count, e.number != x->c);
    KEEP(struct loan, lent, d->loan_count, !(e.kind == TO_INSTANCE && e.receiver == x->c));
    return done(0, 0);
}

static struct answer read_or_write(struct device *d, const struct loan *lent, const struct action *x)
{
    struct use use;
    unsigned missing = find_use(d, x, &use);

    if (missing != 0)
        return refused(missing);
    unsigned by = ground(d, lent, x, &use, x->code == READ ? READING : WRITING);
    if (by == 0)
        return refused(NOT_PERMITTED);
    if (x->code == WRITE)
        use.resource->value = x->e;
    return done(by, use.resource->value);
}

static struct loan *find_loan(const struct device *d, struct loan *lent, const struct action *x, unsigned kind)
{
    for (size_t i = 0; i < d->loan_count; i++)
        if (lent[i].kind == kind && lent[i].receiver == x->e && is_on(&lent[i], x))
            return &lent[i];
    return NULL;
}

static struct answer lend(struct device *d, struct loan *lent, const struct action *x)
{
    unsigned kind = x->code == LEND_TO_APP ? TO_APP : TO_INSTANCE;
    struct use use;
    unsigned missing = find_use(d, x, &use);

    if (kind == TO_APP && find_app(d, x->e) == NULL)
        return refused(NO_APP);
    if (kind == TO_INSTANCE && missing != NO_COMPONENT && find_instance(d, x->e) == NULL)
        return refused(NO_INSTANCE);
    if (missing != 0)
        return refused(missing);
    if (!use.provider->shares || (x->a & READING && ground(d, lent, x, &use, READING) == 0)
        || (x->a & WRITING && ground(d, lent, x, &use, WRITING) == 0))
        return refused(NOT_PERMITTED);
    struct loan *loan = find_loan(d, lent, x, kind);
    if (loan != NULL) {
        loan->operations |= x->a;
        return done(0, 0);
    }
    if (d->loan_count == LOANS)
        return refused(NO_ROOM);
    lent[d->loan_count++] = (struct loan){kind, x->a, x->e, x->b, x->d};
    return done(0, 0);
}

static struct answer withdraw(struct device *d, struct loan *lent, const struct action *x)
{
    struct use use;
    unsigned missing = find_use(d, x, &use);

    if (missing != 0)
        return refused(missing);
    if ((x->a & READING && ground_by_right(d, &use, READING) == 0)
        || (x->a & WRITING && ground_by_right(d, &use, WRITING) == 0))
        return refused(NOT_PERMITTED);
    for (size_t i = 0; i < d->loan_count; i++)
        if (is_on(&lent[i], x))
            lent[i].operations &= ~x->a;
    KEEP(struct loan, lent, d->loan_count, e.operations != 0);
    return done(0, 0);
}

static struct answer ask(const struct device *d, const struct action *x)
{
    const struct app *a = find_app(d, x->b);
    struct permission found;

    if (a == NULL)
        return refused(NO_APP);
    if (!find_permission(d, x->c, &found))
        return refused(UNDEFINED);
    return done(0, holds(d, a, x->c));
}

static int well_formed(const struct action *x)
{
    enum { A = 1, B = 2, C = 4, D = 8, E = 16 };
    static const uint8_t listed[] = {
        [INSTALL] = A | B, [UNINSTALL] = B, [GRANT] = B | C, [REVOKE] = B | C, [GRANT_GROUP] = B | C,
        [REVOKE_GROUP] = B | C, [START] = B | C, [STOP] = C, [READ] = B | C | D, [WRITE] = B | C | D | E,
        [LEND_TO_INSTANCE] = A | B | C | D | E, [LEND_TO_APP] = A | B | C | D | E, [WITHDRAW] = A | B | C | D,
        [ASK] = B | C};

    if (x->code < INSTALL || x->code > ASK)
        return 0;
    unsigned used = (x->a ? A : 0) | (x->b ? B : 0) | (x->c ? C : 0) | (x->d ? D : 0) | (x->e ? E : 0);
    if (used & ~listed[x->code])
        return 0;
    if (x->code == INSTALL)
        return x->a <= 1;
    return x->code < LEND_TO_INSTANCE || x->code > WITHDRAW || (x->a >= 1 && x->a <= 3);
}

struct answer act(struct device *d, struct loan lent[LOANS], struct bytes action, struct bytes manifest)
{
    if (action.length != 12)
        return refused(MALFORMED_ACTION);
    const uint8_t *at = action.at;
    struct action x = {at[0], at[1], u16(at + 2), u16(at + 4), u16(at + 6), u32(at + 8)};
    if (!well_formed(&x))
        return refused(MALFORMED_ACTION);
    switch (x.code) {
    case INSTALL:
        return install(d, &x, manifest);
    case UNINSTALL:
        return uninstall(d, lent, &x);
    case GRANT:
        return grant(d, &x);
    case REVOKE:
        return revoke(d, &x);
    case GRANT_GROUP:
        return grant_group(d, &x);
    case REVOKE_GROUP:
        return revoke_group(d, &x);
    case START:
        return start(d, &x);
    case STOP:
        return stop(d, lent, &x);
    case READ:
    case WRITE:
        return read_or_write(d, lent, &x);
    case LEND_TO_INSTANCE:
    case LEND_TO_APP:
        return lend(d, lent, &x);
    case WITHDRAW:
        return withdraw(d, lent, &x);
    default:
        return ask(d, &x);
    }
}
