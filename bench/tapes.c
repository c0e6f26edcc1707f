/* Writes a tape that fills the device as far as the rules let, with 16 apps, 64 components, 48 definitions, 128
 * resources, 32 grants and 15 groups of each app, 64 instances and 128 loans, and then acts on the full device as the
 * word on the command line says: `full` not at all, `all` in all ways, another word of `repeated` by one action 1,024
 * times. The words `none` and `fresh` fill nothing: no action at all, and 1,024 on the fresh device. */
#include <stdint.h>
#include <stdio.h>
#include <string.h>

enum {
    INSTALL = 1, UNINSTALL, GRANT, REVOKE, GRANT_GROUP, REVOKE_GROUP, START, STOP, READ, WRITE, LEND_TO_INSTANCE,
    LEND_TO_APP, WITHDRAW, ASK
};
enum { ACTIVITY = 1, SERVICE, PROVIDER = 4, DANGEROUS = 1 };
enum { APPS = 16, DEFINES = 3, FIRST = 16, LAST_LISTED = 43, UNLISTED = 63, GROUPS = 15, RUNS = 4, URIS = 4 };
enum { TIMES = 1024, MOST_ACTIONS = 2048 };

struct text {
    uint8_t bytes[65536];
    size_t length;
};

struct action {
    unsigned code, a, b, c, d;
    uint32_t e;
};

static struct text manifests, actions;
static unsigned action_count;

static void put(struct text *text, uint32_t number, unsigned size)
{
    for (; size > 0; size--, number >>= 8)
        text->bytes[text->length++] = (uint8_t)number;
}

static void act(struct action x)
{
    put(&actions, x.code, 1);
    put(&actions, x.a, 1);
    put(&actions, x.b, 2);
    put(&actions, x.c, 2);
    put(&actions, x.d, 2);
    put(&actions, x.e, 4);
    action_count++;
}

/* ---- the numbers of app k, of its components, of its instances and of the app that it lends to */

static unsigned app(unsigned k)
{
    return 101 + k;
}

static unsigned component(unsigned k, unsigned i)
{
    return 1001 + 10 * k + i;
}

static unsigned activity(unsigned k)
{
    return component(k, 0);
}

static unsigned service(unsigned k)
{
    return component(k, 1);
}

/* Its permission is listed by all apps and granted to them. */
static unsigned open_provider(unsigned k)
{
    return component(k, 2);
}

/* Its permission is listed by none. */
static unsigned closed_provider(unsigned k)
{
    return component(k, 3);
}

static unsigned instance(unsigned k, unsigned i)
{
    return 1 + RUNS * k + i;
}

static unsigned borrower(unsigned k)
{
    return (k + APPS - 1) % APPS;
}

/* ---- manifests */

static void put_component(struct text *m, unsigned number, unsigned kind, unsigned permission)
{
    put(m, number, 2);
    put(m, kind, 1);
    put(m, 1, 1);
    put(m, kind == PROVIDER, 1);
    put(m, kind == PROVIDER ? 0 : permission, 1);
    put(m, kind == PROVIDER ? permission : 0, 1);
    put(m, kind == PROVIDER ? permission : 0, 1);
}

static void put_manifest(unsigned k)
{
    struct text m = {.length = 0};

    put(&m, app(k), 2);
    put(&m, 1001 + k, 4);
    put(&m, 32, 1);
    for (unsigned permission = 3; permission <= 6; permission++)
        put(&m, permission, 1);
    for (unsigned permission = FIRST; permission <= LAST_LISTED; permission++)
        put(&m, permission, 1);
    put(&m, DEFINES, 1);
    for (unsigned i = 0; i < DEFINES; i++) {
        put(&m, FIRST + DEFINES * k + i, 1);
        put(&m, DANGEROUS, 1);
        put(&m, 1 + (DEFINES * k + i) % GROUPS, 1);
    }
    put(&m, 4, 1);
    put_component(&m, activity(k), ACTIVITY, LAST_LISTED);
    put_component(&m, service(k), SERVICE, LAST_LISTED);
    put_component(&m, open_provider(k), PROVIDER, LAST_LISTED);
    put_component(&m, closed_provider(k), PROVIDER, UNLISTED);
    put(&m, 2 * URIS, 1);
    for (unsigned i = 0; i < 2 * URIS; i++) {
        put(&m, i < URIS ? open_provider(k) : closed_provider(k), 2);
        put(&m, 1 + i % URIS, 2);
        put(&m, 1000 * k + i, 4);
    }
    put(&manifests, m.length, 2);
    memcpy(manifests.bytes + manifests.length, m.bytes, m.length);
    manifests.length += m.length;
}

/* ---- filling */

static void install(unsigned k)
{
    act((struct action){.code = INSTALL, .a = k % 2, .b = k});
}

static void grant_all(unsigned k)
{
    for (unsigned permission = 3; permission <= 6; permission++)
        act((struct action){.code = GRANT, .b = app(k), .c = permission});
    for (unsigned permission = FIRST; permission <= LAST_LISTED; permission++)
        act((struct action){.code = GRANT, .b = app(k), .c = permission});
    for (unsigned group = 1; group <= GROUPS; group++)
        act((struct action){.code = GRANT_GROUP, .b = app(k), .c = group});
}

/* The first instance is started by the person, the others by the first. */
static void start(unsigned k, unsigned i)
{
    act((struct action){.code = START, .b = i < 2 ? activity(k) : service(k), .c = i == 0 ? 0 : instance(k, 0)});
}

/* A loan of both operations on a resource of app k, to an instance of the borrower and to the borrower. */
static void lend_to_instance(unsigned k, unsigned i)
{
    act((struct action){LEND_TO_INSTANCE, 3, closed_provider(k), instance(k, 3), 1 + i, instance(borrower(k), i)});
}

static void lend_to_app(unsigned k, unsigned i)
{
    act((struct action){LEND_TO_APP, 3, closed_provider(k), instance(k, 3), 1 + i, app(borrower(k))});
}

static void fill(void)
{
    for (unsigned k = 0; k < APPS; k++) {
        put_manifest(k);
        install(k);
    }
    for (unsigned k = 0; k < APPS; k++)
        grant_all(k);
    for (unsigned k = 0; k < APPS; k++)
        for (unsigned i = 0; i < RUNS; i++)
            start(k, i);
    for (unsigned k = 0; k < APPS; k++)
        for (unsigned i = 0; i < URIS; i++) {
            lend_to_instance(k, i);
            lend_to_app(k, i);
        }
}

/* ---- on the full device */

/* App k and its instances go and come back, with all that went with them. */
static void leave_and_come_back(unsigned k)
{
    for (unsigned i = 0; i < RUNS; i++)
        act((struct action){.code = STOP, .c = instance(k, i)});
    act((struct action){.code = UNINSTALL, .b = app(k)});
    install(k);
    grant_all(k);
    for (unsigned i = 0; i < RUNS; i++)
        start(k, i);
    for (unsigned i = 0; i < URIS; i++) {
        lend_to_instance(k, i);
        lend_to_app(k, i);
        lend_to_instance((k + 1) % APPS, i);
        lend_to_app((k + 1) % APPS, i);
    }
}

/* Actions of all kinds but uninstall on app k and the i-th of what it has; the device is as full after as before. */
static void act_in_turn(unsigned k, unsigned i)
{
    unsigned own = instance(k, 3), other = instance((k + 5) % APPS, i), lent_to = instance(borrower(k), i);
    unsigned by_app = instance(borrower(k), (i + 1) % RUNS), uri = 1 + i, permission = FIRST + (7 * k + i) % 28;

    act((struct action){.code = ASK, .b = app(k), .c = permission});
    act((struct action){.code = ASK, .b = app(k), .c = UNLISTED});
    act((struct action){.code = READ, .b = closed_provider(k), .c = own, .d = uri});
    act((struct action){.code = WRITE, .b = closed_provider(k), .c = own, .d = uri, .e = 77 + k});
    act((struct action){.code = READ, .b = open_provider(k), .c = other, .d = uri});
    act((struct action){.code = WRITE, .b = open_provider(k), .c = other, .d = uri, .e = 88 + k});
    act((struct action){.code = READ, .b = closed_provider(k), .c = lent_to, .d = uri});
    act((struct action){.code = WRITE, .b = closed_provider(k), .c = by_app, .d = uri, .e = 99 + k});
    act((struct action){.code = READ, .b = closed_provider(k), .c = other, .d = uri});
    lend_to_instance(k, i);
    act((struct action){LEND_TO_APP, 1, open_provider(k), own, uri, app(k)});
    act((struct action){.code = WITHDRAW, .a = 3, .b = closed_provider(k), .c = own, .d = uri});
    lend_to_instance(k, i);
    lend_to_app(k, i);
    act((struct action){.code = REVOKE, .b = app(k), .c = permission});
    act((struct action){.code = GRANT, .b = app(k), .c = permission});
    act((struct action){.code = REVOKE_GROUP, .b = app(k), .c = 1 + (k + i) % GROUPS});
    act((struct action){.code = GRANT_GROUP, .b = app(k), .c = 1 + (k + i) % GROUPS});
    act((struct action){.code = START, .b = activity(k)});
    act((struct action){.code = STOP, .c = lent_to});
    start(borrower(k), i);
    lend_to_instance(k, i);
    act((struct action){.code = INSTALL, .b = k});
}

static void act_in_all_ways(void)
{
    leave_and_come_back(APPS - 2);
    for (unsigned n = 0; action_count + 23 <= MOST_ACTIONS; n++)
        act_in_turn(n % APPS, 1 + n % (RUNS - 1));
}

/* The last app's, its last provider's and its last loan's: what a search meets last. The receiver of the loan is the
 * instance before. */
static const struct repeated {
    const char *word;
    struct action action;
} repeated[] = {
    {"malformed", {.code = 0}},
    {"ask", {.code = ASK, .b = 116, .c = LAST_LISTED}},
    {"read", {.code = READ, .b = 1154, .c = 60, .d = 4}},
    {"refused", {.code = READ, .b = 1154, .c = 1, .d = 4}},
    {"write", {.code = WRITE, .b = 1154, .c = 64, .d = 4, .e = 12345}},
    {"lend", {LEND_TO_INSTANCE, 3, 1154, 64, 4, 60}},
    {"fresh", {.code = 0}},
};

static void act_as(const char *word)
{
    for (size_t i = 0; i < sizeof repeated / sizeof *repeated; i++)
        if (strcmp(word, repeated[i].word) == 0)
            for (int n = 0; n < TIMES; n++)
                act(repeated[i].action);
    if (strcmp(word, "all") == 0)
        act_in_all_ways();
}

static int put_all(const struct text *text)
{
    return fwrite(text->bytes, 1, text->length, stdout) == text->length;
}

int main(int count, char **words)
{
    const char *word = count > 1 ? words[1] : "full";

    int fills = strcmp(word, "fresh") != 0 && strcmp(word, "none") != 0;

    put(&manifests, fills ? APPS : 0, 1);
    if (fills)
        fill();
    act_as(word);
    put(&manifests, action_count, 2);
    return put_all(&manifests) && put_all(&actions) && fflush(stdout) == 0 ? 0 : 1;
}
