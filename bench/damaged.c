/* Holds the validity test in plain C to its job: damages a valid device in one place at a time, at the edge of each
 * clause of document 01, "A valid state". Says which damage is not seen; exit status 1 where one is not. */
#include <stdio.h>

#include "monitor.h"

struct world {
    struct device d;
    struct loan lent[LOANS];
};

static const struct world good = {
    .d = {
        .app_count = 2,
        .apps = {
            {.number = 10, .signer = 5, .used = 3, .uses = {2, 3, 16}, .granted = 2, .grants = {16, 3}, .grouped = 2,
             .groups = {4, 1}},
            {.number = 11, .signer = 6, .image = 1, .used = 1, .uses = {18}},
        },
        .definition_count = 3,
        .definitions = {{10, 16, DANGEROUS, 4}, {10, 17, NORMAL, 0}, {11, 18, DANGEROUS, 0}},
        .component_count = 4,
        .components = {{10, 100, ACTIVITY, 1, 0, 16, 0, 0}, {10, 101, PROVIDER, 1, 1, 0, 16, 18},
                       {11, 110, SERVICE, 0, 0, 0, 0, 0}, {11, 111, PROVIDER, 1, 0, 0, 0, 0}},
        .resource_count = 3,
        .resources = {{101, 1, 0}, {101, 2, 7}, {111, 1, 9}},
        .instance_count = 2,
        .instances = {{1, 100}, {3, 110}},
        .running = 5,
        .loan_count = 2,
    },
    .lent = {{TO_INSTANCE, 3, 3, 101, 1}, {TO_APP, 1, 11, 101, 1}},
};

static int is_seen(const struct world *w, const char *damage)
{
    int seen = !valid(&w->d, w->lent);

    if (!seen)
        printf("not seen: %s\n", damage);
    return seen;
}

#define DAMAGED(...) do { \
        struct world w = good; \
        __VA_ARGS__; \
        all &= is_seen(&w, #__VA_ARGS__); \
    } while (0)

static int apps_are_seen(void)
{
    int all = 1;

    DAMAGED(w.d.app_count = 17);
    DAMAGED(w.d.app_count = 3, w.d.apps[2].signer = 7, w.d.apps[2].number = 10);
    DAMAGED(w.d.app_count = 3, w.d.apps[2].signer = 7);
    DAMAGED(w.d.apps[1].signer = 0);
    DAMAGED(w.d.apps[2].signer = 1);
    DAMAGED(w.d.apps[2].image = 1);
    DAMAGED(w.d.apps[15].groups[14] = 1);
    DAMAGED(w.d.apps[0].used = 33);
    DAMAGED(w.d.apps[0].uses[0] = 0);
    DAMAGED(w.d.apps[1].uses[0] = 64);
    DAMAGED(w.d.apps[0].uses[0] = 3);
    DAMAGED(w.d.apps[0].uses[0] = 4);
    DAMAGED(w.d.apps[0].uses[3] = 17);
    DAMAGED(w.d.apps[0].granted = 33);
    DAMAGED(w.d.apps[0].grants[1] = 16);
    DAMAGED(w.d.apps[0].grants[1] = 4);
    DAMAGED(w.d.apps[0].grants[1] = 2);
    DAMAGED(w.d.apps[0].uses[0] = 1, w.d.apps[0].uses[1] = 9, w.d.apps[0].grants[1] = 9);
    DAMAGED(w.d.apps[0].grants[2] = 2);
    DAMAGED(w.d.apps[0].grouped = 16);
    DAMAGED(w.d.apps[0].groups[0] = 0);
    DAMAGED(w.d.apps[0].groups[0] = 16);
    DAMAGED(w.d.apps[0].groups[0] = 1);
    DAMAGED(w.d.apps[0].groups[2] = 2);
    return all;
}

static int definitions_are_seen(void)
{
    int all = 1;

    DAMAGED(w.d.definition_count = 257);
    DAMAGED(w.d.definitions[3].level = 1);
    DAMAGED(w.d.definitions[2].app = 12);
    DAMAGED(w.d.definitions[2].permission = 17);
    DAMAGED(w.d.definitions[2].permission = 15);
    DAMAGED(w.d.definitions[2].permission = 64);
    DAMAGED(w.d.definitions[1].level = 4);
    DAMAGED(w.d.definitions[0].group = 16);
    DAMAGED(w.d.definitions[1].group = 1);
    DAMAGED(w.d.definitions[0].permission = 19);
    DAMAGED(w.d.definition_count = 19;
            for (int i = 3; i < 19; i++) w.d.definitions[i] = (struct definition){10, 16 + i, NORMAL, 0});
    return all;
}

static int components_are_seen(void)
{
    int all = 1;

    DAMAGED(w.d.component_count = 65);
    DAMAGED(w.d.components[4].kind = 1);
    DAMAGED(w.d.component_count = 6, w.d.components[4] = (struct component){11, 120, ACTIVITY, 0, 0, 0, 0, 0},
            w.d.components[5] = (struct component){10, 120, ACTIVITY, 0, 0, 0, 0, 0});
    DAMAGED(w.d.components[0].number = 0);
    DAMAGED(w.d.components[2].app = 12);
    DAMAGED(w.d.components[3].number = 109);
    DAMAGED(w.d.component_count = 19;
            for (int i = 4; i < 19; i++) w.d.components[i] = (struct component){11, 110 + i, ACTIVITY, 0, 0, 0, 0, 0});
    DAMAGED(w.d.components[0].kind = 0);
    DAMAGED(w.d.components[0].kind = 5);
    DAMAGED(w.d.components[0].exported = 2);
    DAMAGED(w.d.components[1].shares = 2);
    DAMAGED(w.d.components[0].start = 64);
    DAMAGED(w.d.components[1].read = 64);
    DAMAGED(w.d.components[1].write = 64);
    DAMAGED(w.d.components[1].start = 1);
    DAMAGED(w.d.components[0].shares = 1);
    DAMAGED(w.d.components[0].read = 1);
    DAMAGED(w.d.components[0].write = 1);
    return all;
}

static int resources_are_seen(void)
{
    int all = 1;

    DAMAGED(w.d.resource_count = 129);
    DAMAGED(w.d.resources[3].value = 1);
    DAMAGED(w.d.resources[1].uri = 1);
    DAMAGED(w.d.resources[2].provider = 112);
    DAMAGED(w.d.resources[2].provider = 110);
    DAMAGED(w.d.resources[2].uri = 0);
    DAMAGED(w.d.resources[0].uri = 3, w.lent[0].uri = 3, w.lent[1].uri = 3);
    DAMAGED(w.d.resource_count = 35;
            for (int i = 3; i < 35; i++) w.d.resources[i] = (struct resource){111, i, 0});
    return all;
}

static int instances_are_seen(void)
{
    int all = 1;

    DAMAGED(w.d.instance_count = 65);
    DAMAGED(w.d.instances[2].component = 100);
    DAMAGED(w.d.instances[0].number = 0);
    DAMAGED(w.d.instances[0].number = 65);
    DAMAGED(w.d.instances[0].number = 3, w.d.running = 4);
    DAMAGED(w.d.instances[0].component = 101);
    DAMAGED(w.d.instances[0].component = 102);
    DAMAGED(w.d.running = 7);
    DAMAGED(w.d.running = 4);
    DAMAGED(w.d.running = 0);
    return all;
}

static int loans_are_seen(void)
{
    int all = 1;

    DAMAGED(w.d.loan_count = 129);
    DAMAGED(w.lent[2].operations = 1);
    DAMAGED(w.lent[0].operations = 0);
    DAMAGED(w.lent[0].operations = 4);
    DAMAGED(w.lent[0].kind = 0);
    DAMAGED(w.lent[0].kind = 3);
    DAMAGED(w.lent[0].receiver = 2);
    DAMAGED(w.lent[1].receiver = 12);
    DAMAGED(w.lent[0].uri = 3);
    DAMAGED(w.lent[0].provider = 111);
    DAMAGED(w.lent[0].kind = TO_APP, w.lent[0].receiver = 11);
    return all;
}

int main(void)
{
    if (!valid(&good.d, good.lent)) {
        printf("the device that is damaged is not valid itself\n");
        return 1;
    }
    int all = apps_are_seen();
    all &= definitions_are_seen();
    all &= components_are_seen();
    all &= resources_are_seen();
    all &= instances_are_seen();
    all &= loans_are_seen();
    return all ? 0 : 1;
}
