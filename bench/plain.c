#include "plain.h"

enum { DANGEROUS = 1, PROVIDER = 4 };

/* A section's entries, which begin after its count. */
struct section {
    const uint8_t *entries;
    size_t count;
};

static unsigned u16(const uint8_t *at)
{
    return at[0] | (unsigned)at[1] << 8;
}

/* Takes the section at *at, of at most `most` entries of `size` bytes, and steps past it. Answers 0 where it is cut. */
static int take(const uint8_t **at, const uint8_t *end, size_t most, size_t size, struct section *section)
{
    if (*at == end || **at > most)
        return 0;
    section->count = **at;
    section->entries = *at + 1;
    if ((size_t)(end - section->entries) < section->count * size)
        return 0;
    *at = section->entries + section->count * size;
    return 1;
}

static int good_uses(struct section uses)
{
    const uint8_t *use = uses.entries;
    unsigned before = 0;

    for (size_t i = 0; i < uses.count; i++, use++) {
        if (*use <= before || *use > 63)
            return 0;
        before = *use;
    }
    return 1;
}

static int good_defines(struct section defines)
{
    const uint8_t *define = defines.entries;
    unsigned before = 15;

    for (size_t i = 0; i < defines.count; i++, define += 3) {
        unsigned permission = define[0], level = define[1], group = define[2];
        if (permission <= before || permission > 63 || level > 3 || group > 15)
            return 0;
        if (group != 0 && level != DANGEROUS)
            return 0;
        before = permission;
    }
    return 1;
}

static int good_components(struct section components)
{
    const uint8_t *component = components.entries;
    unsigned before = 0;

    for (size_t i = 0; i < components.count; i++, component += 8) {
        unsigned kind = component[2], exported = component[3], shares = component[4];
        unsigned start = component[5], read = component[6], write = component[7];
        if (u16(component) <= before || kind < 1 || kind > 4 || exported > 1 || shares > 1)
            return 0;
        if (start > 63 || read > 63 || write > 63)
            return 0;
        if (kind == PROVIDER ? start != 0 : (shares | read | write) != 0)
            return 0;
        before = u16(component);
    }
    return 1;
}

/* Both sections rise, so the providers are looked for in one walk. */
static int good_resources(struct section resources, struct section components)
{
    const uint8_t *resource = resources.entries;
    const uint8_t *component = components.entries;
    const uint8_t *last = component + 8 * components.count;
    uint32_t before = 0;

    for (size_t i = 0; i < resources.count; i++, resource += 8) {
        unsigned provider = u16(resource), uri = u16(resource + 2);
        uint32_t key = (uint32_t)provider << 16 | uri;
        if (uri == 0 || key <= before)
            return 0;
        while (component != last && u16(component) < provider)
            component += 8;
        if (component == last || u16(component) != provider || component[2] != PROVIDER)
            return 0;
        before = key;
    }
    return 1;
}

uint32_t plain_check(const uint8_t *bytes, size_t length)
{
    struct section uses, defines, components, resources;

    if (length < 6 || u16(bytes) == 0 || (u16(bytes + 2) | u16(bytes + 4)) == 0)
        return 3;
    const uint8_t *end = bytes + length;
    const uint8_t *at = bytes + 6;
    if (!take(&at, end, 32, 1, &uses) || !good_uses(uses))
        return 3;
    if (!take(&at, end, 16, 3, &defines) || !good_defines(defines))
        return 3;
    if (!take(&at, end, 16, 8, &components) || !good_components(components))
        return 3;
    if (!take(&at, end, 32, 8, &resources) || !good_resources(resources, components))
        return 3;
    return at == end ? 0 : 3;
}
