/* The calls of one library, for `versions.c`: compiled with the header of the library's commit and linked with it to one object, of which VERSION is
 * the only name. A fresh table has capacity 128 and is cabin 0's, where there are cabins. */
#include "version.h"
#include "telephone.h"
#include <string.h>

static struct answer answer(plan_reply reply)
{
    return (struct answer){reply.refusal, reply.first, reply.second};
}

/* Whether library and header have one edition. */
static uint16_t fits(void)
{
    return plan_edition() == PLAN_EDITION;
}

static struct answer fresh(void *table)
{
#if PLAN_EDITION < 4
    return answer(plan_fresh(table, 128));
#else
    plan_quota quotas[PLAN_CABINS];
    plan_sole_quotas(quotas, 128);
    return answer(plan_fresh(table, 128, quotas));
#endif
}

static struct answer edit(void *table, struct edit e)
{
    switch (e.call) {
    case 1:
#if PLAN_EDITION < 4
        return answer(plan_add(table, e.a, e.b, e.c, e.d));
#else
        return answer(plan_add(table, e.a, e.b, e.c, e.d, 0));
#endif
    case 2:
        return answer(plan_link(table, e.a, e.b, e.c, e.d));
    default:
        return answer(plan_clear(table, e.a, e.b));
    }
}

static uint16_t is_sound(const void *table)
{
    return plan_is_sound(table);
}

static struct answer key_line(void *table, const char *line)
{
    return answer(plan_key_line(table, (const uint8_t *)line, strlen(line)));
}

extern const struct version VERSION;
const struct version VERSION = {sizeof(plan_table), fits, fresh, edit, is_sound, key_line};
