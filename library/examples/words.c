/* words.c: a verdict in the words of `rvcfi verify` (docs/COMMANDS.md, docs/FORMATS.md). */
#include "words.h"

#include <inttypes.h>
#include <stdio.h>

static const char *const faults[] = {
    [RVCFI_SHORT] = "Short",
    [RVCFI_BYTE] = "Byte",
    [RVCFI_LONG] = "Long",
};

static const char *const reasons[] = {
    [RVCFI_FORM] = "Form",
    [RVCFI_RANGE] = "Range",
    [RVCFI_ORDER] = "Order",
};

static const char *const rules[] = {
    [RVCFI_RULE_LENGTH] = "Length",
    [RVCFI_RULE_PROLOGUE] = "Prologue",
    [RVCFI_RULE_UNIT] = "Unit",
    [RVCFI_RULE_TARGET] = "Target",
    [RVCFI_RULE_UNLISTED] = "Unlisted",
    [RVCFI_RULE_UNUSED] = "Unused",
    [RVCFI_RULE_SITE] = "Site",
    [RVCFI_RULE_GATE] = "Gate",
    [RVCFI_RULE_ASTRAY] = "Astray",
    [RVCFI_RULE_END] = "End",
    [RVCFI_RULE_LEAF] = "Leaf",
};

static void words_of_reject(const struct rvcfi_verdict *verdict, char words[WORDS_MOST])
{
    const char *rule = rules[verdict->reason];

    if (verdict->reason == RVCFI_RULE_LENGTH)
        snprintf(words, WORDS_MOST, "rejected %s %" PRIu64 " %" PRIu64, rule, verdict->first, verdict->second);
    else
        snprintf(words, WORDS_MOST, "rejected %s %08" PRIx64, rule, verdict->first);
}

void words_of_verdict(const struct rvcfi_verdict *verdict, char words[WORDS_MOST])
{
    switch (verdict->outcome) {
    case RVCFI_ACCEPTED:
        snprintf(words, WORDS_MOST, "accepted");
        break;
    case RVCFI_BAD_IMAGE:
        snprintf(words, WORDS_MOST, "refused 22 %s %" PRIu64, faults[verdict->reason], verdict->first);
        break;
    case RVCFI_BAD_GRAPH:
        snprintf(words, WORDS_MOST, "refused 23 Graph %" PRIu64 " %s", verdict->first, reasons[verdict->reason]);
        break;
    case RVCFI_REJECTED:
        words_of_reject(verdict, words);
        break;
    default:
        words[0] = '\0';
        break;
    }
}
