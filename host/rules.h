/* The rules behind the codes, in words. */
#ifndef RULES_H
#define RULES_H

struct rule {
    unsigned code;
    const char *name;  /* as scanboot.h has it */
    const char *says;  /* what the rule is */
    const char *cause; /* what usually has gone wrong */
    const char *cure;  /* what to do then */
};

/* The rule of a code, given as a number or by its name in scanboot.h, also without the
 * SCANBOOT_ before it; NULL if there is none. */
const struct rule *rule_called(const char *code);

/* All of them by ascending code, and behind the last one without a name. */
extern const struct rule rules[];

#endif
