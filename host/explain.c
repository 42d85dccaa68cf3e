/* explain: the rule behind a code, what usually causes it, and what to do. */
#include "commands.h"
#include "rules.h"
#include "scanboot.h"
#include "text.h"

#include <string.h>

enum { WIDTH = 79, INDENT = 2 };

/* Words in lines of the screen's width, each a little from the margin. */
static void add_paragraph(struct text *text, const char *words)
{
    size_t column = 0;
    while (*words != '\0') {
        size_t length = strcspn(words, " ");
        if (column > 0 && column + 1 + length > WIDTH) {
            add(text, "\n");
            column = 0;
        }
        add(text, "%*s%.*s", column > 0 ? 1 : INDENT, "", (int)length, words);
        column += (column > 0 ? 1 : INDENT) + length;
        words += length + strspn(words + length, " ");
    }
    add(text, "\n");
}

static void add_rule(struct text *text, const struct rule *rule)
{
    add(text, "%u %s\n", rule->code, rule->name);
    add_paragraph(text, scanboot_text(rule->code));
    add(text, "The rule\n");
    add_paragraph(text, rule->says);
    add(text, "What usually causes it\n");
    add_paragraph(text, rule->cause);
    add(text, "What to do\n");
    add_paragraph(text, rule->cure);
}

void explain(const struct words *words)
{
    struct text text = { NULL, 0, 0 };
    const char *code = words->file[0];
    if (code != NULL) {
        const struct rule *rule = rule_called(code);
        if (rule == NULL)
            misused("no such code: ", code);
        add_rule(&text, rule);
    }
    for (const struct rule *rule = rules; code == NULL && rule->name != NULL; rule++) {
        if (rule != rules)
            add(&text, "\n");
        add_rule(&text, rule);
    }
    write_output(as_bytes(text));
}
