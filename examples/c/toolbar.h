/* The toolbar page of README.md, and what the programs beside this file share. */
#ifndef TOOLBAR_H
#define TOOLBAR_H

#include <inttypes.h>
#include <stdio.h>
#include <stdlib.h>
#include <string.h>

#include "../../crates/maugzeris_c/include/maugzeris.h"

static const char grammar_text[] =
    "root Window;\n"
    "interface Window { syn w, h; show w, h; }\n"
    "interface Item { inh x, y; syn w, h; show x, y, w, h; }\n"
    "class Bar : Window {\n"
    "  input gap;\n"
    "  items : [Item];\n"
    "  items.x := first 0 then prev.x + prev.w + self.gap;\n"
    "  items.y := 0;\n"
    "  self.w := fold items from 0 with max(acc, this.x + this.w);\n"
    "  self.h := fold items from 0 with max(acc, this.h);\n"
    "}\n"
    "class Button : Item {\n"
    "  input tw, th;\n"
    "  self.w := self.tw + 8;\n"
    "  self.h := self.th + 4;\n"
    "}\n";

static const char schedule_text[] =
    "bottomup { Item.w Item.h Window.h } ; topdown { Item.x Item.y } ; bottomup { Window.w }\n";

static const char document_text[] =
    "Bar { gap = 2 items = [ Button { tw = 30 th = 10 } Button { tw = 12 th = 14 } ] }\n";

static const char boxes_text[] =
    "0 Bar w=60 h=18\n"
    "1 Button x=0 y=0 w=38 h=14\n"
    "2 Button x=40 y=0 w=20 h=18\n";

static inline const uint8_t *bytes(const char *text) { return (const uint8_t *)text; }

static inline uint32_t read_grammar(struct maugzeris_context *context, const char *text, uint32_t *grammar)
{
    return maugzeris_grammar_new(context, bytes(text), strlen(text), MAUGZERIS_NARROW, grammar);
}

static inline uint32_t read_rules(struct maugzeris_context *context, uint32_t grammar, const char *text, uint32_t *rules)
{
    return maugzeris_rules_new(context, grammar, false, bytes(text), strlen(text), rules);
}

static inline uint32_t find_rules(struct maugzeris_context *context, uint32_t grammar, uint32_t *rules)
{
    return maugzeris_rules_new(context, grammar, true, bytes(""), 0, rules);
}

static inline uint32_t read_page(struct maugzeris_context *context, uint32_t rules, const char *text, uint32_t *page)
{
    return maugzeris_page_new(context, rules, bytes(text), strlen(text), page);
}

static inline uint32_t find_attribute(struct maugzeris_context *context, uint32_t page, uint32_t node, const char *name,
                                      uint32_t *attribute)
{
    return maugzeris_page_attribute(context, page, node, bytes(name), strlen(name), attribute);
}

/* Ends the program where something is not as it should be. */
static inline void hold(const char *what, bool holds)
{
    if (!holds) {
        fprintf(stderr, "not so: %s\n", what);
        exit(1);
    }
}

#endif
