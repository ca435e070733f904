/* 64 threads, each with a context of its own, lay a page out and change it two hundred times. */
#include <pthread.h>

#include "toolbar.h"

enum { THREADS = 64, CHANGES = 200 };

/* Static, so that the grammars and rules, which stay, can be reached until the program ends. */
static struct maugzeris_context contexts[THREADS];

static void *lay_out(void *place)
{
    struct maugzeris_context *context = place;
    int number = (int)(context - contexts);
    uint32_t grammar, rules, page, text_width, width;
    size_t touched;
    int64_t value;
    hold("context", maugzeris_context_new(context) == MAUGZERIS_OK);
    hold("grammar", read_grammar(context, grammar_text, &grammar) == MAUGZERIS_OK);
    hold("rules", find_rules(context, grammar, &rules) == MAUGZERIS_OK);
    hold("page", read_page(context, rules, document_text, &page) == MAUGZERIS_OK);
    hold("laid out", maugzeris_page_lay_out(context, page) == MAUGZERIS_OK);
    hold("tw", find_attribute(context, page, 1, "tw", &text_width) == MAUGZERIS_OK);
    hold("w", find_attribute(context, page, 0, "w", &width) == MAUGZERIS_OK);
    for (int k = 0; k < CHANGES; k++) {
        /* The bar is as wide as its two buttons, 8 wider than their texts, and the gap of 2. */
        int64_t wanted = 31 + number + k;
        hold("set", maugzeris_page_set_input(context, page, 1, text_width, wanted) == MAUGZERIS_OK);
        hold("relayout", maugzeris_page_relayout(context, page, &touched) == MAUGZERIS_OK);
        hold("value", maugzeris_page_value(context, page, 0, width, &value) == MAUGZERIS_OK && value == wanted + 30);
    }
    hold("free", maugzeris_page_free(context, page) == MAUGZERIS_OK);
    return NULL;
}

int main(void)
{
    pthread_t threads[THREADS];
    for (int k = 0; k < THREADS; k++)
        hold("a thread starts", pthread_create(&threads[k], NULL, lay_out, &contexts[k]) == 0);
    for (int k = 0; k < THREADS; k++)
        hold("a thread ends", pthread_join(threads[k], NULL) == 0);
    printf("%d threads hold\n", THREADS);
    return 0;
}
