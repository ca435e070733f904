/* Lays out the toolbar page of README.md, prints its boxes, makes the first button 10 wider, lays out anew, and prints
   what that touched and the boxes again. */
#include "toolbar.h"

/* Prints the line of a refusal, and ends the program. */
static void fail(struct maugzeris_context *context, const char *call, uint32_t status)
{
    uint8_t line[512];
    size_t length = 0;
    fprintf(stderr, "%s: status %" PRIu32 "\n", call, status);
    if (maugzeris_refusal(context, line, sizeof line, &length) == MAUGZERIS_OK)
        fwrite(line, 1, length, stderr);
    exit(1);
}

static void expect(struct maugzeris_context *context, const char *call, uint32_t status)
{
    if (status != MAUGZERIS_OK)
        fail(context, call, status);
}

/* Asks for the length first, then for the boxes. */
static void print_boxes(struct maugzeris_context *context, uint32_t page)
{
    uint8_t none;
    size_t length = 0;
    uint32_t status = maugzeris_page_boxes(context, page, &none, 0, &length);
    if (status != MAUGZERIS_NO_ROOM)
        fail(context, "boxes", status);
    uint8_t *text = malloc(length);
    if (text == NULL)
        fail(context, "boxes", MAUGZERIS_NO_MEMORY);
    expect(context, "boxes", maugzeris_page_boxes(context, page, text, length, &length));
    fwrite(text, 1, length, stdout);
    free(text);
}

static void print_touched(struct maugzeris_context *context, uint32_t page, size_t count)
{
    uint32_t *instances = malloc((count + 1) * sizeof *instances);
    if (instances == NULL)
        fail(context, "touched", MAUGZERIS_NO_MEMORY);
    expect(context, "touched", maugzeris_page_touched(context, page, instances, count, &count));
    printf("touched");
    for (size_t k = 0; k < count; k++)
        printf(" %" PRIu32, instances[k]);
    printf("\n");
    free(instances);
}

/* Static, so that the grammar and the rules, which stay, can be reached until the program ends. */
static struct maugzeris_context context = MAUGZERIS_CONTEXT_NONE;

int main(void)
{
    uint32_t grammar, rules, page, width;
    size_t touched;
    expect(&context, "context", maugzeris_context_new(&context));
    expect(&context, "grammar", read_grammar(&context, grammar_text, &grammar));
    expect(&context, "rules", find_rules(&context, grammar, &rules));
    expect(&context, "page", read_page(&context, rules, document_text, &page));
    expect(&context, "lay out", maugzeris_page_lay_out(&context, page));
    print_boxes(&context, page);
    expect(&context, "attribute", find_attribute(&context, page, 1, "tw", &width));
    expect(&context, "set", maugzeris_page_set_input(&context, page, 1, width, 40));
    expect(&context, "relayout", maugzeris_page_relayout(&context, page, &touched));
    print_touched(&context, page, touched);
    print_boxes(&context, page);
    expect(&context, "free", maugzeris_page_free(&context, page));
    return 0;
}
