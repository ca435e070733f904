/* Asks for what there is not, and holds each status, and what the caller's places hold then, against what the header says:
   wrong numbers, second frees, texts that are refused, numbers that are not taken, buffers that are too small. */
#include "toolbar.h"

static struct maugzeris_context context = MAUGZERIS_CONTEXT_NONE;

static void no_context(void)
{
    uint32_t number = 77;
    size_t length = 77;
    uint8_t byte = 77;
    hold("nothing to free", maugzeris_context_free(&context) == MAUGZERIS_WRONG);
    hold("no context for a grammar", read_grammar(&context, grammar_text, &number) == MAUGZERIS_WRONG && number == 77);
    hold("no context for a page", read_page(&context, 0, document_text, &number) == MAUGZERIS_WRONG && number == 77);
    hold("no context for boxes", maugzeris_page_boxes(&context, 0, &byte, 1, &length) == MAUGZERIS_WRONG);
    hold("no context for a refusal", maugzeris_refusal(&context, &byte, 1, &length) == MAUGZERIS_WRONG);
    hold("nothing was written", byte == 77 && length == 77);
}

static void refusal_is(const char *line)
{
    uint8_t text[256];
    size_t length = 0;
    hold("a refusal is told", maugzeris_refusal(&context, text, sizeof text, &length) == MAUGZERIS_OK);
    hold(line, length == strlen(line) && memcmp(text, line, length) == 0);
    uint8_t small[1] = {77};
    hold("a line without room", length == 0 || maugzeris_refusal(&context, small, 0, &length) == MAUGZERIS_NO_ROOM);
    hold("its length is told", length == strlen(line) && small[0] == 77);
}

static void refused_texts(uint32_t grammar, uint32_t rules)
{
    static const uint8_t not_text[] = {'r', 0xff};
    uint32_t number = 77;
    refusal_is("");
    hold("a grammar", read_grammar(&context, "root R, interface R { }\n", &number) == MAUGZERIS_GRAMMAR_REFUSED);
    refusal_is("refused grammar: syntax at 6\n");
    hold("a schedule", read_rules(&context, grammar, "bottomup { Item.w }", &number) == MAUGZERIS_SCHEDULE_REFUSED);
    hold("a document", read_page(&context, rules, "Bar { }", &number) == MAUGZERIS_DOCUMENT_REFUSED);
    refusal_is("refused document: node 0 field gap missing\n");
    hold("bytes", maugzeris_page_new(&context, rules, not_text, sizeof not_text, &number) == MAUGZERIS_TEXT_REFUSED);
    refusal_is("refused page: not UTF-8\n");
    hold("no number was written", number == 77);
}

static void wrong_numbers(uint32_t grammar, uint32_t rules, uint32_t page)
{
    uint32_t number = 77;
    size_t count = 77;
    int64_t value = 77;
    hold("no width", maugzeris_grammar_new(&context, bytes(grammar_text), strlen(grammar_text), 2, &number) == MAUGZERIS_WRONG);
    hold("no grammar", find_rules(&context, grammar + 1, &number) == MAUGZERIS_WRONG);
    hold("no rules", read_page(&context, rules + 1, document_text, &number) == MAUGZERIS_WRONG);
    hold("no page", maugzeris_page_node_count(&context, page + 1, &number) == MAUGZERIS_WRONG);
    hold("no such page to free", maugzeris_page_free(&context, UINT32_MAX) == MAUGZERIS_WRONG);
    hold("no node", find_attribute(&context, page, 3, "w", &number) == MAUGZERIS_WRONG);
    hold("no name", find_attribute(&context, page, 1, "gap", &number) == MAUGZERIS_WRONG);
    hold("not laid out", maugzeris_page_value(&context, page, 0, 0, &value) == MAUGZERIS_WRONG);
    hold("not laid out for a relayout", maugzeris_page_relayout(&context, page, &count) == MAUGZERIS_WRONG);
    hold("nothing was written", number == 77 && count == 77 && value == 77);
}

static void inputs(uint32_t page)
{
    uint32_t width, text_width;
    hold("w", find_attribute(&context, page, 1, "w", &width) == MAUGZERIS_OK);
    hold("tw", find_attribute(&context, page, 1, "tw", &text_width) == MAUGZERIS_OK);
    hold("no input", maugzeris_page_set_input(&context, page, 1, width, 1) == MAUGZERIS_NOT_TAKEN);
    hold("no input there", maugzeris_page_set_input(&context, page, 0, text_width, 1) == MAUGZERIS_NOT_TAKEN);
    hold("too great", maugzeris_page_set_input(&context, page, 1, text_width, 2147483648) == MAUGZERIS_NOT_TAKEN);
    hold("too small", maugzeris_page_set_input(&context, page, 1, text_width, -2147483648) == MAUGZERIS_NOT_TAKEN);
    hold("greatest", maugzeris_page_set_input(&context, page, 1, text_width, 2147483647) == MAUGZERIS_OK);
}

static void values(uint32_t page)
{
    uint32_t width, number;
    size_t touched, length = 0;
    int64_t value = 0;
    uint8_t text[256], small[9];
    memset(small, 77, sizeof small);
    hold("lay out", maugzeris_page_lay_out(&context, page) == MAUGZERIS_OK);
    hold("lay out twice", maugzeris_page_lay_out(&context, page) == MAUGZERIS_OK);
    hold("count", maugzeris_page_node_count(&context, page, &number) == MAUGZERIS_OK && number == 3);
    hold("w", find_attribute(&context, page, 0, "w", &width) == MAUGZERIS_OK);
    hold("as read", maugzeris_page_value(&context, page, 0, width, &value) == MAUGZERIS_OK && value == 60);
    hold("a small buffer", maugzeris_page_boxes(&context, page, small, sizeof small, &length) == MAUGZERIS_NO_ROOM);
    hold("the length", length == strlen(boxes_text) && small[0] == 77 && small[8] == 77);
    hold("just room", maugzeris_page_boxes(&context, page, text, length, &length) == MAUGZERIS_OK);
    hold("boxes", length == strlen(boxes_text) && memcmp(text, boxes_text, length) == 0);
    hold("relayout", maugzeris_page_relayout(&context, page, &touched) == MAUGZERIS_OK);
    /* w of the first button, x of the second, and w of the bar have reads with another value */
    hold("touched", touched == 3);
    hold("overflow", maugzeris_page_value(&context, page, 0, width, &value) == MAUGZERIS_OVERFLOW && value == 60);
    hold("boxes overflow", maugzeris_page_boxes(&context, page, text, sizeof text, &length) == MAUGZERIS_OVERFLOW);
    hold("told", length > 18 && memcmp(text, "0 Bar w=overflow h", 18) == 0);
    hold("no such attribute", maugzeris_page_value(&context, page, 0, UINT32_MAX, &value) == MAUGZERIS_WRONG);
    hold("no such node", maugzeris_page_value(&context, page, 3, width, &value) == MAUGZERIS_WRONG && value == 60);
}

int main(void)
{
    uint32_t grammar, rules, page, other;
    no_context();
    hold("a context", maugzeris_context_new(&context) == MAUGZERIS_OK);
    hold("one is there", maugzeris_context_new(&context) == MAUGZERIS_WRONG);
    hold("a grammar", read_grammar(&context, grammar_text, &grammar) == MAUGZERIS_OK);
    hold("rules", read_rules(&context, grammar, schedule_text, &rules) == MAUGZERIS_OK);
    hold("a page", read_page(&context, rules, document_text, &page) == MAUGZERIS_OK);
    refused_texts(grammar, rules);
    wrong_numbers(grammar, rules, page);
    inputs(page);
    values(page);
    hold("free", maugzeris_page_free(&context, page) == MAUGZERIS_OK);
    hold("second free", maugzeris_page_free(&context, page) == MAUGZERIS_WRONG);
    hold("a page that was freed", maugzeris_page_lay_out(&context, page) == MAUGZERIS_WRONG);
    hold("another page", read_page(&context, rules, document_text, &other) == MAUGZERIS_OK && other != page);
    /* the context is freed with the page, and what is read of its grammar stays */
    hold("free all", maugzeris_context_free(&context) == MAUGZERIS_OK);
    no_context();
    hold("a new one", maugzeris_context_new(&context) == MAUGZERIS_OK);
    hold("without rules", read_page(&context, rules, document_text, &page) == MAUGZERIS_WRONG);
    printf("statuses hold\n");
    return 0;
}
