/* Refuses each allocation of each call in turn, once alone and once with all that follow. The call then has status 9, and
   what C holds is as before: its page has the same boxes and touched instances, and the same call succeeds.

   Linked with -Wl,--wrap=malloc -Wl,--wrap=realloc. */
#include "toolbar.h"

void *__real_malloc(size_t size);
void *__real_realloc(void *block, size_t size);
void *__wrap_malloc(size_t size);
void *__wrap_realloc(void *block, size_t size);

static bool counting, from_then_on;
static size_t left, refused;

static bool refuses(void)
{
    if (!counting)
        return false;
    if (left > 0) {
        left--;
        return false;
    }
    refused++;
    if (!from_then_on)
        counting = false;
    return true;
}

void *__wrap_malloc(size_t size) { return refuses() ? NULL : __real_malloc(size); }
void *__wrap_realloc(void *block, size_t size) { return refuses() ? NULL : __real_realloc(block, size); }

static struct maugzeris_context context = MAUGZERIS_CONTEXT_NONE;
static uint32_t grammar, rules, page = UINT32_MAX, text_width;
static size_t touched, length;

/* What can be asked of the page. */
struct shown {
    uint32_t statuses[3];
    uint8_t text[512], line[256];
    uint32_t instances[64];
    size_t lengths[3];
};

static struct shown show(void)
{
    struct shown it;
    memset(&it, 0, sizeof it);
    it.statuses[0] = maugzeris_page_boxes(&context, page, it.text, sizeof it.text, &it.lengths[0]);
    it.statuses[1] = maugzeris_page_touched(&context, page, it.instances, 64, &it.lengths[1]);
    it.statuses[2] = maugzeris_refusal(&context, it.line, sizeof it.line, &it.lengths[2]);
    return it;
}

static uint32_t new_context(void) { return maugzeris_context_new(&context); }
static uint32_t new_grammar(void) { return read_grammar(&context, grammar_text, &grammar); }
static uint32_t new_rules(void) { return read_rules(&context, grammar, schedule_text, &rules); }
static uint32_t new_automatic(void) { return find_rules(&context, grammar, &rules); }
static uint32_t new_page(void) { return read_page(&context, rules, document_text, &page); }
static uint32_t lay_out(void) { return maugzeris_page_lay_out(&context, page); }
static uint32_t relayout(void) { return maugzeris_page_relayout(&context, page, &touched); }

static uint32_t refuse_grammar(void)
{
    uint32_t none;
    return read_grammar(&context, "root R, interface R { }\n", &none);
}

static uint32_t refuse_document(void)
{
    uint32_t none;
    return read_page(&context, rules, "Bar { }", &none);
}

static uint32_t boxes(void)
{
    uint8_t text[512];
    return maugzeris_page_boxes(&context, page, text, sizeof text, &length);
}

static uint32_t set(void)
{
    return maugzeris_page_set_input(&context, page, 1, text_width, 40 + (int64_t)(refused % 3));
}

/* Makes the call, with its first, second, .. allocation refused, until none is left to refuse. */
static size_t refuse_each(const char *name, uint32_t (*call)(void), uint32_t wanted, bool on)
{
    for (size_t n = 0;; n++) {
        struct shown before = show();
        size_t so_far = refused;
        from_then_on = on;
        left = n;
        counting = true;
        uint32_t status = call();
        counting = false;
        if (refused == so_far) {
            hold(name, status == wanted);
            return n;
        }
        hold(name, status == MAUGZERIS_NO_MEMORY);
        struct shown after = show();
        hold("what C holds is as before", memcmp(&before, &after, sizeof before) == 0);
    }
}

static void refuse_all(bool on)
{
    size_t count = 0;
    count += refuse_each("context", new_context, MAUGZERIS_OK, on);
    count += refuse_each("grammar", new_grammar, MAUGZERIS_OK, on);
    count += refuse_each("grammar that is refused", refuse_grammar, MAUGZERIS_GRAMMAR_REFUSED, on);
    count += refuse_each("rules", new_rules, MAUGZERIS_OK, on);
    count += refuse_each("automatic rules", new_automatic, MAUGZERIS_OK, on);
    count += refuse_each("page", new_page, MAUGZERIS_OK, on);
    count += refuse_each("document that is refused", refuse_document, MAUGZERIS_DOCUMENT_REFUSED, on);
    count += refuse_each("lay out", lay_out, MAUGZERIS_OK, on);
    count += refuse_each("boxes", boxes, MAUGZERIS_OK, on);
    hold("tw", find_attribute(&context, page, 1, "tw", &text_width) == MAUGZERIS_OK);
    for (int k = 0; k < 20; k++)
        count += refuse_each("set", set, MAUGZERIS_OK, on);
    count += refuse_each("relayout", relayout, MAUGZERIS_OK, on);
    hold("touched", touched == 3);
    hold("freed", maugzeris_page_free(&context, page) == MAUGZERIS_OK);
    printf("%zu allocations refused, %s\n", count, on ? "each with all that follow" : "each alone");
}

int main(void)
{
    refuse_all(false);
    /* the context stays reachable, with what it read */
    static struct maugzeris_context first;
    first = context;
    context = (struct maugzeris_context)MAUGZERIS_CONTEXT_NONE;
    refuse_all(true);
    return first.live == 1 ? 0 : 1;
}
