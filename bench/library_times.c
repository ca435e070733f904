/* Times calls of the static library for bench/library.py, which gives it the names of files with a grammar, a document and,
   for each instance, how many kids its rule goes over, and on standard input a line NODE NAME VALUE for each change. Prints the milliseconds of reading, of laying out and of
   the boxes, and for the first, the middle and the last third of the changes, and for all, the mean microseconds of a call
   of maugzeris_page_set_input with one of maugzeris_page_relayout, and the mean count of touched instances. */
#include <inttypes.h>
#include <stdio.h>
#include <stdlib.h>
#include <string.h>
#include <time.h>

#include "../crates/maugzeris_c/include/maugzeris.h"

struct change {
    uint32_t node, attribute;
    int64_t value;
};

/* How many instances a page has at most. */
#define MOST (1u << 25)

static uint32_t kids_of[MOST];

static struct maugzeris_context context = MAUGZERIS_CONTEXT_NONE;

static void done(const char *what, uint32_t status)
{
    if (status == MAUGZERIS_OK || status == MAUGZERIS_OVERFLOW)
        return;
    fprintf(stderr, "%s: status %" PRIu32 "\n", what, status);
    exit(1);
}

static double seconds(void)
{
    struct timespec now;
    clock_gettime(CLOCK_PROCESS_CPUTIME_ID, &now);
    return (double)now.tv_sec + (double)now.tv_nsec / 1e9;
}

static uint8_t *text_of(const char *path, size_t *length)
{
    FILE *file = fopen(path, "rb");
    if (file == NULL || fseek(file, 0, SEEK_END) != 0)
        exit(1);
    *length = (size_t)ftell(file);
    rewind(file);
    uint8_t *text = malloc(*length + 1);
    if (text == NULL || fread(text, 1, *length, file) != *length)
        exit(1);
    fclose(file);
    return text;
}

static uint32_t page_of(char **paths)
{
    uint32_t grammar, rules, page;
    size_t length;
    uint8_t *text = text_of(paths[1], &length);
    done("grammar", maugzeris_grammar_new(&context, text, length, MAUGZERIS_NARROW, &grammar));
    done("rules", maugzeris_rules_new(&context, grammar, true, text, 0, &rules));
    free(text);
    text = text_of(paths[2], &length);
    double began = seconds();
    done("page", maugzeris_page_new(&context, rules, text, length, &page));
    printf("read %.3f\n", (seconds() - began) * 1e3);
    free(text);
    return page;
}

static void lay_out(uint32_t page)
{
    double began = seconds();
    done("lay out", maugzeris_page_lay_out(&context, page));
    printf("laid_out %.3f\n", (seconds() - began) * 1e3);
    size_t length = 1 << 27;
    uint8_t *text = malloc(length);
    if (text == NULL)
        exit(1);
    began = seconds();
    done("boxes", maugzeris_page_boxes(&context, page, text, length, &length));
    printf("boxes %.3f\n", (seconds() - began) * 1e3);
    free(text);
}

static size_t changes_of(uint32_t page, struct change *changes, size_t most)
{
    char name[64];
    size_t count = 0;
    while (count < most && scanf("%" SCNu32 " %63s %" SCNd64, &changes[count].node, name, &changes[count].value) == 3) {
        struct change *it = &changes[count++];
        done("attribute", maugzeris_page_attribute(&context, page, it->node, (uint8_t *)name, strlen(name), &it->attribute));
    }
    return count;
}

/* Lays out anew after one change, which adds so much to the number that it names. */
static size_t changed(uint32_t page, const struct change *it, int64_t more)
{
    size_t touched;
    done("set", maugzeris_page_set_input(&context, page, it->node, it->attribute, it->value + more));
    done("relayout", maugzeris_page_relayout(&context, page, &touched));
    return touched;
}

/* Makes each change alone, and tells the mean of one. */
static void change(const char *which, uint32_t page, const struct change *changes, size_t count)
{
    double began = seconds();
    for (size_t k = 0; k < count; k++)
        changed(page, &changes[k], 0);
    printf("%s %.3f\n", which, (seconds() - began) * 1e6 / (double)count);
}

/* Makes each change again, and tells the means of what it touches, and of the kids that the rules of these go over. */
static void tell_touched(const char *which, uint32_t page, const struct change *changes, size_t count)
{
    static uint32_t instances[MOST]; /* as many as a page has at most */
    double all = 0, kids = 0;
    for (size_t k = 0; k < count; k++) {
        size_t touched = changed(page, &changes[k], 1);
        done("touched", maugzeris_page_touched(&context, page, instances, MOST, &touched));
        all += (double)touched;
        for (size_t i = 0; i < touched; i++)
            kids += kids_of[instances[i]];
    }
    printf("%s_touched %.2f\n%s_kids %.2f\n", which, all / (double)count, which, kids / (double)count);
}

static void read_kids(const char *path)
{
    FILE *file = fopen(path, "r");
    if (file == NULL)
        exit(1);
    for (size_t k = 0; k < MOST && fscanf(file, "%" SCNu32, &kids_of[k]) == 1; k++)
        ;
    fclose(file);
}

int main(int words, char **paths)
{
    static struct change changes[1 << 16];
    if (words != 4)
        return 1;
    read_kids(paths[3]);
    done("context", maugzeris_context_new(&context));
    uint32_t page = page_of(paths);
    lay_out(page);
    size_t count = changes_of(page, changes, sizeof changes / sizeof *changes);
    size_t third = count / 3;
    change("front", page, changes, third);
    change("middle", page, changes + third, third);
    change("end", page, changes + 2 * third, count - 2 * third);
    tell_touched("front", page, changes, third);
    tell_touched("middle", page, changes + third, third);
    tell_touched("end", page, changes + 2 * third, count - 2 * third);
    return 0;
}
