/* Pages laid out by calls. Link libmaugzeris_c.a, and behind it the kit's liblibc_c.a, by which it calls malloc, realloc
   and free. docs/EMBEDDING.md describes the calls and shows programs; bench/examples.py holds this file against what the
   library exports.

   Every call answers a status:
     MAUGZERIS_OK            it is done
     4, 5, 6, 7              a text is refused: as a whole, as a grammar, as a schedule, as a document. maugzeris_refusal
                             has the line that the program prints
     MAUGZERIS_OVERFLOW      a value that was asked for is Overflow: maugzeris_page_boxes wrote the boxes,
                             maugzeris_page_value wrote nothing
     MAUGZERIS_NO_MEMORY     no memory was left
     MAUGZERIS_NOT_TAKEN     the attribute is no input of the node, or the number out of the range of the width
     MAUGZERIS_WRONG         there is no context; or no width, grammar, rules, page, node or attribute has this number; or
                             no attribute of the node this name; or the page is not laid out yet
     MAUGZERIS_NO_ROOM       the buffer is too small; the length that is needed is told, and the buffer not written to

   A call that is not done leaves the context as it was, but that a refused text leaves its line. It writes to none of the
   places that it is given, but for the length where there is no room.

   What a caller has to meet:
   - A context is made by maugzeris_context_new out of zeros, and only the calls below change it. It may be moved, as
     memcpy does, where the old copy is then left alone.
   - A context is used by one thread, and by one call, at a time. Several threads may each have their own.
   - A pointer is never null. It points to as many bytes or numbers as the length beside it says, and to one item where
     there is no length; where the length is 0 it still is not null. No two parameters point to memory that overlaps, but
     texts that are only read may.
   - malloc, realloc and free are one allocator, which aligns a block to each power of two up to 16 that divides its size.
     No call is made from a signal handler, nor in a forked child of a process with threads.

   Grammars and rules stay in memory until the process ends, even where their context is freed, since pages borrow from
   them: read each once. Pages are freed, by maugzeris_page_free or with their context; numbers of pages are not used
   again, and each keeps some hundred bytes until its context is freed, so a program that makes pages without end frees
   its context now and then. Bytes that are not UTF-8 are refused as such, however many they are. */
#ifndef MAUGZERIS_H
#define MAUGZERIS_H

#include <stdbool.h>
#include <stddef.h>
#include <stdint.h>

#ifdef __cplusplus
extern "C" {
#endif

enum {
    MAUGZERIS_OK = 0,
    MAUGZERIS_TEXT_REFUSED = 4,
    MAUGZERIS_GRAMMAR_REFUSED = 5,
    MAUGZERIS_SCHEDULE_REFUSED = 6,
    MAUGZERIS_DOCUMENT_REFUSED = 7,
    MAUGZERIS_OVERFLOW = 8,
    MAUGZERIS_NO_MEMORY = 9,
    MAUGZERIS_NOT_TAKEN = 10,
    MAUGZERIS_WRONG = 11,
    MAUGZERIS_NO_ROOM = 12
};

/* Widths: values of 32 bits and of 48 bits. */
enum { MAUGZERIS_NARROW = 0, MAUGZERIS_WIDE = 1 };

/* What a program holds. Its fields are the library's. */
struct maugzeris_context {
    void *kept;
    uint32_t live;
};

#define MAUGZERIS_CONTEXT_NONE {0, 0}

/* A context with nothing in it; status 11 where there is one already. */
uint32_t maugzeris_context_new(struct maugzeris_context *context);

/* Frees a context with its pages; status 11 where there is none. */
uint32_t maugzeris_context_free(struct maugzeris_context *context);

/* Reads a grammar, and tells its number. */
uint32_t maugzeris_grammar_new(struct maugzeris_context *context, const uint8_t *text, size_t length, uint32_t width,
                               uint32_t *grammar);

/* Reads a schedule of a grammar, or finds one where automatic is true; the text then counts for nothing. Tells the number
   of the rules, which are the grammar with the schedule. */
uint32_t maugzeris_rules_new(struct maugzeris_context *context, uint32_t grammar, bool automatic,
                             const uint8_t *schedule, size_t length, uint32_t *rules);

/* Reads a document, and tells the number of its page, which is not laid out yet. */
uint32_t maugzeris_page_new(struct maugzeris_context *context, uint32_t rules, const uint8_t *document, size_t length,
                            uint32_t *page);

/* Frees a page. Its number names none from then on. */
uint32_t maugzeris_page_free(struct maugzeris_context *context, uint32_t page);

/* The line of the last refusal, with its line feed; empty where there was none. */
uint32_t maugzeris_refusal(struct maugzeris_context *context, uint8_t *line, size_t room, size_t *length);

/* Lays a page out, where that was not done yet. */
uint32_t maugzeris_page_lay_out(struct maugzeris_context *context, uint32_t page);

/* The boxes of a page that was laid out, as the program prints them. */
uint32_t maugzeris_page_boxes(struct maugzeris_context *context, uint32_t page, uint8_t *text, size_t room,
                              size_t *length);

/* How many nodes a page has. They are numbered from 0, a node before its kids. */
uint32_t maugzeris_page_node_count(struct maugzeris_context *context, uint32_t page, uint32_t *count);

/* The attribute of a node that has this name. */
uint32_t maugzeris_page_attribute(struct maugzeris_context *context, uint32_t page, uint32_t node, const uint8_t *name,
                                  size_t length, uint32_t *attribute);

/* The value of an attribute of a node of a page that was laid out, as it was laid out last. */
uint32_t maugzeris_page_value(struct maugzeris_context *context, uint32_t page, uint32_t node, uint32_t attribute,
                              int64_t *value);

/* Gives an input of a node another number. It counts from the next relayout on; of two the later one counts. Status 10
   also where there is no such node, or it has no such attribute. */
uint32_t maugzeris_page_set_input(struct maugzeris_context *context, uint32_t page, uint32_t node, uint32_t attribute,
                                  int64_t value);

/* Lays a page out anew after the inputs that were set, and tells how many instances that touched. */
uint32_t maugzeris_page_relayout(struct maugzeris_context *context, uint32_t page, size_t *touched);

/* The numbers of the instances that the last relayout of a page touched, in rising order; none before the first. */
uint32_t maugzeris_page_touched(struct maugzeris_context *context, uint32_t page, uint32_t *instances, size_t room,
                                size_t *count);

#ifdef __cplusplus
}
#endif

#endif
