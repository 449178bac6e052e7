/* Aho and Corasick's automaton with full rows: one look-up for a byte, and no links while a text is read. */
#include <stdlib.h>

#include "boardpeers.h"
#include "process.h"

enum { STATES = MOST_BYTES + 1 };

struct full_rows {
    uint32_t lengths[MOST_CODES];
    uint8_t shorter[MOST_CODES]; /* the number of the longest shorter code that each code ends with, 0 for none */
    uint8_t nearest[STATES];     /* the number of the longest code that each state ends with, 0 for none */
    uint16_t (*rows)[256];       /* the state after one more byte */
};

/* Adds a code to the tree, where 0 is no child; answers its state. */
static size_t add_code(uint16_t (*rows)[256], size_t *count, const uint8_t *code, size_t length)
{
    size_t state = 0;

    for (size_t i = 0; i < length; i++) {
        if (rows[state][code[i]] == 0)
            rows[state][code[i]] = (uint16_t)(*count)++;
        state = rows[state][code[i]];
    }
    return state;
}

/* Fills in the rows of the tree in breadth-first order: where a state has no child its failure link goes on, whose row is full by then. */
static void fill_rows(struct full_rows *f)
{
    static uint16_t queue[STATES], links[STATES];
    size_t taken = 0, put = 1;

    queue[0] = 0;
    while (taken < put) {
        size_t state = queue[taken++], link = links[state];
        for (size_t byte = 0; byte < 256; byte++) {
            size_t child = f->rows[state][byte];
            size_t next = state == 0 ? 0 : f->rows[link][byte];
            if (child == 0) {
                f->rows[state][byte] = (uint16_t)next;
                continue;
            }
            links[child] = (uint16_t)next;
            queue[put++] = (uint16_t)child;
            if (f->nearest[child] == 0)
                f->nearest[child] = f->nearest[next];
            else
                f->shorter[f->nearest[child] - 1] = f->nearest[next];
        }
    }
}

void *build_full_rows(const struct codes *c)
{
    struct full_rows *f = calloc(1, sizeof *f);
    size_t count = 1;

    if (!f || !(f->rows = calloc(c->size + 1, sizeof *f->rows)))
        stop("no memory for full rows", "");
    for (size_t j = 0, start = 0; j < c->count; start += c->lengths[j++]) {
        f->lengths[j] = c->lengths[j];
        f->nearest[add_code(f->rows, &count, c->bytes + start, c->lengths[j])] = (uint8_t)(j + 1);
    }
    fill_rows(f);
    return f;
}

size_t find_by_full_rows(const void *built, const uint8_t *text, size_t n, uint32_t *places, uint32_t *numbers)
{
    const struct full_rows *f = built;
    size_t state = 0, hits = 0;

    for (size_t i = 0; i < n; i++) {
        state = f->rows[state][text[i]];
        for (size_t number = f->nearest[state]; number != 0; number = f->shorter[number - 1]) {
            places[hits] = (uint32_t)(i + 1) - f->lengths[number - 1];
            numbers[hits++] = (uint32_t)number;
        }
    }
    return hits;
}

void drop_full_rows(void *built)
{
    struct full_rows *f = built;

    free(f->rows);
    free(f);
}
