#include "boardpeers.h"

#include <stdlib.h>

#include "process.h"

enum {
    RUN_PIECE = 65536, /* bytes of text to a feeding of a separate run */
    RUN_LIST = 65536,  /* places to one: there cannot be more */
};

/* The sheets of all codes, for as many separate runs. */
struct sheets {
    size_t count;
    size_t lengths[MOST_CODES];
    uint8_t *starts[MOST_CODES];
};

static void *build_sheets(const struct codes *c)
{
    struct sheets *s = malloc(sizeof *s);

    if (!s)
        stop("no memory for sheets", "");
    s->count = c->count;
    for (size_t j = 0, start = 0; j < c->count; start += c->lengths[j++]) {
        size_t room = 5 * (size_t)c->lengths[j] + 5;
        if (!(s->starts[j] = malloc(room)))
            stop("no memory for a sheet", "");
        s->lengths[j] = entries_prepare(c->bytes + start, c->lengths[j], s->starts[j], room).length;
    }
    return s;
}

static void drop_sheets(void *built)
{
    struct sheets *s = built;

    for (size_t j = 0; j < s->count; j++)
        free(s->starts[j]);
    free(s);
}

/* One code over the whole text. */
static size_t run_one(const uint8_t *sheet, size_t sheet_length, const uint8_t *text, size_t n, uint32_t *places)
{
    struct fed f = {0};

    for (size_t at = 0; at < n; at += RUN_PIECE) {
        size_t length = n - at < RUN_PIECE ? n - at : RUN_PIECE;
        f = entries_feed(sheet, sheet_length, f.state, f.taken, f.hits, f.compares, text + at, length, places + f.hits, RUN_LIST);
        if (f.refusal != 0 || f.full != 0)
            stop("a feeding of a separate run was refused or not ended", "");
    }
    return f.hits;
}

static size_t find_separately(const void *built, const uint8_t *text, size_t n, uint32_t *places, uint32_t *numbers)
{
    const struct sheets *s = built;
    size_t hits = 0;

    (void)numbers;
    for (size_t j = 0; j < s->count; j++)
        hits += run_one(s->starts[j], s->lengths[j], text, n, places + hits);
    return hits;
}

#ifdef CRATE /* where rustc and the crate are there (bench/boards) */

void *crate_build(const uint32_t *lengths, size_t count, const uint8_t *bytes, size_t size, _Bool dfa);
peer_finder crate_find;
peer_dropper crate_drop;

static void *build_nfa(const struct codes *c)
{
    return crate_build(c->lengths, c->count, c->bytes, c->size, 0);
}

static void *build_dfa(const struct codes *c)
{
    return crate_build(c->lengths, c->count, c->bytes, c->size, 1);
}

#define OF_CRATE(build) build, crate_find, crate_drop
#else
#define OF_CRATE(build) NULL, NULL, NULL
#endif

const struct peer peers[PEERS] = {
    [NFA] = {"crate, NFA", OF_CRATE(build_nfa), 0},
    [DFA] = {"crate, DFA", OF_CRATE(build_dfa), 0},
    [FULL_ROWS] = {"full rows", build_full_rows, find_by_full_rows, drop_full_rows, 0},
    [SEPARATE] = {"separate runs", build_sheets, find_separately, drop_sheets, 1},
};
