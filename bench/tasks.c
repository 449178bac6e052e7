#include "tasks.h"

#include <stdlib.h>
#include <string.h>

#include "process.h"

const struct job jobs[] = {
    {"plan", plan_text, "R1234", "R1234", NULL, 0, 1},
    {"plan", plan_text, "R9999Z", "R9999Z", NULL, 0, 0},
    {"plan", plan_text, "PLUM-CAKE-77", "PLUM-CAKE-77", NULL, 0, 0},
    {"plan", plan_text, "-04-", "-04-", NULL, 0, 0},
    {"plan", plan_text, " rye 1235 g", " rye 1235 g", NULL, 0, 0},
    {"plan", plan_text, "a title of 60", "Rueeblitorte nach Grossmutters Art mit Mandeln, Kirsch 26 cm", NULL, 0, 0},
    {"plan, long lines", plan_of_long_lines, "1,000 of its bytes", NULL, NULL, 1000, 0},
    {"plan, long lines", plan_of_long_lines, "4,000 of its bytes", NULL, NULL, 4000, 0},
    {"a^n", one_letter, "a", "a", NULL, 0, 1},
    {"a^n", one_letter, "a^255", NULL, one_letter, 255, 0},
    {"(ab^254)*", ab_text, "ab^254", NULL, ab_text, 255, 0},
    {"Fibonacci", fibonacci_word, "its first 233", NULL, fibonacci_word, 233, 0},
    {"Fibonacci", fibonacci_word, "its first 4,000", NULL, fibonacci_word, 4000, 0},
    {"ruler", ruler_word, "its first 255", NULL, ruler_word, 255, 1},
    {"ruler, unknown byte", ruler_unknown, "ruler's first 255", NULL, ruler_word, 255, 0},
    {"ruler, 12 letters", ruler_of_12, "its first 1,000", NULL, ruler_of_12, 1000, 0},
    {"ruler, 12 letters", ruler_of_12, "its first 4,000", NULL, ruler_of_12, 4000, 0},
    {"random, 2 letters", random_2, "abbabaab", "abbabaab", NULL, 0, 1},
    {"random, 2 letters", random_2, "a^16", NULL, one_letter, 16, 0},
    {"random, 4 letters", random_4, "abcdabca", "abcdabca", NULL, 0, 0},
    {"random bytes", random_256, "8 of its bytes", NULL, NULL, 8, 0},
    {0},
};

void take_memory(struct search *s, const char *millions)
{
    s->n = (size_t)strtoul(millions, NULL, 10) * 1000000;
    if (s->n == 0 || s->n > UINT32_MAX)
        stop("from 1 to 4294 MB", "");
    s->piece = PIECE;
    s->text = malloc(s->n);
    if (!s->text)
        stop("no memory for the text", "");
}

static int printable(const uint8_t *bytes, size_t length)
{
    for (size_t i = 0; i < length; i++)
        if (bytes[i] < ' ' || bytes[i] > '~')
            return 0;
    return 1;
}

/* The first m bytes from the text's middle on that can be handed to a command. */
static void take_from_middle(struct search *s)
{
    for (size_t i = s->n / 2; i + s->m <= s->n; i++)
        if (printable(s->text + i, s->m)) {
            memcpy(s->code, s->text + i, s->m);
            return;
        }
    stop("no printable code in the text", "");
}

int set_up(struct search *s, const struct job *j, preparer *prepare)
{
    int other = s->made != j->make;

    if (other)
        j->make(s->text, s->n);
    s->made = j->make;
    s->m = j->word ? strlen(j->word) : j->m;
    if (j->word)
        memcpy(s->code, j->word, s->m);
    else if (j->code_maker)
        j->code_maker(s->code, s->m);
    else
        take_from_middle(s);
    s->code[s->m] = 0;
    s->sheet_length = prepare(s->code, s->m, s->sheet, sizeof s->sheet).length;
    return other;
}

static uint64_t mix(uint64_t check, uint64_t number)
{
    return (check ^ number) * 0x9E3779B97F4A7C15u;
}

void note(struct found *r, uint64_t place, size_t m)
{
    if (r->hits > 0 && place - r->last < m)
        r->overlap = 1;
    r->last = place;
    r->hits++;
    r->check = mix(r->check, place);
}

static void note_answer(struct found *r, const struct fed *f)
{
    const uint64_t numbers[] = {f->state, f->taken, f->hits, f->read, f->compares, f->written, f->full};

    for (size_t k = 0; k < sizeof numbers / sizeof *numbers; k++)
        r->answers = mix(r->answers, numbers[k]);
}

struct found feed_text(feeder *feed, const struct search *s, int checking)
{
    static uint32_t places[LIST];
    struct found r = {0};
    struct fed f = {0};
    size_t room = checking ? SHORT : LIST;
    size_t at = 0;

    while (at < s->n) {
        size_t length = s->n - at < s->piece ? s->n - at : s->piece;
        f = feed(s->sheet, s->sheet_length, f.state, f.taken, f.hits, f.compares, s->text + at, length, places, room);
        if (f.refusal != 0)
            stop("a feeding was refused", "");
        at += f.read;
        if (checking) {
            for (uint32_t k = 0; k < f.written; k++)
                note(&r, places[k], s->m);
            note_answer(&r, &f);
        }
    }
    r.hits = f.hits;
    r.compares = f.compares;
    return r;
}

const struct shape shapes[SHAPES] = {
    {"a^m", one_letter}, {"ab^(m-1)", ab_text}, {"Fibonacci", fibonacci_word},
    {"ruler", ruler_word}, {"random, 2 letters", random_2}, {"random from 32 on", random_from_32},
};

const size_t lengths[LENGTHS] = {1, 2, 4, 8, 16, 32, 64, 128, 255, 256, 1000, 4000};

double preparing_time(preparer *prepare, const uint8_t *code, size_t m, size_t calls)
{
    static uint8_t buffer[SHEET_ROOM];
    double start = cpu_now();

    for (size_t k = 0; k < calls; k++)
        if (prepare(code, m, buffer, sizeof buffer).refusal != 0)
            stop("preparing was refused", "");
    return (cpu_now() - start) / (double)calls * 1e9;
}

int is_taken(preparer *prepare, const uint8_t *code, size_t m)
{
    uint8_t buffer[SHEET_ROOM];

    return prepare(code, m, buffer, sizeof buffer).refusal == 0;
}

int same_sheets(preparer *first, preparer *second, const uint8_t *code, size_t m)
{
    uint8_t one[SHEET_ROOM];
    uint8_t other[SHEET_ROOM];
    uint64_t length = first(code, m, one, sizeof one).length;

    return second(code, m, other, sizeof other).length == length && memcmp(one, other, length) == 0;
}
