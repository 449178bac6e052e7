#include "many.h"

#include <string.h>

enum { KEPT = 4 }; /* boards that are kept */

/* ---- Codes and states */

static size_t least(size_t a, size_t b)
{
    return a < b ? a : b;
}

struct many many_of(const uint32_t *lengths, size_t count, const uint8_t *bytes)
{
    struct many b;
    size_t j;

    b.count = count;
    b.total = 0;
    b.bytes = bytes;
    for (j = 0; j < count; j++) {
        b.lengths[j] = lengths[j];
        b.offsets[j] = b.total;
        b.total += lengths[j];
    }
    return b;
}

static const uint8_t *code_of(const struct many *b, size_t j)
{
    return b->bytes + b->offsets[j];
}

/* Whether two stretches of some bytes are the same. Most differ in the first byte. */
static int same(const uint8_t *a, const uint8_t *b, size_t length)
{
    return length == 0 || (a[0] == b[0] && memcmp(a, b, length) == 0);
}

/* The state of the longest start of some code that the first n bytes of a text end with and that has at most so many bytes: the number of its last byte in
   the first code that has it. */
static size_t state_of(const struct many *b, const uint8_t *text, size_t n, size_t most)
{
    size_t longest = 0, state = 0, j, length;

    for (j = 0; j < b->count; j++)
        for (length = least(b->lengths[j], least(n, most)); length > longest; length--)
            if (same(text + n - length, code_of(b, j), length)) {
                longest = length;
                state = b->offsets[j] + length;
            }
    return state;
}

/* The number, from 1, of the longest code that the first n bytes of a text end with and that has at most so many bytes; 0 if there is none. */
static size_t nearest_of(const struct many *b, const uint8_t *text, size_t n, size_t most)
{
    size_t longest = 0, number = 0, j;

    for (j = 0; j < b->count; j++) {
        size_t length = b->lengths[j];
        if (length > longest && length <= n && length <= most && same(text + n - length, code_of(b, j), length)) {
            longest = length;
            number = j + 1;
        }
    }
    return number;
}

const uint8_t *plain_start(const struct many *b, size_t g, size_t *length)
{
    size_t j = 0;

    while (j + 1 < b->count && g > b->offsets[j] + b->lengths[j])
        j++;
    *length = b->count == 0 ? 0 : g - b->offsets[j];
    return b->count == 0 ? b->bytes : code_of(b, j);
}

int plain_is_state(const struct many *b, size_t g)
{
    size_t length;
    const uint8_t *start;

    if (g > b->total)
        return 0;
    start = plain_start(b, g, &length);
    return state_of(b, start, length, length) == g;
}

/* ---- Refusals of codes */

static int has_length(const uint32_t *lengths, size_t count, uint64_t from, uint64_t to)
{
    size_t j;

    for (j = 0; j < count; j++)
        if (from <= lengths[j] && lengths[j] <= to)
            return 1;
    return 0;
}

static int is_no_board(const uint32_t *lengths, size_t count, size_t size)
{
    uint64_t sum = 0;
    size_t j;

    for (j = 0; j < count; j++)
        sum += lengths[j];
    return count == 0 || count > MOST_CODES || size > MOST_BYTES || sum != size;
}

static int has_control(const uint8_t *bytes, size_t size)
{
    size_t i;

    for (i = 0; i < size; i++)
        if (bytes[i] < 32)
            return 1;
    return 0;
}

/* Whether one of the first codes, so many, is this one. */
static int has_code(const struct many *b, size_t codes, const uint8_t *code, size_t length)
{
    size_t j;

    for (j = 0; j < codes; j++)
        if (b->lengths[j] == length && same(code_of(b, j), code, length))
            return 1;
    return 0;
}

static int has_twice(const struct many *b)
{
    size_t i;

    for (i = 0; i < b->count; i++)
        if (has_code(b, i, code_of(b, i), b->lengths[i]))
            return 1;
    return 0;
}

uint32_t plain_codes_refusal(const uint32_t *lengths, size_t count, const uint8_t *bytes, size_t size)
{
    struct many b;

    if (has_length(lengths, count, 0, 0))
        return 1;
    if (has_length(lengths, count, 4001, 4294967295u))
        return 2;
    if (is_no_board(lengths, count, size))
        return 10;
    if (has_control(bytes, size))
        return 13;
    b = many_of(lengths, count, bytes);
    return has_twice(&b) ? 11 : 0;
}

/* ---- The board's bytes */

static uint8_t *put_pair(uint8_t *end, size_t number)
{
    *end++ = (uint8_t)(number / 256);
    *end++ = (uint8_t)(number % 256);
    return end;
}

/* The failure link of byte number g, the state of the longest shorter start, in two bytes, and the number of the longest code that its start ends with; 0 of
   a byte that is no state. */
static uint8_t *put_row(const struct many *b, size_t g, uint8_t *end)
{
    size_t length;
    const uint8_t *start = plain_start(b, g, &length);
    int counts = length > 0 && plain_is_state(b, g);

    end = put_pair(end, counts ? state_of(b, start, length, length - 1) : 0);
    *end++ = (uint8_t)(counts ? nearest_of(b, start, length, length) : 0);
    return end;
}

size_t plain_board(const struct many *b, uint8_t *board)
{
    uint8_t *end = board;
    size_t j, g;

    *end++ = (uint8_t)b->count;
    for (j = 0; j < b->count; j++)
        end = put_pair(end, b->lengths[j]);
    memcpy(end, b->bytes, b->total);
    end += b->total;
    for (j = 0; j < b->count; j++)
        *end++ = (uint8_t)(b->lengths[j] == 0 ? 0 : nearest_of(b, code_of(b, j), b->lengths[j], b->lengths[j] - 1));
    for (g = 0; g <= b->total; g++)
        end = put_row(b, g, end);
    return (size_t)(end - board);
}

static int same_codes(const struct many *a, const struct many *b)
{
    return a->count == b->count && a->total == b->total && memcmp(a->lengths, b->lengths, a->count * sizeof *a->lengths) == 0 &&
           memcmp(a->bytes, b->bytes, a->total) == 0;
}

/* The board of accepted codes, and its length. The last ones made are kept: most calls name the same codes as one before. */
static const uint8_t *kept_board(const struct many *b, size_t *length)
{
    static uint8_t boards[KEPT][BOARD_HERE], bytes[KEPT][MOST_BYTES];
    static struct many kept[KEPT];
    static size_t kept_lengths[KEPT], oldest;
    size_t k;

    for (k = 0; k < KEPT && !same_codes(&kept[k], b); k++)
        ;
    if (k == KEPT) {
        k = oldest;
        oldest = (oldest + 1) % KEPT;
        memcpy(bytes[k], b->bytes, b->total);
        kept[k] = *b;
        kept[k].bytes = bytes[k];
        kept_lengths[k] = plain_board(b, boards[k]);
    }
    *length = kept_lengths[k];
    return boards[k];
}

struct prepared plain_prepare_board(const uint32_t *lengths, size_t count, const uint8_t *bytes, size_t size, uint8_t *buffer, size_t room)
{
    struct prepared answer = {0, 0};
    const uint8_t *board;
    struct many b;
    size_t length;

    answer.refusal = plain_codes_refusal(lengths, count, bytes, size);
    if (answer.refusal == 0 && room < BOARD_ROOM)
        answer.refusal = 3;
    if (answer.refusal == 0) {
        b = many_of(lengths, count, bytes);
        board = kept_board(&b, &length);
        memcpy(buffer, board, length);
        answer.length = length;
    }
    return answer;
}

/* ---- Reading */

/* The hits that end with the first n bytes of a text: of each length from the longest on, which one code has at most. */
static size_t put_hits(struct reading *x, const struct many *b, const uint8_t *text, size_t n, size_t hits)
{
    size_t number, most = n;

    while ((number = nearest_of(b, text, n, most)) != 0) {
        most = b->lengths[number - 1];
        x->places[hits] = (uint32_t)(n - most);
        x->numbers[hits++] = (uint32_t)number;
        most--;
    }
    return hits;
}

void read_text(struct reading *x, const struct many *b, const uint8_t *text, size_t from, size_t n)
{
    size_t i;

    x->codes = b->count;
    x->state[from] = state_of(b, text, from, from);
    x->hits[from] = 0;
    for (i = from + 1; i <= n; i++) {
        x->state[i] = state_of(b, text, i, i);
        x->hits[i] = put_hits(x, b, text, i, x->hits[i - 1]);
    }
}

struct hit_numbers reading_call(const struct reading *x, size_t from, size_t end, size_t room)
{
    struct hit_numbers answer = {0, 0, 0, 0, 0, 0, 0};
    size_t n = from;

    while (n < end && x->hits[n] - x->hits[from] + x->codes <= room)
        n++;
    answer.state = (uint32_t)x->state[n];
    answer.taken = (uint32_t)n;
    answer.hits = x->hits[n];
    answer.written = x->hits[n] - x->hits[from];
    answer.read = (uint32_t)(n - from);
    answer.full = n < end;
    return answer;
}

/* ---- Buffers that are lent as boards */

/* The codes that a buffer names: as many lengths as its first byte tells, then as many bytes as these add up to. Whether they are accepted and there. */
static int named(const uint8_t *buffer, size_t length, struct many *b)
{
    uint32_t lengths[255] = {0};
    size_t count = length > 0 ? buffer[0] : 0;
    size_t front = 1 + 2 * count;
    size_t sum = 0, j;

    if (length < front)
        return 0;
    for (j = 0; j < count; j++) {
        lengths[j] = 256 * (uint32_t)buffer[1 + 2 * j] + buffer[2 + 2 * j];
        sum += lengths[j];
    }
    if (length - front < sum || plain_codes_refusal(lengths, count, buffer + front, sum) != 0)
        return 0;
    *b = many_of(lengths, count, buffer + front);
    return 1;
}

/* Whether a buffer begins with the board of the codes that it names. */
static int begins_with_board(const uint8_t *buffer, size_t length, struct many *b)
{
    const uint8_t *board;
    size_t end;

    if (!named(buffer, length, b))
        return 0;
    board = kept_board(b, &end);
    return end <= length && memcmp(buffer, board, end) == 0;
}

/* ---- Feeding */

static int is_unfit(const struct many *b, const struct hit_numbers *x)
{
    size_t length;

    if (!plain_is_state(b, x->state))
        return 1;
    plain_start(b, x->state, &length);
    return length > x->taken || x->hits > 64 * (uint64_t)x->taken;
}

static uint32_t feed_refusal(const uint8_t *board, size_t board_length, struct many *b, const struct hit_numbers *x, size_t piece_length, size_t room)
{
    if (!begins_with_board(board, board_length, b))
        return 4;
    if (is_unfit(b, x))
        return 5;
    if (room < b->count)
        return 6;
    return piece_length > 4294967295u - x->taken ? 7 : 0;
}

/* The state's start and then the piece, as one text, of which the piece is read: more of what was before cannot matter. */
static struct hit_numbers feed_after_start(const struct many *b, const struct hit_numbers *x, const uint8_t *piece, size_t piece_length, size_t room,
                                           uint32_t *places, uint32_t *numbers)
{
    static struct reading reading;
    static uint8_t text[TEXT_HERE];
    struct hit_numbers answer;
    size_t from, k;
    const uint8_t *start = plain_start(b, x->state, &from);
    uint32_t before = x->taken - (uint32_t)from;

    memcpy(text, start, from);
    memcpy(text + from, piece, piece_length);
    read_text(&reading, b, text, from, from + piece_length);
    answer = reading_call(&reading, from, from + piece_length, room);
    answer.taken += before;
    answer.hits += x->hits;
    for (k = 0; k < answer.written; k++) {
        places[k] = reading.places[k] + before;
        numbers[k] = reading.numbers[k];
    }
    return answer;
}

struct hit_numbers plain_feed_board(const uint8_t *board, size_t board_length, uint32_t state, uint32_t taken, uint64_t hits, const uint8_t *piece,
                                    size_t piece_length, uint32_t *places, size_t place_room, uint32_t *numbers, size_t number_room)
{
    struct hit_numbers x = {0, 0, 0, 0, 0, 0, 0};
    size_t room = least(place_room, number_room);
    struct many b;

    x.state = state;
    x.taken = taken;
    x.hits = hits;
    x.refusal = feed_refusal(board, board_length, &b, &x, piece_length, room);
    return x.refusal != 0 ? x : feed_after_start(&b, &x, piece, piece_length, room, places, numbers);
}

/* ---- Joining */

/* Codes as preparing is given them, with room for those of two boards. */
struct list {
    uint32_t lengths[2 * MOST_CODES];
    uint8_t bytes[2 * MOST_BYTES];
    size_t count, total;
};

/* Adds code number j, from 0, of a board. */
static void add_code(struct list *l, const struct many *b, size_t j)
{
    memcpy(l->bytes + l->total, code_of(b, j), b->lengths[j]);
    l->lengths[l->count++] = (uint32_t)b->lengths[j];
    l->total += b->lengths[j];
}

/* Of codes that are accepted, each once, preparing refuses too many codes or bytes, 10, and then too small a buffer, 3, and nothing else. */
struct prepared plain_join_boards(const uint8_t *first, size_t first_length, const uint8_t *second, size_t second_length, uint8_t *buffer, size_t room)
{
    const struct prepared no_board = {0, 4};
    struct list joined;
    struct many a, b;
    size_t j;

    if (!begins_with_board(first, first_length, &a) || !begins_with_board(second, second_length, &b))
        return no_board;
    joined.count = joined.total = 0;
    for (j = 0; j < a.count; j++)
        add_code(&joined, &a, j);
    for (j = 0; j < b.count; j++)
        if (!has_code(&a, a.count, code_of(&b, j), b.lengths[j]))
            add_code(&joined, &b, j);
    return plain_prepare_board(joined.lengths, joined.count, joined.bytes, joined.total, buffer, room);
}
