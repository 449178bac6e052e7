#include "cuttings.h"

/* ---- Texts */

void put_text_like_code(size_t letters, size_t length)
{
    size_t i, j = 0;

    n = length;
    for (i = 0; i < n; i++) {
        size_t chance = random_below(2 * m);
        text[i] = chance > 0 ? code[j] : i % 2 == 0 ? random_letter(letters) : from_32(random_letter(letters));
        j = chance == 1 || j + 1 == m ? 0 : j + 1;
    }
}

/* ---- Cuttings */

static void cut_at(size_t end)
{
    if (cutting.pieces == PIECES)
        differ("a cutting of too many pieces");
    cutting.end[cutting.pieces++] = end;
}

void run_sizes(size_t first, size_t size, size_t room, int refused)
{
    size_t end = first < n ? first : n;

    cutting.pieces = 0;
    cutting.room = room;
    cutting.refused = refused;
    for (cut_at(end); end < n; cut_at(end))
        end = size < n - end ? end + size : n;
    run();
}

void run_random(size_t longest, size_t room, int refused)
{
    size_t end = 0;

    cutting.pieces = 0;
    cutting.room = room;
    cutting.refused = refused;
    while (end < n) {
        size_t size = random_below(longest + 1);
        end = size < n - end ? end + size : n;
        cut_at(end);
    }
    run();
}

void run_some_sizes(void)
{
    use_text();
    cutting.behind = 0;
    run_sizes(n, 1, LIST, 0);
    run_sizes(0, 1, 1, 1);
    cutting.behind = 1;
    run_sizes(3, 7, 2, 0);
    run_sizes(100, 37, 1, 1);
}

/* Runs the text cut at the places of the ones among a number's binary digits, with an empty piece before each piece or not. */
static void run_cut(unsigned digits, int empty, size_t room, int refused)
{
    size_t end, last = 0;

    cutting.pieces = 0;
    cutting.room = room;
    cutting.refused = refused;
    for (end = 1; end <= n; end++) {
        if (end < n && !(digits >> (end - 1) & 1))
            continue;
        if (empty)
            cut_at(last);
        cut_at(end);
        last = end;
    }
    if (empty || n == 0)
        cut_at(n);
    run();
}

void run_every_cutting(void)
{
    unsigned cuttings = n == 0 ? 1 : 1u << (n - 1);
    unsigned digits;
    size_t room;

    use_text();
    for (room = 1; room <= 3; room++) {
        cutting.behind = room == 2;
        for (digits = 0; digits < cuttings; digits++)
            run_cut(digits, 0, room, 0);
        run_cut(cuttings - 1, 1, room, room == 1);
    }
}
