#include "board_cuttings.h"

#include "random.h"

static void cut_at(size_t end)
{
    if (cutting.pieces == PIECES)
        differ("a cutting of too many pieces");
    cutting.end[cutting.pieces++] = end;
}

void begin_cutting(size_t more_places, size_t more_numbers, int refused, int behind)
{
    cutting.pieces = 0;
    cutting.place_room = count + more_places < LIST ? count + more_places : LIST;
    cutting.number_room = count + more_numbers < LIST ? count + more_numbers : LIST;
    cutting.refused = refused;
    cutting.behind = behind;
}

void run_sizes(size_t length)
{
    size_t end = 0;

    do {
        end = length < n - end ? end + length : n;
        cut_at(end);
    } while (end < n);
    run();
}

void run_random(size_t longest)
{
    size_t end = 0;

    while (end < n) {
        size_t length = random_below(longest + 1);
        end = length < n - end ? end + length : n;
        cut_at(end);
    }
    run();
}

void run_every_size(void)
{
    size_t length;

    use_text();
    begin_cutting(LIST, LIST, 1, 0);
    run_sizes(n + 1);
    for (length = 1; length <= 9; length++) {
        begin_cutting(length % 3, length / 2 % 3, 0, length % 2);
        run_sizes(length);
    }
    begin_cutting(0, 0, 0, 0);
    run_sizes(n + 1);
    begin_cutting(random_below(count + 2), random_below(count + 2), 1, 1);
    run_sizes(37);
    begin_cutting(random_below(2 * count), LIST, 0, 0);
    run_random(20);
    begin_cutting(LIST, random_below(2 * count), 0, 1);
    run_random(100);
}

/* Cut at the places of the ones among a number's binary digits, with an empty piece before each or not. */
static void run_cut(unsigned digits, int empty)
{
    size_t end;

    for (end = 1; end <= n; end++)
        if (end == n || digits >> (end - 1) & 1) {
            if (empty)
                cut_at(cutting.pieces == 0 ? 0 : cutting.end[cutting.pieces - 1]);
            cut_at(end);
        }
    if (n == 0)
        cut_at(0);
    run();
}

void run_every_cutting(void)
{
    unsigned cuttings = n == 0 ? 1 : 1u << (n - 1);
    unsigned digits;

    use_text();
    for (digits = 0; digits < cuttings; digits++) {
        begin_cutting(digits % 3, digits / 3 % 3, 0, digits % 2);
        run_cut(digits, 0);
    }
    begin_cutting(0, 1, 1, 1);
    run_cut(cuttings - 1, 1);
}

void run_some_sizes(void)
{
    use_text();
    begin_cutting(LIST, LIST, 1, 0);
    run_sizes(n);
    begin_cutting(0, 1, 0, 1);
    run_sizes(700);
    begin_cutting(random_below(2 * count), random_below(2 * count), 0, 0);
    run_random(90);
}
