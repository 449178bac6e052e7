/* Knuth, Morris and Pratt's search, a piece at a time. */
#include "rivals.h"

/* links[p]: the longest border of the first p bytes that another byte follows, -1 for none; links[m]: the longest border of the code. */
static int links[LONGEST_CODE + 1];

void kmp_prepare(const uint8_t *code, size_t m)
{
    int border = -1;

    links[0] = -1;
    for (int i = 0; i < (int)m; i++) {
        while (border >= 0 && code[i] != code[border])
            border = links[border];
        border++;
        links[i + 1] = i + 1 < (int)m && code[i + 1] == code[border] ? links[border] : border;
    }
}

struct fed kmp_feed(const uint8_t *sheet, size_t sheet_length, uint32_t state, uint32_t taken, uint32_t hits, uint64_t compares,
                    const uint8_t *piece, size_t piece_length, uint32_t *places, size_t room)
{
    int wide = sheet[0] == 0;
    const uint8_t *code = sheet + (wide ? 3 : 1);
    int m = wide ? sheet[1] << 8 | sheet[2] : sheet[0];
    int p = (int)state;
    uint32_t i = 0;
    uint32_t written = 0;

    (void)sheet_length;
    while (i < piece_length && written < room) {
        uint8_t byte = piece[i];
        if (p == m)
            p = links[m];
        while (p >= 0) {
            compares++;
            if (code[p] == byte)
                break;
            p = links[p];
        }
        p++;
        i++;
        if (p == m)
            places[written++] = taken + i - (uint32_t)m;
    }
    return (struct fed){
        .state = (uint32_t)p,
        .taken = taken + i,
        .hits = hits + written,
        .read = i,
        .compares = compares,
        .written = written,
        .full = written == room && i < piece_length,
    };
}
