/* KEY voronoi_reader_feed(state */
#include "voronoi.h"
int printf(const char *format, ...);

static uint8_t form[200];
static size_t length_of, given;
static size_t next_block(uint8_t *block, size_t room) /* 7 bytes at a time */
{
    size_t k = 0;
    for (; k < 7 && k < room && given < length_of; k++)
        block[k] = form[given++];
    return k;
}

@@

static void put(const void *bytes, size_t many)
{
    for (size_t i = 0; i < many; i++)
        form[length_of++] = ((const uint8_t *)bytes)[i];
}

int main(int words, char **word)
{
    static const double square_box[4] = {0, 0, 2, 2}, square[8] = {-.5, -.5, -.5, .5, .5, .5, .5, -.5};
    static const uint32_t links[12] = {0, 1, 2, VORONOI_EMPTY, VORONOI_EMPTY, 3, 0, 2, 3, 2, VORONOI_EMPTY, VORONOI_EMPTY};
    uint32_t clip = 9, n = 9, t = 9, h = 9;
    put("\1", 1), put(square_box, 32);
    for (size_t s = 0; s < 4; s++)
        put("\2", 1), put(square + 2 * s, 16);
    for (size_t i = 0; i < 2; i++)
        put("\3", 1), put(links + 6 * i, 24);
    for (uint32_t s = 0; s < 4; s++)
        put("\4", 1), put(&s, 4);
    put("\5", 1);
    if (words > 1 && word[1][0] == 'r')
        form[33] = 9; /* no kind */
    uint32_t refused = read_blocks(&clip, &n, &t, &h);
    printf("refused %u, box %u, %u sites, %u triangles, %u on the hull", refused, clip, n, t, h);
    if (refused)
        printf(", byte %u", (unsigned)at);
    printf("\n");
    return 0;
}
