/* KEY voronoi_read_multipoint(file */
#include "snippet.h"

int main(int words, char **word)
{
    enum { N = 4 };
    static uint8_t file[VORONOI_MULTIPOINT_ROOM(4)];
    static double square[2 * N] = {-.5, -.5, -.5, .5, .5, .5, .5, -.5};
    size_t written, file_len = sizeof file;
    if (voronoi_write_multipoint(square, 8, file, sizeof file, &written))
        return 1;
    if (words > 1 && word[1][0] == 'r')
        file_len--;
    @@
    printf("refused %u, %u gauges, %u bytes\n", refused, n, (unsigned)bytes);
    return 0;
}
