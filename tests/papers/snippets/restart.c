/* KEY voronoi_path(MESH, from */
#include "snippet.h"

int main(int words, char **word)
{
    enum { N = 4 };
    uint32_t from = 3, n = 9, ended = 9, work[N], path[200], room = 200;
    double x = -1, y = 1;
    lend(words, word);
    @@
    printf("refused %u, %u sites, ended %u:", refused, n, ended);
    for (uint32_t i = 0; i < n; i++)
        printf(" %u", path[i]);
    printf("\n");
    return 0;
}
