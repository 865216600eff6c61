/* Serves the library's C interface over standard input and output, so that a program on any machine can ask it.
 *
 * First one line with the names of the calls there are, in order. Then frames, each answered by the same frame with the
 * calls made: 8 bytes of length, then bodies. A body is the call's number and its count of arguments (u32 each), then
 * for each argument its element size and count (u32 each) and its elements, up to a multiple of 8 bytes, and 8 bytes more
 * that no call may touch. Argument 0 is the result.
 * harness/serve.sh defines HAS_.. for each part that the archive has. No header of the C library is used. */
#include "voronoi.h"

long read(int from, void *at, size_t length);
long write(int to, const void *at, size_t length);
void *malloc(size_t length);
void free(void *at);

typedef struct {
    uint32_t size, count;
    void *at;
} argument;

/* Argument i as a slice of floats or indexes, a pointer to one, or the number itself. */
#define F(i) (double *)a[i].at, (size_t)a[i].count
#define U(i) (uint32_t *)a[i].at, (size_t)a[i].count
#define I(i) (int32_t *)a[i].at, (size_t)a[i].count
#define Q(i) (uint64_t *)a[i].at, (size_t)a[i].count
#define C(i) (uint8_t *)a[i].at, (size_t)a[i].count
#define PS(i) ((size_t *)a[i].at)
#define PF(i) ((double *)a[i].at)
#define PU(i) ((uint32_t *)a[i].at)
#define PQ(i) ((uint64_t *)a[i].at)
#define X(i) (*(double *)a[i].at)
#define N(i) (*(uint32_t *)a[i].at)
#define B(i) (*(uint64_t *)a[i].at)
#define MESH(i) F(i), U(i + 1), U(i + 2), U(i + 3)
#define SLICES(i) U(i), F(i + 1), U(i + 2), U(i + 3), U(i + 4)

#ifdef HAS_versions
static void version(argument *a) { N(0) = voronoi_version(); }
#endif

#ifdef HAS_roots
static void root_bits(argument *a) { B(0) = voronoi_root_bits(B(1)); }
static void root(argument *a) { X(0) = voronoi_root(X(1)); }
static void magnitude_bits(argument *a) { B(0) = voronoi_magnitude_bits(B(1)); }
static void magnitude(argument *a) { X(0) = voronoi_magnitude(X(1)); }
static void signum_bits(argument *a) { B(0) = voronoi_signum_bits(B(1)); }
static void signum(argument *a) { X(0) = voronoi_signum(X(1)); }
#endif

#define BOX(i) X(i), X(i + 1), X(i + 2), X(i + 3)

#ifdef HAS_plane
static void abs_diff_eq(argument *a) { N(0) = voronoi_abs_diff_eq(X(1), X(2)); }
static void dist2(argument *a) { N(0) = voronoi_dist2(X(1), X(2), X(3), X(4), PF(5)); }
static void circumcenter(argument *a) { N(0) = voronoi_circumcenter(X(1), X(2), X(3), X(4), X(5), X(6), PF(7), PF(8)); }
static void centroid(argument *a) { N(0) = voronoi_centroid(F(1), PF(2), PF(3)); }
static void box(argument *a) { N(0) = voronoi_box(BOX(1), PF(5), PF(6), PF(7), PF(8), PF(9), PF(10)); }
static void corners(argument *a) { N(0) = voronoi_corners(BOX(1), F(5)); }
static void is_inside(argument *a) { N(0) = voronoi_is_inside(BOX(1), X(5), X(6), PU(7)); }
static void is_exclusively_inside(argument *a) { N(0) = voronoi_is_exclusively_inside(BOX(1), X(5), X(6), PU(7)); }
static void which_edge(argument *a) { N(0) = voronoi_which_edge(BOX(1), X(5), X(6), PU(7)); }
static void intersect_line(argument *a)
{
    N(0) = voronoi_intersect_line(BOX(1), X(5), X(6), X(7), X(8), PU(9), PF(10), PF(11), PF(12), PF(13));
}
static void project_ray(argument *a)
{
    N(0) = voronoi_project_ray(BOX(1), X(5), X(6), X(7), X(8), PU(9), PF(10), PF(11), PF(12), PF(13));
}
#endif

#ifdef HAS_checker
static void check(argument *a) { N(0) = voronoi_check(MESH(1), U(5)); }
#endif

#ifdef HAS_walks
static void walk(argument *a) { N(0) = voronoi_walk(MESH(1), N(5), U(6), U(7), PU(8), PU(9)); }
static void neighbours(argument *a) { N(0) = voronoi_neighbours(MESH(1), N(5), U(6), U(7), PU(8), PU(9)); }
static void clipped_neighbours(argument *a)
{
    N(0) = voronoi_clipped_neighbours(MESH(1), U(5), U(6), N(7), U(8), U(9), PU(10), PU(11));
}
static void path(argument *a) { N(0) = voronoi_path(MESH(1), N(5), X(6), X(7), U(8), U(9), PU(10), PU(11)); }
static void shared_edge(argument *a) { N(0) = voronoi_shared_edge(MESH(1), N(5), N(6), U(7), PU(8)); }
static void cells_share_edge(argument *a) { N(0) = voronoi_cells_share_edge(U(1), U(2), N(3), N(4), PU(5)); }
#endif

#ifdef HAS_builds
static void build(argument *a) { N(0) = voronoi_build(BOX(1), MESH(5), SLICES(9)); }
static void cell(argument *a) { N(0) = voronoi_cell(U(1), U(2), N(3), PU(4), PU(5)); }

struct instant {
    int64_t seconds, nanoseconds;
};
int clock_gettime(int clock, struct instant *now);
enum { CPU_TIME_OF_THREAD = 3 };

/* A build by itself, its processor time in nanoseconds as the result. */
static void time_build(argument *a)
{
    struct instant start, end;
    clock_gettime(CPU_TIME_OF_THREAD, &start);
    uint32_t number = voronoi_build(BOX(1), MESH(5), SLICES(9));
    clock_gettime(CPU_TIME_OF_THREAD, &end);
    B(0) = number ? 0 : (uint64_t)((end.seconds - start.seconds) * 1000000000 + end.nanoseconds - start.nanoseconds);
}

/* The second of two builds in the same slices: what a caller pays who lends them again. */
static void time_build_again(argument *a)
{
    voronoi_build(BOX(1), MESH(5), SLICES(9));
    time_build(a);
}
#endif

#ifdef HAS_maps
static void cell_wkb(argument *a) { N(0) = voronoi_cell_wkb(F(1), U(2), U(3), N(4), C(5), PS(6)); }
static void cell_wkb_bits(argument *a) { N(0) = voronoi_cell_wkb_bits(Q(1), U(2), U(3), N(4), C(5), PS(6)); }
static void all_wkb(argument *a) { N(0) = voronoi_all_wkb(F(1), U(2), U(3), Q(4), C(5), PS(6)); }
#endif

#ifdef HAS_reasons
static void why(argument *a)
{
    N(0) = voronoi_why(BOX(1), MESH(5), N(9), N(10), N(11), SLICES(12), PU(17), PU(18), PU(19), PU(20));
}
#endif

#ifdef HAS_areas
static void areas(argument *a) { N(0) = voronoi_areas(F(1), U(2), U(3), F(4)); }
#endif

#ifdef HAS_audits
static void audit(argument *a)
{
    N(0) = voronoi_audit(BOX(1), F(5), F(6), U(7), U(8), U(9), U(10), N(11), PU(12), PU(13), PU(14), PU(15), PF(16));
}
static void audit_by_edges(argument *a)
{
    N(0) = voronoi_audit_by_edges(BOX(1), F(5), F(6), U(7), U(8), U(9), U(10), N(11), PU(12), PU(13), PU(14), PU(15), PF(16));
}
#endif

#ifdef HAS_certificates
static void certify(argument *a) { N(0) = voronoi_certify(BOX(1), F(5), F(6), U(7), U(8), N(9), U(10), PU(11), PU(12), PU(13), PU(14)); }
static void certify_by_edges(argument *a)
{
    N(0) = voronoi_certify_by_edges(BOX(1), F(5), F(6), U(7), U(8), N(9), U(10), PU(11), PU(12), PU(13), PU(14));
}
#endif

#ifdef HAS_cutting
#define PIECES(i) U(i), F(i + 1), U(i + 2), U(i + 3), PU(i + 4)
static void cut(argument *a) { N(0) = voronoi_cut(BOX(1), MESH(5), PIECES(9)); }
static void cut_by_edges(argument *a) { N(0) = voronoi_cut_by_edges(BOX(1), MESH(5), PIECES(9)); }

/* A cutting by itself, as time_build. */
static void time_cut(argument *a)
{
    struct instant start, end;
    clock_gettime(CPU_TIME_OF_THREAD, &start);
    uint32_t number = voronoi_cut(BOX(1), MESH(5), PIECES(9));
    clock_gettime(CPU_TIME_OF_THREAD, &end);
    B(0) = number ? 0 : (uint64_t)((end.seconds - start.seconds) * 1000000000 + end.nanoseconds - start.nanoseconds);
}

static void time_cut_again(argument *a)
{
    voronoi_cut(BOX(1), MESH(5), PIECES(9));
    time_cut(a);
}
#endif

#ifdef HAS_bulk
static void all_neighbours(argument *a) { N(0) = voronoi_all_neighbours(MESH(1), U(5), U(6), U(7), U(8), U(9)); }
static void ends(argument *a) { N(0) = voronoi_ends(MESH(1), N(5), F(6), U(7), U(8)); }
#endif

#ifdef HAS_mending
static void mend(argument *a) { N(0) = voronoi_mend(MESH(1), U(5), U(6), U(7), U(8), PU(9), PU(10), PU(11)); }
#endif

#ifdef HAS_edges
static void box_by_edges(argument *a) { N(0) = voronoi_box_by_edges(BOX(1), PF(5), PF(6), PF(7), PF(8)); }
static void corners_by_edges(argument *a) { N(0) = voronoi_corners_by_edges(BOX(1), F(5)); }
static void is_inside_by_edges(argument *a) { N(0) = voronoi_is_inside_by_edges(BOX(1), X(5), X(6), PU(7)); }
static void is_exclusively_inside_by_edges(argument *a) { N(0) = voronoi_is_exclusively_inside_by_edges(BOX(1), X(5), X(6), PU(7)); }
static void which_edge_by_edges(argument *a) { N(0) = voronoi_which_edge_by_edges(BOX(1), X(5), X(6), PU(7)); }
static void intersect_line_by_edges(argument *a)
{
    N(0) = voronoi_intersect_line_by_edges(BOX(1), X(5), X(6), X(7), X(8), PU(9), PF(10), PF(11), PF(12), PF(13));
}
static void project_ray_by_edges(argument *a)
{
    N(0) = voronoi_project_ray_by_edges(BOX(1), X(5), X(6), X(7), X(8), PU(9), PF(10), PF(11), PF(12), PF(13));
}
static void build_by_edges(argument *a) { N(0) = voronoi_build_by_edges(BOX(1), MESH(5), SLICES(9)); }
static void why_by_edges(argument *a)
{
    N(0) = voronoi_why_by_edges(BOX(1), MESH(5), N(9), N(10), N(11), SLICES(12), PU(17), PU(18), PU(19), PU(20));
}
#endif

#ifdef HAS_gauges
static void read_multipoint(argument *a) { N(0) = voronoi_read_multipoint(C(1), F(2), PU(3)); }
static void write_multipoint(argument *a) { N(0) = voronoi_write_multipoint(F(1), C(2), PS(3)); }
#endif

#ifdef HAS_forms
#define LISTS(i) F(i), F(i + 1), U(i + 2), U(i + 3), U(i + 4)
static void read_form(argument *a) { N(0) = voronoi_read_form(C(1), LISTS(2), PU(7), PU(8), PU(9), PU(10), PQ(11)); }

/* A reader begun, fed the blocks of these lengths and ended, with a state of so many words; argument 9 has the number and 10 the byte after each
 * block, 11 the number of the beginning. The words past the state's own are 0 from the beginning on, or that number is 99. */
static void read_parts(argument *a)
{
    uint64_t state[32];
    const uint8_t *block = (const uint8_t *)a[1].at;
    for (size_t k = 0; k < 32; k++) state[k] = 0x5a5a5a5a5a5a5a5a;
    PU(11)[0] = voronoi_reader_begin(state, N(3));
    for (size_t k = 0; k < a[2].count; block += PU(2)[k], k++)
        PU(9)[k] = voronoi_reader_feed(state, N(3), block, PU(2)[k], LISTS(4), &PQ(10)[k]);
    N(0) = voronoi_reader_end(state, N(3), PU(12), PU(13), PU(14), PU(15), PQ(16));
    for (size_t k = VORONOI_READER_WORDS; k < 32; k++)
        if (state[k] != (k < N(3) ? 0 : 0x5a5a5a5a5a5a5a5a)) PU(11)[0] = 99;
}
#endif

#ifdef HAS_grids
static void grid_check(argument *a) { N(0) = voronoi_grid_check(I(1), U(2), U(3), U(4), U(5), PU(6), PU(7)); }
static void grid_nearest(argument *a) { N(0) = voronoi_grid_nearest(I(1), U(2), U(3), U(4), U(5), PU(6), PU(7), PU(8)); }
static void grid_sites(argument *a) { N(0) = voronoi_grid_sites(I(1), F(2)); }
#endif

#ifdef HAS_flipping
static void flip(argument *a) { N(0) = voronoi_flip(N(1), U(2), U(3), U(4), U(5), U(6), N(7)); }
#endif

static const struct {
    const char *name;
    void (*call)(argument *);
} calls[] = {
#ifdef HAS_versions
    {"version", version},
#endif
#ifdef HAS_roots
    {"root_bits", root_bits}, {"root", root}, {"magnitude_bits", magnitude_bits}, {"magnitude", magnitude},
    {"signum_bits", signum_bits}, {"signum", signum},
#endif
#ifdef HAS_plane
    {"abs_diff_eq", abs_diff_eq}, {"dist2", dist2}, {"circumcenter", circumcenter}, {"centroid", centroid}, {"box", box},
    {"corners", corners}, {"is_inside", is_inside}, {"is_exclusively_inside", is_exclusively_inside},
    {"which_edge", which_edge}, {"intersect_line", intersect_line}, {"project_ray", project_ray},
#endif
#ifdef HAS_checker
    {"check", check},
#endif
#ifdef HAS_walks
    {"walk", walk}, {"neighbours", neighbours}, {"clipped_neighbours", clipped_neighbours}, {"path", path},
    {"shared_edge", shared_edge}, {"cells_share_edge", cells_share_edge},
#endif
#ifdef HAS_builds
    {"build", build}, {"cell", cell}, {"time_build", time_build}, {"time_build_again", time_build_again},
#endif
#ifdef HAS_maps
    {"cell_wkb", cell_wkb}, {"cell_wkb_bits", cell_wkb_bits}, {"all_wkb", all_wkb},
#endif
#ifdef HAS_reasons
    {"why", why},
#endif
#ifdef HAS_areas
    {"areas", areas},
#endif
#ifdef HAS_audits
    {"audit", audit}, {"audit_by_edges", audit_by_edges},
#endif
#ifdef HAS_certificates
    {"certify", certify}, {"certify_by_edges", certify_by_edges},
#endif
#ifdef HAS_cutting
    {"cut", cut}, {"cut_by_edges", cut_by_edges}, {"time_cut", time_cut}, {"time_cut_again", time_cut_again},
#endif
#ifdef HAS_bulk
    {"all_neighbours", all_neighbours}, {"ends", ends},
#endif
#ifdef HAS_mending
    {"mend", mend},
#endif
#ifdef HAS_edges
    {"box_by_edges", box_by_edges}, {"corners_by_edges", corners_by_edges}, {"is_inside_by_edges", is_inside_by_edges},
    {"is_exclusively_inside_by_edges", is_exclusively_inside_by_edges}, {"which_edge_by_edges", which_edge_by_edges},
    {"intersect_line_by_edges", intersect_line_by_edges}, {"project_ray_by_edges", project_ray_by_edges},
    {"build_by_edges", build_by_edges}, {"why_by_edges", why_by_edges},
#endif
#ifdef HAS_gauges
    {"read_multipoint", read_multipoint}, {"write_multipoint", write_multipoint},
#endif
#ifdef HAS_forms
    {"read_form", read_form}, {"read_parts", read_parts},
#endif
#ifdef HAS_grids
    {"grid_check", grid_check}, {"grid_nearest", grid_nearest}, {"grid_sites", grid_sites},
#endif
#ifdef HAS_flipping
    {"flip", flip},
#endif
};

enum { CALLS = sizeof calls / sizeof calls[0], MOST = 32 };

static int take(void *at, size_t length)
{
    for (size_t done = 0; done < length;) {
        long n = read(0, (char *)at + done, length - done);
        if (n <= 0) return 0;
        done += (size_t)n;
    }
    return 1;
}

static int give(const void *at, size_t length)
{
    for (size_t done = 0; done < length;) {
        long n = write(1, (const char *)at + done, length - done);
        if (n <= 0) return 0;
        done += (size_t)n;
    }
    return 1;
}

static int announce(void)
{
    for (size_t i = 0; i < CALLS; i++) {
        size_t n = 0;
        while (calls[i].name[n]) n++;
        if (!give(calls[i].name, n) || !give(" ", 1)) return 0;
    }
    return give("\n", 1);
}

/* Makes the call of the body at `at` and gives its length, or 0 where it is no body. */
static size_t serve(unsigned char *at)
{
    uint32_t *head = (uint32_t *)at;
    argument a[MOST];
    if (head[0] >= CALLS || head[1] > MOST) return 0;
    size_t length = 8;
    for (uint32_t i = 0; i < head[1]; i++) {
        uint32_t *shape = (uint32_t *)(at + length);
        a[i].size = shape[0];
        a[i].count = shape[1];
        a[i].at = at + length + 8;
        length += 8 + (((size_t)shape[0] * shape[1] + 7) & ~(size_t)7) + 8;
    }
    calls[head[0]].call(a);
    return length;
}

int main(void)
{
    unsigned char *frame = 0;
    uint64_t room = 0, length;
    if (!announce()) return 1;
    while (take(&length, sizeof length)) {
        if (length > room) {
            free(frame);
            frame = malloc(length);
            room = length;
            if (!frame) return 1;
        }
        if (!take(frame, length)) return 1;
        for (uint64_t at = 0; at < length;) {
            size_t n = serve(frame + at);
            if (n == 0) return 1;
            at += n;
        }
        if (!give(&length, sizeof length) || !give(frame, length)) return 1;
    }
    return 0;
}
