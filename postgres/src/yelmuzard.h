/* What the C files of the extension share. Gauges are numbered from 1 in SQL and from 0 here. */
#ifndef YELMUZARD_H
#define YELMUZARD_H

/* all else is hidden (-fvisibility=hidden) */
#define PGDLLEXPORT __attribute__((visibility("default")))

#include "postgres.h"

#include "fmgr.h"
#include "utils/array.h"
#include "utils/geo_decls.h"

#include "triangulate.h"
#include "voronoi.h"

/* The head of a function that SQL calls. */
#define SQL_FUNCTION(name)                            \
    extern PGDLLEXPORT Datum name(PG_FUNCTION_ARGS); \
    PG_FUNCTION_INFO_V1(name);                       \
    Datum name(PG_FUNCTION_ARGS)

/* Gauges in a box, their mesh, their pieces: as far as they are made. */
typedef struct {
    double frame[4];   /* left, top, right, bottom: the least x, the least y, the greatest x, the greatest y */
    size_t n;          /* gauges */
    size_t s;          /* sites: gauges and ghosts, or of a lent mesh the gauges alone */
    double *sites;     /* along a Hilbert curve, where `was` is given: what is near in the plane is then near in memory, in every stage */
    uint32 *was;       /* the place in the list of each gauge, from 0, or NULL: they stand as in the list */
    uint32 *numbers;   /* what each gauge of the list is called in messages, or NULL: its place in it, from 1 */
    bool nameless;     /* the gauges are rows of a group, in no order: they are called by their coordinates alone */
    size_t t, h;       /* triangles, sites of the hull */
    uint32 *triangles, *halfedges, *hull;
    uint32 v;          /* vertices of the pieces */
    double *vertices;
    uint32 *indexes, *offsets;
    double *areas;     /* of each gauge */
    uint32 *work;      /* lent to the calls that make mesh and pieces */
    char *block;       /* what these lists are in, or NULL; what is left of it, and how many bytes: see room_in */
    char *spare;
    size_t spare_bytes;
} Survey;

/* What is wrong with pieces. */
typedef struct {
    uint32 state;       /* the first digit of its SQLSTATE: 1 by the certificate, 2 by the audit */
    uint32 kind;        /* 0: sound */
    uint32 site, other; /* VORONOI_EMPTY where the kind names none */
    double missing;     /* the share of the box that no piece covers, where it is known; else 0 */
} Fault;

#define SITES_OF(p) (p)->sites, 2 * (p)->s
#define MESH_OF(p) SITES_OF(p), (p)->triangles, 3 * (p)->t, (p)->halfedges, 3 * (p)->t, (p)->hull, (p)->h
#define FRAME_OF(p) (p)->frame[0], (p)->frame[1], (p)->frame[2], (p)->frame[3]

/* ---- errors.c */

/* Ends with the error of a refusal's number. detail may be NULL. */
extern void refuse(uint32 number, const char *detail) pg_attribute_noreturn();
/* Ends with the error of a fault. */
extern void refuse_fault(const Survey *p, const Fault *f) pg_attribute_noreturn();
extern const char *fault_words(const Fault *f);
/* Where it is, in words, or NULL. */
extern char *fault_place(const Survey *p, const Fault *f);
extern char *gauge_words(const Survey *p, uint32 site);
/* What a gauge is called in rows and messages. */
extern uint32 gauge_number(const Survey *p, uint32 site);

/* ---- pieces.c: the only file that says how pieces are made and looked at */

/* The pieces of a survey's mesh and their areas; whether they are sound, or in *f what is wrong. Refusals end with their error. */
extern bool make_pieces(Survey *p, Fault *f);
/* Whether the certificate passes the pieces of a survey, from anywhere: the gauges' own, in a box, with the ghosts behind them. */
extern bool look_over(Survey *p, Fault *f);
/* voronoi_build on a lent mesh, its areas, and the audit. */
extern bool build_pieces(Survey *p, Fault *f);
/* What voronoi_why says of a lent mesh: the number, and the place in words or NULL. */
extern uint32 why_refused(Survey *p, char **place);

/* ---- cancel.c */

/* A call of the library and nothing else: where the query is cancelled meanwhile it is left at once. */
extern void run_cancellable(void (*call)(void *), void *with);

/* ---- block.c */

/* Room for the lists of n gauges, and of their pieces where they are to be made: one block for all. */
extern void lay_out(Survey *p, size_t n, bool pieces);
/* Room for what is made later: in what is left of the block, or where it does not fit there by palloc. It is given back with the block, never by pfree. */
extern void *room_in(Survey *p, size_t bytes);
/* The room behind the vertices, which are made, is left. */
extern void leave_vertices(Survey *p);
/* The lists: they are large, and what comes next may stand where they stood. */
extern void give_back(Survey *p);

/* Memory for one value after the other: of so many bytes, which are set as its length; what stood there is lost. */
typedef struct {
    struct varlena *value;
    size_t room;
} Growing;

extern void *grown(Growing *g, size_t bytes);

/* ---- survey.c */

extern void set_frame(Survey *p, const BOX *frame);
/* The gauges of a list, and room for the ghosts, the mesh, and for pieces. Ends with the error where they are too many or none. */
extern void set_gauges(Survey *p, const Point *points, size_t n, bool pieces);
/* The mesh of gauges and ghosts; false where two gauges stand at one place. Where `was` is given the gauges are put in the order of the curve. */
extern bool make_mesh(Survey *p, Fault *f);
/* All of it: frame, gauges, mesh, pieces. */
extern bool survey(Survey *p, const Point *points, size_t n, const BOX *frame, Fault *f);
/* The same, or its error. */
extern void sound_survey(Survey *p, const Point *points, size_t n, const BOX *frame);
/* The same of the arguments points and frame, which begin there. */
extern Survey survey_of(FunctionCallInfo fcinfo, int points);
/* In the order of the list: the site of each gauge, and its area. */
extern uint32 *listed_sites(const Survey *p);
extern double *listed_areas(const Survey *p);
extern bool same_box(const BOX *a, const BOX *b);

/* ---- areas.c */

/* The keys of the gauges, where they have some. */
typedef struct {
    Datum *key;
    bool *none;
} Keys;

extern void read_keys(ArrayType *array, size_t n, Keys *keys);
/* What a row shows of a gauge: its area, its reach, and its piece, as the value itself or as an image in Well-Known Binary of so many bytes. */
typedef struct {
    double area, reach;
    const void *piece;
    size_t length;
} Shown;

/* What is made of an image; it may stand where the one before stood. */
typedef Datum (*Maker)(const uint8 *image, size_t length, void *with);
/* A row for each gauge: its key or else its number, area, reach, and its piece: what `make` makes of its image, or where that is NULL the image. After InitMaterializedSRF. */
extern Datum put_pieces(FunctionCallInfo fcinfo, Survey *p, const Keys *keys, Maker make, void *with);
/* ---- rows.c */

enum { ROW_BYTES = 40 }; /* before a piece that is a value: room for its row */

/* Forms the row of a number before its piece. */
extern void form_row(uint32 number, const Shown *one);
/* A row for each of what is to be shown, in the order of the list; where `make` is NULL the pieces are values, and where there are no keys too each stands behind its row. The lists of the survey are given back. */
extern Datum put_rows(FunctionCallInfo fcinfo, Survey *p, const Keys *keys, const Shown *shown, Maker make, void *with);

/* ---- audit.c */

typedef struct {
    const uint8 *at;
    size_t length; /* 0 where there is none */
} Bytes;

/* The row that an audit answers. */
extern Datum audit_row(FunctionCallInfo fcinfo, const Point *points, size_t n, const BOX *frame, const Bytes *pieces, size_t count);

/* ---- volume.c: the groups of an aggregate */

typedef struct {
    Point place;
    double reading;
} Row;

typedef struct {
    MemoryContext context;
    size_t n, room;
    int64 rows_seen, silent; /* silent: of these, what has no place or no reading */
    Row *rows;
    BOX frame;
    int32 srid;              /* over geometry: of the frame, and the frame itself, as it came first */
    struct varlena *geometry;
} Readings;

/* The group of the arguments (state, place, reading, frame); its frame is set by the caller. */
extern Readings *group_of(FunctionCallInfo fcinfo);
extern void group_add(Readings *g, const Point *place, bool no_reading, double reading);
extern void refuse_boxes(void) pg_attribute_noreturn();

/* ---- kept.c: geometries as PostGIS 3 keeps them */

/* A Point, or a MultiPoint, of two coordinates: false, or NULL, where it is another geometry, has an empty Point, or is kept otherwise. */
extern bool kept_place(const struct varlena *value, Point *place, int32 *srid);
extern Point *kept_places(const struct varlena *value, size_t *n, int32 *srid);
/* The bytes of the Polygon of a piece of so many corners; and it, written there, with its reach. */
extern size_t kept_bytes(size_t corners);
extern size_t kept_polygon(char *to, int32 srid, const Survey *p, size_t site, double *reach);

/* ---- lists.c: arguments and results */

/* The length of a list; ends with the error where it is a table of something. */
extern size_t length_of(const ArrayType *list, const char *what);
/* The elements of a list, and which of them are NULL: how many they are. */
extern size_t elements_of(ArrayType *list, const char *what, Datum **elements, bool **none);
/* Ends with the error where there are not as many of them as gauges. */
extern void as_many(size_t gauges, size_t count, const char *what);
/* The points of an array without NULL, in place. */
extern const Point *points_of(ArrayType *array, size_t *n);
extern Datum float_list(const double *values, size_t n);
extern Datum number_list(const uint32 *values, size_t n, uint32 add);

/* ---- wkb.c */

/* A reader of Well-Known Binary, PostGIS's extended one too: Z and M are read and left out. */
typedef struct {
    const uint8 *first, *at, *end;
    bool little;
    uint32 type; /* of the geometry that is read: 1 a point, 3 a polygon, 4 and 6 their lists */
    int extra;   /* numbers after x and y */
    int32 srid;  /* 0 where it has none */
} Wkb;

/* The head of a geometry; false where the bytes are none. */
extern bool read_head(Wkb *w);
extern bool read_count(Wkb *w, uint32 *count);
extern bool read_place(Wkb *w, Point *place);
/* The corners of a polygon of one ring, or of a list of one such polygon, without the last that repeats the first; room for `room`. *count 0: it is empty. */
extern bool read_ring(Wkb *w, Point *corners, size_t room, size_t *count);
/* The pieces as Polygons: the image of a site is at[starts[site]] and what follows, up to starts[site + 1]. */
typedef struct {
    uint8 *at;
    uint64 *starts;
} Images;

extern Images all_images(Survey *p);
/* The image of one; a piece of no area is no polygon, and its image that of an empty one. */
extern const uint8 *image_of(const Survey *p, const Images *images, size_t site, size_t *length);
/* A piece as a Polygon, alone. */
extern bytea *piece_wkb(const Survey *p, size_t site);
/* The distance from a gauge to its piece's farthest corner. */
extern double piece_reach(const Survey *p, size_t site);

#endif
