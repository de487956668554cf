/* The same walk in plain C, on the rooms of crates/bench: rows of bits, the degree filter once at the start, and arc
 * consistency by a work list, applied at the start and resumed after each try. Its tries equal those of crates/search; its
 * times are what harness/speed compares with. */
#include <stdbool.h>
#include <stdint.h>
#include <stdio.h>
#include <string.h>
#include <time.h>

typedef struct {
    int count;
    uint64_t row[64];
} Graph;

typedef struct {
    Graph units, bays;
    bool strict;
    uint64_t open[24];
} Room;

/* Numbers that look random: the generator of crates/bench. */

static uint64_t state;

static uint64_t draw(void) {
    state = state * 6364136223846793005u + 1442695040888963407u;
    return state >> 33;
}

static int below(int n) { return (int)(draw() % (uint64_t)n); }

static bool percent(int hundredths) { return below(100) < hundredths; }

static void join(Graph *g, int a, int b) {
    g->row[a] |= 1ull << b;
    g->row[b] |= 1ull << a;
}

typedef enum { RANDOM, TREE, WALL, GRID, RING } Kind;

/* RANDOM: nodes, joints in a hundred; TREE: nodes, joints beyond those of a tree; WALL and GRID: columns, levels;
 * RING: nodes. */
typedef struct {
    Kind kind;
    int size, more;
} Shape;

static Graph drawn(Shape s) {
    Graph g = {.count = s.kind == WALL || s.kind == GRID ? s.size * s.more : s.size};
    switch (s.kind) {
    case RANDOM:
        for (int a = 0; a < s.size; a++)
            for (int b = 0; b < a; b++)
                if (percent(s.more)) join(&g, a, b);
        break;
    case TREE:
        for (int a = 1; a < s.size; a++) join(&g, a, below(a));
        for (int k = 0; k < s.more; k++) {
            int a = below(s.size), b = below(s.size);
            if (a != b) join(&g, a, b);
        }
        break;
    case WALL:
    case GRID:
        for (int a = 0; a < g.count; a++) {
            if (a % s.size + 1 < s.size) join(&g, a, a + 1);
            if (a + s.size < g.count) join(&g, a, a + s.size);
        }
        break;
    case RING:
        for (int a = 0; a < s.size; a++) join(&g, a, (a + 1) % s.size);
        break;
    }
    return g;
}

typedef struct {
    const char *family;
    int rooms;
    Shape units, bays;
    bool strict;
    int open;
} Family;

/* The rooms of crates/bench, in its order. */

static const Family applied[] = {
    {"sparse", 1, {TREE, 24, 8}, {RANDOM, 64, 10}, false, 100},
    {"sparse-thin", 1, {TREE, 24, 8}, {RANDOM, 64, 10}, false, 30},
    {"dense", 1, {RANDOM, 24, 50}, {RANDOM, 64, 60}, false, 100},
    {"dense-thin", 1, {RANDOM, 24, 50}, {RANDOM, 64, 60}, false, 15},
    {"wall", 1, {GRID, 6, 4}, {WALL, 8, 8}, false, 100},
    {"grid", 1, {GRID, 6, 4}, {GRID, 8, 8}, false, 100},
    {"grid-thin", 1, {GRID, 6, 4}, {GRID, 8, 8}, false, 60},
    {"strict", 1, {TREE, 24, 8}, {RANDOM, 64, 30}, true, 100},
    {"strict-thin", 1, {TREE, 24, 8}, {RANDOM, 64, 30}, true, 15},
};

static const Family sought[] = {
    {"sparse", 8, {TREE, 24, 12}, {RANDOM, 64, 15}, false, 60},
    {"dense", 8, {RANDOM, 24, 60}, {RANDOM, 64, 75}, false, 90},
    {"wall", 6, {GRID, 12, 2}, {WALL, 8, 8}, false, 70},
    {"grid", 6, {GRID, 12, 2}, {GRID, 8, 8}, false, 70},
    {"path", 6, {GRID, 20, 1}, {WALL, 8, 8}, false, 70},
    {"strict", 8, {TREE, 12, 4}, {RANDOM, 64, 30}, true, 60},
    {"strict-dense", 4, {RANDOM, 10, 50}, {RANDOM, 64, 50}, true, 70},
    {"none", 3, {RING, 9, 0}, {WALL, 8, 8}, false, 90},
    {"none-dense", 3, {RANDOM, 9, 95}, {RANDOM, 40, 45}, false, 100},
    {"rare", 8, {RANDOM, 10, 60}, {RANDOM, 40, 40}, false, 100},
};

static Room room_of(const Family *f, int number) {
    state = (uint64_t)number;
    Room r = {.units = drawn(f->units), .strict = f->strict};
    r.bays = drawn(f->bays);
    for (int u = 0; u < r.units.count; u++)
        for (int b = 0; b < r.bays.count; b++)
            if (percent(f->open)) r.open[u] |= 1ull << b;
    return r;
}

/* The filters. Each answers whether no row is empty. */

static uint64_t all_of(int n) { return ~0ull >> (64 - n); }

static bool degree(const Room *r, uint64_t *rows) {
    const Graph *a = &r->units, *g = &r->bays;
    uint64_t fewer[65] = {0}; /* at k the bays with fewer than k joints */
    for (int b = 0; b < g->count; b++) fewer[__builtin_popcountll(g->row[b]) + 1] |= 1ull << b;
    for (int k = 0; k < 64; k++) fewer[k + 1] |= fewer[k];
    bool full = true;
    for (int u = 0; u < a->count; u++) {
        int joints = __builtin_popcountll(a->row[u]), most = g->count - (a->count - 1 - joints);
        uint64_t row = rows[u] & ~fewer[joints];
        if (r->strict) row &= most > 0 ? fewer[most] : 0;
        rows[u] = row;
        full &= row != 0;
    }
    return full;
}

/* The bays that agree with some bay of the row, for a joined or an unjoined unit. */
static uint64_t some_agree(const Graph *g, bool joined, uint64_t row, uint64_t all) {
    uint64_t some = 0;
    for (uint64_t rest = row; rest && some != all; rest &= rest - 1) {
        int b = __builtin_ctzll(rest);
        some |= joined ? g->row[b] : all & ~(g->row[b] | 1ull << b);
    }
    return some;
}

static bool keep(uint64_t *rows, uint64_t units, uint64_t bays, uint64_t *changed) {
    for (; units; units &= units - 1) {
        int u = __builtin_ctzll(units);
        uint64_t row = rows[u] & bays;
        if (row != rows[u]) {
            if (!row) return false;
            rows[u] = row;
            *changed |= 1ull << u;
        }
    }
    return true;
}

static bool arc_consistency(const Room *r, uint64_t changed, uint64_t *rows) {
    const Graph *g = &r->bays;
    uint64_t all = all_of(g->count), others = all_of(r->units.count);
    while (changed) {
        int v = __builtin_ctzll(changed);
        changed &= changed - 1;
        uint64_t row = rows[v], joined = r->units.row[v], apart = others & ~joined & ~(1ull << v);
        bool lone = !(row & (row - 1));
        uint64_t if_joined = all, if_apart = all;
        if (lone) {
            if_joined = g->row[__builtin_ctzll(row)];
            if_apart = all & ~row & (r->strict ? ~if_joined : ~0ull);
        } else {
            if (joined) if_joined = some_agree(g, true, row, all);
            if (r->strict && apart) if_apart = some_agree(g, false, row, all);
        }
        if (if_joined != all && !keep(rows, joined, if_joined, &changed)) return false;
        if (if_apart != all && !keep(rows, apart, if_apart, &changed)) return false;
    }
    return true;
}

static bool full(const Room *r, const uint64_t *rows) {
    for (int u = 0; u < r->units.count; u++)
        if (!rows[u]) return false;
    return true;
}

static bool both(const Room *r, uint64_t *rows) {
    return degree(r, rows) && arc_consistency(r, all_of(r->units.count), rows);
}

static bool arcs(const Room *r, uint64_t *rows) {
    return full(r, rows) && arc_consistency(r, all_of(r->units.count), rows);
}

/* The walk. */

static bool settle(const Room *r, int u, const uint64_t *rows, uint64_t *tries, uint8_t *bays) {
    int m = r->units.count;
    if (u == m) {
        for (int i = 0; i < m; i++) bays[i] = (uint8_t)__builtin_ctzll(rows[i]);
        return true;
    }
    uint64_t next[24];
    for (uint64_t rest = rows[u]; rest; rest &= rest - 1) {
        memcpy(next, rows, 8 * (size_t)m);
        next[u] = rest & -rest;
        ++*tries;
        if (arc_consistency(r, 1ull << u, next) && settle(r, u + 1, next, tries, bays)) return true;
    }
    return false;
}

static __attribute__((noinline)) bool seek(const Room *r, uint64_t *tries, uint8_t *bays) {
    uint64_t rows[24];
    memcpy(rows, r->open, sizeof rows);
    *tries = 0;
    return both(r, rows) && settle(r, 0, rows, tries, bays);
}

/* Times. */

static double now(void) {
    struct timespec t;
    clock_gettime(CLOCK_MONOTONIC, &t);
    return (double)t.tv_sec * 1e9 + (double)t.tv_nsec;
}

typedef bool (*Filter)(const Room *, uint64_t *);

static int pairs(const Room *r, const uint64_t *rows) {
    int count = 0;
    for (int u = 0; u < r->units.count; u++) count += __builtin_popcountll(rows[u]);
    return count;
}

/* Arc consistency takes all pairs away where it leaves a row empty. */
static void time_filter(const char *name, Filter filter, bool clears, const Family *f) {
    Room r = room_of(f, 1);
    int turns = 20000;
    uint64_t rows[24];
    bool left = true;
    double start = now();
    for (int k = 0; k < turns; k++) {
        memcpy(rows, r.open, sizeof rows);
        left = filter(&r, rows);
        __asm__ volatile("" : : "r"(left), "r"(rows) : "memory");
    }
    double each = (now() - start) / turns;
    int taken = pairs(&r, r.open) - (clears && !left ? 0 : pairs(&r, rows));
    printf("apply %s %s %d %d %d taken %.0f\n", f->family, name, r.units.count, r.bays.count, taken, each);
}

static void time_seek(const Family *f, int number) {
    Room r = room_of(f, number);
    uint64_t tries;
    uint8_t bays[24];
    bool found = seek(&r, &tries, bays);
    int turns = (int)(20000 / (tries + 20)) + 1;
    double start = now();
    for (int k = 0; k < turns; k++) {
        __asm__ volatile("" : : "r"(&r) : "memory");
        seek(&r, &tries, bays);
    }
    double each = (now() - start) / turns;
    printf("seek %s %d %d %d %llu %s %.0f\n", f->family, number, r.units.count, r.bays.count, (unsigned long long)tries,
           found ? "found" : "none", each);
}

#define COUNT(list) (sizeof(list) / sizeof *(list))

int main(void) {
    for (size_t i = 0; i < COUNT(applied); i++) {
        time_filter("degree", degree, false, &applied[i]);
        time_filter("arcs", arcs, true, &applied[i]);
        time_filter("both", both, true, &applied[i]);
    }
    for (size_t i = 0; i < COUNT(sought); i++)
        for (int k = 1; k <= sought[i].rooms; k++) time_seek(&sought[i], k);
    return 0;
}
