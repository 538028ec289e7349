/* The check of a refutation by `root`, `conn` and `chain`, in plain C: what the checker of crates/refutation_check does for such a block, to compare speeds.
 *
 * usage: check HEIGHT TIMES
 *
 * A tower of HEIGHT conjunctions, t1 = t0 & c1, t2 = t1 & c2, .., implies t0. Its refutation goes down the tower by a step `conn` and a step `chain` for each
 * conjunction. It is checked TIMES times: its terms are put into a table in which no term stands twice, each gets its sort, the steps are laid out over the table,
 * and each has to be given by a row. Prints the number of steps and the microseconds. */
#include <stdint.h>
#include <stdio.h>
#include <stdlib.h>
#include <string.h>
#include <time.h>

enum kind { CH, GOOD, NOT, AND, OR, IMP, TRUE_TERM };
enum sort { NO_SORT, HEAP, BOOL };
enum rule { ROOT, CONN, CHAIN };

typedef struct { int kind; int count; uint32_t args[4]; int64_t index; } term;
typedef struct { uint32_t term; int positive; } literal;
typedef struct { int rule; int numbers; int literals; int64_t number[2]; literal clause[3]; } step;

static void *room(size_t count, size_t size)
{
    void *p = calloc(count ? count : 1, size);
    if (!p) { fputs("out of memory\n", stderr); exit(8); }
    return p;
}

/* terms, none twice: chains of equal hashes, newest first */

typedef struct { term *terms; enum sort *sorts; uint32_t *older, *newest, count, places; } table;

static uint32_t hash(const term *t)
{
    uint64_t h = ((uint64_t)t->kind ^ (uint64_t)t->index << 8) * 0x9E3779B97F4A7C15u;
    for (int i = 0; i < t->count; i++) h = (h ^ t->args[i]) * 0x9E3779B97F4A7C15u;
    return (uint32_t)(h >> 32);
}

static int same(const term *a, const term *b)
{
    if (a->kind != b->kind || a->index != b->index || a->count != b->count) return 0;
    for (int i = 0; i < a->count; i++) if (a->args[i] != b->args[i]) return 0;
    return 1;
}

static enum sort sort_of(const table *t, const term *it)
{
    static const int wanted[] = { 0, 1, 1, 2, 2, 2, 0 };
    enum sort args = it->kind == GOOD ? HEAP : BOOL;
    if (it->count != wanted[it->kind]) return NO_SORT;
    for (int i = 0; i < it->count; i++) if (t->sorts[it->args[i]] != args) return NO_SORT;
    return it->kind == CH ? HEAP : BOOL;
}

static void grow(table *t)
{
    uint32_t places = t->places ? 2 * t->places : 64;
    t->terms = realloc(t->terms, places * sizeof *t->terms);
    t->sorts = realloc(t->sorts, places * sizeof *t->sorts);
    t->older = realloc(t->older, places * sizeof *t->older);
    free(t->newest);
    t->newest = room(places, sizeof *t->newest);
    if (!t->terms || !t->sorts || !t->older) { fputs("out of memory\n", stderr); exit(8); }
    t->places = places;
    for (uint32_t id = 0; id < t->count; id++) {
        uint32_t *bucket = &t->newest[hash(&t->terms[id]) & (places - 1)];
        t->older[id] = *bucket;
        *bucket = id + 1;
    }
}

static uint32_t intern(table *t, const term *it)
{
    if (t->count == t->places) grow(t);
    uint32_t *bucket = &t->newest[hash(it) & (t->places - 1)];
    for (uint32_t id = *bucket; id; id = t->older[id - 1]) if (same(&t->terms[id - 1], it)) return id - 1;
    uint32_t id = t->count++;
    t->terms[id] = *it;
    t->sorts[id] = sort_of(t, it);
    t->older[id] = *bucket;
    *bucket = id + 1;
    return id;
}

/* rows */

typedef struct { uint64_t positive, negative; } marks;

static int is(literal l, uint32_t t, int positive) { return l.term == t && l.positive == positive; }

static int is_connective(const table *t, const step *s)
{
    if (s->numbers != 2 || s->number[1] < 0 || s->number[1] >= t->count) return 0;
    uint32_t id = (uint32_t)s->number[1];
    const term *it = &t->terms[id];
    const literal *c = s->clause;
    int n = s->literals, part = (int)s->number[0];
    uint32_t a = it->args[0], b = it->args[1];
    switch (it->kind) {
    case TRUE_TERM: return part == 1 && n == 1 && is(c[0], id, 1);
    case NOT: return n == 2 && ((part == 1 && is(c[0], id, 1) && is(c[1], a, 1)) || (part == 2 && is(c[0], id, 0) && is(c[1], a, 0)));
    case AND:
        if (part == 3) return n == 3 && is(c[0], id, 1) && is(c[1], a, 0) && is(c[2], b, 0);
        return n == 2 && is(c[0], id, 0) && ((part == 1 && is(c[1], a, 1)) || (part == 2 && is(c[1], b, 1)));
    case OR:
        if (part == 3) return n == 3 && is(c[0], id, 0) && is(c[1], a, 1) && is(c[2], b, 1);
        return n == 2 && is(c[0], id, 1) && ((part == 1 && is(c[1], a, 0)) || (part == 2 && is(c[1], b, 0)));
    case IMP:
        if (part == 3) return n == 3 && is(c[0], id, 0) && is(c[1], a, 0) && is(c[2], b, 1);
        return n == 2 && is(c[0], id, 1) && ((part == 1 && is(c[1], a, 1)) || (part == 2 && is(c[1], b, 0)));
    default: return 0;
    }
}

static void mark(marks *m, uint64_t now, literal l)
{
    if (l.positive) m[l.term].positive = now; else m[l.term].negative = now;
}

static int is_marked(const marks *m, uint64_t now, literal l)
{
    return (l.positive ? m[l.term].positive : m[l.term].negative) == now;
}

static int closes(marks *m, uint64_t now, const step *steps, int64_t below, const step *s)
{
    for (int i = 0; i < s->literals; i++) mark(m, now, s->clause[i]);
    for (int i = 0; i < s->numbers; i++) {
        if (s->number[i] < 0 || s->number[i] >= below) return 0;
        const step *earlier = &steps[s->number[i]];
        int open = 0;
        literal last = { 0, 0 };
        for (int k = 0; k < earlier->literals; k++)
            if (!is_marked(m, now, earlier->clause[k])) { open++; last = earlier->clause[k]; }
        if (open == 0) return i + 1 == s->numbers;
        if (open > 1) return 0;
        last.positive = !last.positive;
        mark(m, now, last);
    }
    return 0;
}

/* the check of a block: a condition's terms and root, and steps over them */

static step laid_out(const step *s, const uint32_t *names)
{
    step over = *s;
    if (s->rule == CONN) over.number[1] = names[s->number[1]];
    for (int i = 0; i < s->literals; i++) over.clause[i].term = names[s->clause[i].term];
    return over;
}

static int is_given(const table *t, const step *steps, int64_t i, uint32_t root, marks *m)
{
    const step *s = &steps[i];
    switch (s->rule) {
    case ROOT: return s->numbers == 0 && s->literals == 1 && is(s->clause[0], root, 0);
    case CONN: return is_connective(t, s);
    default: return closes(m, (uint64_t)i + 1, steps, i, s);
    }
}

static int follows(const term *own, uint32_t terms, uint32_t root, const step *block, int64_t count)
{
    table t = { 0 };
    uint32_t *names = room(terms, sizeof *names);
    for (uint32_t k = 0; k < terms; k++) {
        term it = own[k];
        for (int i = 0; i < it.count; i++) it.args[i] = names[it.args[i]];
        names[k] = intern(&t, &it);
    }
    step *steps = room((size_t)count, sizeof *steps);
    for (int64_t i = 0; i < count; i++) steps[i] = laid_out(&block[i], names);
    marks *m = room(t.count, sizeof *m);
    int good = count > 0;
    for (int64_t i = 0; good && i < count; i++) good = is_given(&t, steps, i, names[root], m);
    good = good && steps[count - 1].literals == 0;
    free(m); free(steps); free(names); free(t.terms); free(t.sorts); free(t.older); free(t.newest);
    return good;
}

/* the tower and its refutation */

typedef struct { term *terms; step *steps; uint32_t count; int64_t length; } tower;

static uint32_t add(tower *w, int kind, int64_t index, int count, uint32_t a, uint32_t b)
{
    w->terms[w->count] = (term){ kind, count, { a, b, 0, 0 }, index };
    return w->count++;
}

static void say(tower *w, int rule, int numbers, int64_t a, int64_t b, int literals, literal x, literal y)
{
    w->steps[w->length++] = (step){ rule, numbers, literals, { a, b }, { x, y, { 0, 0 } } };
}

static literal yes(uint32_t t) { return (literal){ t, 1 }; }
static literal no(uint32_t t) { return (literal){ t, 0 }; }

static uint32_t build(tower *w, uint32_t height)
{
    uint32_t *level = room(height + 1, sizeof *level);
    w->terms = room(3 * (size_t)height + 3, sizeof *w->terms);
    w->steps = room(2 * (size_t)height + 6, sizeof *w->steps);
    level[0] = add(w, GOOD, 0, 1, add(w, CH, 0, 0, 0, 0), 0);
    for (uint32_t n = 1; n <= height; n++)
        level[n] = add(w, AND, 0, 2, level[n - 1], add(w, GOOD, 0, 1, add(w, CH, n, 0, 0, 0), 0));
    uint32_t root = add(w, IMP, 0, 2, level[height], level[0]);
    literal none = no(0);
    say(w, ROOT, 0, 0, 0, 1, no(root), none);
    say(w, CONN, 2, 1, root, 2, yes(root), yes(level[height]));
    say(w, CONN, 2, 2, root, 2, yes(root), no(level[0]));
    say(w, CHAIN, 2, 0, 1, 1, yes(level[height]), none);
    say(w, CHAIN, 2, 0, 2, 1, no(level[0]), none);
    int64_t shown = 3;
    for (uint32_t n = height; n > 0; n--) {
        say(w, CONN, 2, 1, level[n], 2, no(level[n]), yes(level[n - 1]));
        say(w, CHAIN, 2, shown, w->length - 1, 1, yes(level[n - 1]), none);
        shown = w->length - 1;
    }
    say(w, CHAIN, 2, 4, shown, 0, none, none);
    free(level);
    return root;
}

int main(int argc, char **argv)
{
    if (argc != 3) { fputs("usage: check HEIGHT TIMES\n", stderr); return 2; }
    tower w = { 0 };
    uint32_t root = build(&w, (uint32_t)strtoul(argv[1], NULL, 10));
    unsigned long times = strtoul(argv[2], NULL, 10);
    clock_t start = clock();
    for (unsigned long k = 0; k < times; k++)
        if (!follows(w.terms, w.count, root, w.steps, w.length)) { puts("differs"); return 1; }
    printf("%lld in %.0f us\n", (long long)w.length * (long long)times, (double)(clock() - start) * 1e6 / CLOCKS_PER_SEC);
    return 0;
}
