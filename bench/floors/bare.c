/* bare.c: what a bare C program needs that keeps the same history and answers the calls of bench/sqlite's scripts with
   the same bytes. Statements of eight sessions, with a transaction each and one cursor at a time for all, on tables of
   BIGINT columns; rows keep versions (from, to); indexes are B+ trees of (key, row) whose entries stay; the whole script
   is read first, texts in the history point into it, replies are kept and written at the end. */
#include <stddef.h>
#include <stdint.h>
#include <stdio.h>
#include <stdlib.h>
#include <string.h>

typedef int64_t i64;
typedef uint64_t u64;
typedef uint32_t u32;
typedef uint8_t u8;
enum { CREATED, BEGAN, INSERTED, TOUCHED, COMMITTED, OPENED, ROW, END, CLOSED };
typedef struct {
    const char *text;
    u32 len;
    u8 session, kind;
    u8 width;
    u64 number;
} Entry; /* 24 bytes; a row's values are numbered in `vals` */
typedef struct {
    u64 from, to;
    i64 next;
    i64 v[2];
} Version; /* one of a row's versions */
typedef struct {
    char name[8];
    int width;
    char col[2][8];
    Version *vs;
    u64 count, room;
    u64 *rows;
    u64 nrows, rroom;
} Table;
#define LEAF 64
typedef struct Node {
    int n, leaf;
    i64 key[LEAF];
    u64 row[LEAF];
    struct Node *kid[LEAF + 1];
    struct Node *next;
} Node;
typedef struct {
    int table, col;
    Node *root;
} Index;
static Table T[8];
static int nt;
static Index X[32];
static int nx;
static Entry *H;
static u64 nh;
static i64 *vals;
static u64 nv, rv;
static u64 last, txns;
typedef struct {
    int table;
    u64 row;
    i64 v[2];
    int kind;
} Change;
typedef struct {
    Change *c;
    u64 n, room;
    u64 base;
    int on;
} Txn;
static Txn S[9];
typedef struct {
    int kind;
    int table, idx, outer, ocol, icol;
    i64 lo, hi;
    int has2, col2;
    i64 lo2, hi2;
    u64 at;
    Node *leaf;
    int pos;
    u64 base;
    u64 *sorted;
    u64 ns;
    int inner_on;
    u64 orow;
    int ret_n, ret_t[4], ret_c[4];
} Cursor;
static Cursor C;

static Node **next_of(Node *n);
/* leaves keep their next pointer behind the entries */
typedef struct {
    int n, leaf;
    i64 key[LEAF];
    u64 row[LEAF];
    Node *next;
} Leaf;
static Node *new_leaf(void) {
    Leaf *l = malloc(sizeof(Leaf));
    l->n = 0;
    l->leaf = 1;
    l->next = NULL;
    return (Node *)l;
}
static Node **next_of(Node *n) {
    return &((Leaf *)n)->next;
}
static int below(i64 k, u64 r, i64 a, u64 b) {
    return k < a || (k == a && r < b);
}
static int place(Node *n, i64 k, u64 r) {
    int lo = 0, hi = n->n;
    while (lo < hi) {
        int m = (lo + hi) / 2;
        if (below(n->key[m], n->row[m], k, r))
            lo = m + 1;
        else
            hi = m;
    }
    return lo;
}
static Node *put(Node *n, i64 k, u64 r, i64 *ck, u64 *cr) {
    if (n->leaf) {
        int at = place(n, k, r);
        memmove(n->key + at + 1, n->key + at, 8 * (n->n - at));
        memmove(n->row + at + 1, n->row + at, 8 * (n->n - at));
        n->key[at] = k;
        n->row[at] = r;
        n->n++;
        if (n->n < LEAF)
            return NULL;
        Node *m = new_leaf();
        int h = LEAF / 2;
        m->n = n->n - h;
        n->n = h;
        memcpy(m->key, n->key + h, 8 * m->n);
        memcpy(m->row, n->row + h, 8 * m->n);
        *next_of(m) = *next_of(n);
        *next_of(n) = m;
        *ck = m->key[0];
        *cr = m->row[0];
        return m;
    }
    int at = place(n, k, r + 1);
    i64 k2;
    u64 r2;
    Node *s = put(n->kid[at], k, r, &k2, &r2);
    if (!s)
        return NULL;
    memmove(n->key + at + 1, n->key + at, 8 * (n->n - at));
    memmove(n->row + at + 1, n->row + at, 8 * (n->n - at));
    memmove(n->kid + at + 2, n->kid + at + 1, 8 * (n->n - at));
    n->key[at] = k2;
    n->row[at] = r2;
    n->kid[at + 1] = s;
    n->n++;
    if (n->n < LEAF)
        return NULL;
    Node *m = malloc(sizeof(Node));
    int h = LEAF / 2;
    m->leaf = 0;
    m->n = n->n - h - 1;
    *ck = n->key[h];
    *cr = n->row[h];
    memcpy(m->key, n->key + h + 1, 8 * m->n);
    memcpy(m->row, n->row + h + 1, 8 * m->n);
    memcpy(m->kid, n->kid + h + 1, 8 * (m->n + 1));
    n->n = h;
    return m;
}
static void add(Index *x, i64 k, u64 r) {
    i64 ck;
    u64 cr;
    Node *s = put(x->root, k, r, &ck, &cr);
    if (s) {
        Node *m = malloc(sizeof(Node));
        m->leaf = 0;
        m->n = 1;
        m->key[0] = ck;
        m->row[0] = cr;
        m->kid[0] = x->root;
        m->kid[1] = s;
        x->root = m;
    }
}
static void seek(Index *x, i64 k, Node **leaf, int *pos) {
    Node *n = x->root;
    while (!n->leaf)
        n = n->kid[place(n, k, 0)];
    *leaf = n;
    *pos = place(n, k, 0);
}
static Version *seen(Table *t, u64 row, u64 base) {
    i64 at = t->rows[row];
    while (at >= 0) {
        Version *v = t->vs + at;
        if (v->from <= base)
            return base < v->to ? v : NULL;
        at = v->next;
    }
    return NULL;
}

static const char *p;
static void sp(void) {
    while (*p == ' ' || *p == '(' || *p == ',' || *p == ')')
        p++;
}
static int word(const char *w) {
    size_t n = strlen(w);
    sp();
    if (strncmp(p, w, n))
        return 0;
    p += n;
    return 1;
}
static void name(char *to) {
    sp();
    int i = 0;
    while ((*p >= 'A' && *p <= 'Z') || (*p >= '0' && *p <= '9')) {
        if (i < 7)
            to[i++] = *p;
        p++;
    }
    to[i] = 0;
}
static i64 number(void) {
    sp();
    int neg = *p == '-';
    if (neg)
        p++;
    i64 v = 0;
    while (*p >= '0' && *p <= '9')
        v = v * 10 + *p++ - '0';
    return neg ? -v : v;
}
static int table_of(const char *n) {
    for (int i = 0; i < nt; i++)
        if (!strcmp(T[i].name, n))
            return i;
    abort();
}
static int col_of(int t, const char *n) {
    for (int i = 0; i < T[t].width; i++)
        if (!strcmp(T[t].col[i], n))
            return i;
    abort();
}
static int index_over(int t, int c) {
    for (int i = 0; i < nx; i++)
        if (X[i].table == t && X[i].col == c)
            return i;
    return -1;
}
static void condition(int t, int *col, i64 *lo, i64 *hi) {
    char n[8];
    name(n);
    *col = col_of(t, n);
    if (word("BETWEEN")) {
        *lo = number();
        word("AND");
        *hi = number();
    } else {
        word("=");
        *lo = *hi = number();
    }
}
static void stage(Txn *s, Change c) {
    if (s->n == s->room)
        s->c = realloc(s->c, (s->room = s->room ? s->room * 2 : 4) * sizeof(Change));
    s->c[s->n++] = c;
}
static void version(Table *t, u64 row, const i64 *v, u64 commit) {
    if (t->count == t->room)
        t->vs = realloc(t->vs, (t->room = t->room ? t->room * 2 : 64) * sizeof(Version));
    while (t->nrows <= row) {
        if (t->nrows == t->rroom)
            t->rows = realloc(t->rows, (t->rroom = t->rroom ? t->rroom * 2 : 64) * 8);
        t->rows[t->nrows++] = (u64)-1;
    }
    Version *n = t->vs + t->count;
    n->from = commit;
    n->to = (u64)-1;
    n->next = (i64)t->rows[row];
    n->v[0] = v[0];
    n->v[1] = v[1];
    t->rows[row] = t->count++;
}
static u64 next_row[8];
static Table *sort_table;
static int sort_col;
static u64 sort_base;
static int by_col(const void *a, const void *b) {
    i64 x = sort_table->vs[*(u64 *)a].v[sort_col], y = sort_table->vs[*(u64 *)b].v[sort_col];
    if (x != y)
        return x < y ? -1 : 1;
    return *(u64 *)a < *(u64 *)b ? -1 : 1;
}

static void give(Entry *e, int n, Version **of) {
    if (nv + n > rv)
        vals = realloc(vals, (rv = rv ? rv * 2 : 1024) * 8);
    e->kind = ROW;
    e->width = C.ret_n;
    e->number = nv;
    for (int i = 0; i < C.ret_n; i++)
        vals[nv++] = of[C.ret_t[i]]->v[C.ret_c[i]];
}
static int test(Version *v) {
    return !C.has2 || (v->v[C.col2] >= C.lo2 && v->v[C.col2] <= C.hi2);
}
static int row_by_index(Table *t, i64 hi, Version **out) {
    for (;;) {
        if (C.pos >= C.leaf->n) {
            Node *m = *next_of(C.leaf);
            if (!m)
                return 0;
            C.leaf = m;
            C.pos = 0;
            continue;
        }
        i64 k = C.leaf->key[C.pos];
        u64 r = C.leaf->row[C.pos];
        C.pos++;
        if (k > hi)
            return 0;
        Version *v = seen(t, r, C.base);
        if (v && v->v[X[C.idx].col] == k && test(v)) {
            *out = v;
            return 1;
        }
    }
}
static void fetch(Entry *e) {
    Version *of[2];
    Table *t = &T[C.table];
    if (C.kind == 0) {
        while (C.at < t->nrows) {
            Version *v = seen(t, C.at++, C.base);
            if (v && (C.lo > C.hi || (v->v[C.icol] >= C.lo && v->v[C.icol] <= C.hi)) && test(v)) {
                of[0] = v;
                give(e, 2, of);
                return;
            }
        }
        e->kind = END;
        return;
    }
    if (C.kind == 1) {
        if (row_by_index(t, C.hi, &of[0])) {
            give(e, 2, of);
            return;
        }
        e->kind = END;
        return;
    }
    if (C.kind == 2) {
        if (C.at < C.ns) {
            of[0] = t->vs + C.sorted[C.at++];
            give(e, 2, of);
            return;
        }
        e->kind = END;
        return;
    }
    Table *o = &T[C.outer];
    for (;;) {
        if (!C.inner_on) {
            Version *v = NULL;
            while (C.orow < o->nrows && !(v = seen(o, C.orow++, C.base)))
                ;
            if (!v) {
                e->kind = END;
                return;
            }
            C.inner_on = 1;
            C.lo = C.hi = v->v[C.ocol];
            C.ns = C.orow - 1;
            if (C.idx >= 0)
                seek(&X[C.idx], C.lo, &C.leaf, &C.pos);
            else
                C.at = 0;
        }
        of[0] = seen(o, C.ns, C.base);
        if (C.idx >= 0) {
            if (row_by_index(t, C.hi, &of[1])) {
                give(e, 2, of);
                return;
            }
        } else
            while (C.at < t->nrows) {
                Version *v = seen(t, C.at++, C.base);
                if (v && v->v[C.icol] == C.lo) {
                    of[1] = v;
                    give(e, 2, of);
                    return;
                }
            }
        C.inner_on = 0;
    }
}
static void open(Txn *s) {
    char a[8], n[8];
    int star = 0, cols = 0;
    char ct[4][8], cc[4][8];
    memset(&C, 0, sizeof C);
    C.base = s->base;
    C.idx = -1;
    C.lo = 1;
    C.hi = 0;
    word("C");
    word("SELECT");
    if (word("*"))
        star = 1;
    else
        for (;;) {
            name(ct[cols]);
            p++;
            name(cc[cols]);
            cols++;
            if (*p != ',')
                break;
            p++;
        }
    word("FROM");
    name(a);
    C.table = table_of(a);
    sp();
    if (!strncmp(p, "T ", 2) && strcmp(a, "T")) {
        C.kind = 3;
        C.outer = C.table;
        name(n);
        C.table = table_of(n);
    }
    if (star) {
        C.ret_n = T[C.table].width;
        for (int i = 0; i < C.ret_n; i++) {
            C.ret_t[i] = 0;
            C.ret_c[i] = i;
        }
    } else {
        C.ret_n = cols;
        for (int i = 0; i < cols; i++) {
            C.ret_t[i] = table_of(ct[i]) == C.table;
            C.ret_c[i] = col_of(table_of(ct[i]), cc[i]);
        }
    }
    if (C.kind == 3) {
        word("WHERE");
        name(n);
        p++;
        name(n);
        C.icol = col_of(C.table, n);
        word("=");
        name(n);
        p++;
        name(n);
        C.ocol = col_of(C.outer, n);
        C.idx = index_over(C.table, C.icol);
        return;
    }
    if (word("WHERE")) {
        condition(C.table, &C.icol, &C.lo, &C.hi);
        int x = index_over(C.table, C.icol);
        if (word("AND")) {
            C.has2 = 1;
            condition(C.table, &C.col2, &C.lo2, &C.hi2);
        }
        if (x >= 0) {
            C.kind = 1;
            C.idx = x;
            seek(&X[x], C.lo, &C.leaf, &C.pos);
        }
    } else if (word("ORDER BY")) {
        name(n);
        int c = col_of(C.table, n), x = index_over(C.table, c);
        if (x >= 0) {
            C.kind = 1;
            C.idx = x;
            C.lo = INT64_MIN;
            C.hi = INT64_MAX;
            seek(&X[x], C.lo, &C.leaf, &C.pos);
        } else {
            Table *t = &T[C.table];
            C.kind = 2;
            C.sorted = malloc(8 * (t->nrows + 1));
            for (u64 r = 0; r < t->nrows; r++) {
                Version *v = seen(t, r, C.base);
                if (v)
                    C.sorted[C.ns++] = v - t->vs;
            }
            sort_table = t;
            sort_col = c;
            qsort(C.sorted, C.ns, 8, by_col);
        }
    }
}
static void call(Entry *e) {
    Txn *s = &S[e->session];
    if (word("FETCH")) {
        fetch(e);
        return;
    }
    if (word("INSERT INTO")) {
        char n[8];
        name(n);
        int t = table_of(n);
        word("VALUES");
        Change c = {t, next_row[t]++, {0, 0}, 1};
        for (int i = 0; i < T[t].width; i++)
            c.v[i] = number();
        stage(s, c);
        e->kind = INSERTED;
        e->number = c.row;
        return;
    }
    if (word("BEGIN")) {
        s->on = 1;
        s->base = last;
        s->n = 0;
        e->kind = BEGAN;
        e->number = ++txns;
        return;
    }
    if (word("COMMIT")) {
        e->kind = COMMITTED;
        e->number = s->base;
        if (s->n) {
            u64 c = ++last;
            for (u64 i = 0; i < s->n; i++) {
                Change *h = &s->c[i];
                Table *t = &T[h->table];
                i64 was = h->kind == 1 || h->row >= t->nrows ? -1 : (i64)t->rows[h->row];
                if (was >= 0)
                    t->vs[was].to = c;
                if (h->kind != 3) {
                    version(t, h->row, h->v, c);
                    for (int x = 0; x < nx; x++)
                        if (X[x].table == h->table && (was < 0 || t->vs[was].v[X[x].col] != h->v[X[x].col]))
                            add(&X[x], h->v[X[x].col], h->row);
                }
            }
            e->number = c;
        }
        if (s->room > 1024) {
            free(s->c);
            s->c = NULL;
            s->room = 0;
        }
        s->on = 0;
        return;
    }
    if (word("OPEN")) {
        open(s);
        e->kind = OPENED;
        return;
    }
    if (word("CLOSE")) {
        free(C.sorted);
        C.sorted = NULL;
        e->kind = CLOSED;
        return;
    }
    int del = 0;
    if (word("UPDATE") || (del = word("DELETE FROM"))) {
        char n[8];
        name(n);
        int t = table_of(n), c, w = 0;
        i64 v = 0, lo, hi;
        if (!del) {
            word("SET");
            name(n);
            w = col_of(t, n);
            word("=");
            v = number();
        }
        word("WHERE");
        condition(t, &c, &lo, &hi);
        u64 count = 0;
        int x = index_over(t, c);
        if (x >= 0) {
            Node *l;
            int at;
            seek(&X[x], lo, &l, &at);
            for (;;) {
                if (at >= l->n) {
                    l = *next_of(l);
                    at = 0;
                    if (!l)
                        break;
                    continue;
                }
                if (l->key[at] > hi)
                    break;
                u64 r = l->row[at++];
                Version *o = seen(&T[t], r, s->base);
                if (!o || o->v[c] < lo || o->v[c] > hi)
                    continue;
                Change h = {t, r, {o->v[0], o->v[1]}, del ? 3 : 2};
                if (!del)
                    h.v[w] = v;
                stage(s, h);
                count++;
            }
        } else
            for (u64 r = 0; r < T[t].nrows; r++) {
                Version *o = seen(&T[t], r, s->base);
                if (!o || o->v[c] < lo || o->v[c] > hi)
                    continue;
                Change h = {t, r, {o->v[0], o->v[1]}, del ? 3 : 2};
                if (!del)
                    h.v[w] = v;
                stage(s, h);
                count++;
            }
        e->kind = TOUCHED;
        e->number = count;
        return;
    }
    if (word("CREATE TABLE")) {
        Table *t = &T[nt];
        name(t->name);
        while (t->width < 2) {
            sp();
            if (*p < 'A' || *p > 'Z')
                break;
            name(t->col[t->width++]);
            word("BIGINT");
        }
        nt++;
        e->kind = CREATED;
        return;
    }
    if (word("CREATE INDEX")) {
        char n[8];
        name(n);
        word("ON");
        name(n);
        Index *x = &X[nx];
        x->table = table_of(n);
        name(n);
        x->col = col_of(x->table, n);
        x->root = new_leaf();
        nx++;
        Table *t = &T[x->table];
        for (u64 r = 0; r < t->nrows; r++) {
            Version *v = seen(t, r, last);
            if (v)
                add(x, v->v[x->col], r);
        }
        e->kind = CREATED;
        return;
    }
    abort();
}
static char out[1 << 16];
static size_t no;
static void w(const char *s, size_t n) {
    if (no + n > sizeof out) {
        fwrite(out, 1, no, stdout);
        no = 0;
    }
    memcpy(out + no, s, n);
    no += n;
}
static void wn(i64 v) {
    char b[24];
    int i = 24;
    u64 u = v < 0 ? -(u64)v : (u64)v;
    do
        b[--i] = '0' + u % 10;
    while (u /= 10);
    if (v < 0)
        b[--i] = '-';
    w(b + i, 24 - i);
}
int main(void) {
    size_t room = 1 << 20, held = 0, got;
    char *text = malloc(room + 1);
    while ((got = fread(text + held, 1, room - held, stdin)) > 0) {
        held += got;
        if (held == room)
            text = realloc(text, (room *= 2) + 1);
    }
    text[held] = 0;
    u64 lines = 0;
    for (char *a = text; (a = memchr(a, '\n', text + held - a)); a++)
        lines++;
    H = malloc(lines * sizeof(Entry));
    char *end;
    for (char *a = text; (end = memchr(a, '\n', text + held - a)); a = end + 1) {
        Entry *e = &H[nh++];
        e->session = a[0] - '0';
        e->text = a;
        e->len = end - a;
        *end = 0;
        p = a + 2;
        call(e);
    }
    static const char *said[] = {"created", "began ", "inserted ", "touched ", "committed ",
                                 "opened",  "row ",   "end",       "closed"};
    static const u8 numbered[] = {0, 1, 1, 1, 1, 0, 0, 0, 0};
    for (u64 i = 0; i < nh; i++) {
        Entry *e = &H[i];
        w(e->text, e->len);
        w("\n= ", 3);
        w(said[e->kind], strlen(said[e->kind]));
        if (numbered[e->kind])
            wn(e->number);
        if (e->kind == ROW)
            for (int j = 0; j < e->width; j++) {
                if (j)
                    w(", ", 2);
                wn(vals[e->number + j]);
            }
        w("\n", 1);
    }
    fwrite(out, 1, no, stdout);
    return 0;
}
