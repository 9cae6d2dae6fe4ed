/* CREATE VIRTUAL TABLE shops USING spgist(quad): points in an SP-GiST index, for SQLite.

   The table has a rowid, and the columns x and y, whole numbers of 32 bits. Its points stand in a table NAME_points, which
   SQLite keeps; the index over them is in memory, made of that table when it is first used, and again after a rollback and
   after a change that another connection made. A bound on x or y (=, <, <=, >, >=, BETWEEN) is answered by the index, and
   rows come by their rowid. A row whose rowid was deleted and comes again costs a vacuum.
   `spgist(kd)` takes the other class of points. */
#include "../c/spg.h"
#include <limits.h>
#include <math.h>
#include <string.h>
#include <sqlite3ext.h>
SQLITE_EXTENSION_INIT1

/* The most pages of an index. */
#define PAGES 131072

/* Rowids are from 0 on, and below this one: a row has a block of 32 bits, and 2^15 of the offsets there. */
#define BEYOND ((sqlite3_int64)1 << 47)

typedef struct {
    sqlite3_vtab base;
    sqlite3 *db;
    char *schema, *name;
    uint32_t class_number;
    spg_index index;
    bool made;          /* whether the index is that of the points */
    sqlite3_int64 seen; /* the version of the database that it was made of */
    sqlite3_stmt *version, *get, *add, *drop;
} table;

typedef struct {
    sqlite3_vtab_cursor base;
    spg_row *rows;
    size_t count, room, at;
    bool read; /* whether x and y are those of the row */
    int x, y;
} cursor;

static spg_row row_of(sqlite3_int64 id) {
    return (spg_row){(uint32_t)(id >> 15), (uint16_t)((id & 32767) + 1)};
}

static sqlite3_int64 id_of(spg_row row) {
    return ((sqlite3_int64)row.block << 15) + row.offset - 1;
}

/* An answer of the library as one of SQLite. */
static int answer_of(table *t, uint32_t answer) {
    if (answer == SPG_OK) return SQLITE_OK;
    if (answer == SPG_MEMORY) return SQLITE_NOMEM;
    char text[64];
    size_t len = spg_text(answer, text, sizeof text);
    sqlite3_free(t->base.zErrMsg);
    t->base.zErrMsg = sqlite3_mprintf("spgist: %.*s", (int)len, text);
    return answer == SPG_FULL ? SQLITE_FULL : SQLITE_ERROR;
}

static int refuse(table *t, int code, const char *why) {
    sqlite3_free(t->base.zErrMsg);
    t->base.zErrMsg = sqlite3_mprintf("spgist: %s", why);
    return code;
}

/* ---- the points and the index of them */

/* Runs a text with the schema and the name of the table in it. */
static int run(table *t, const char *text) {
    char *sql = sqlite3_mprintf(text, t->schema, t->name);
    if (!sql) return SQLITE_NOMEM;
    int rc = sqlite3_exec(t->db, sql, NULL, NULL, NULL);
    sqlite3_free(sql);
    return rc;
}

static int prepare(table *t, const char *text, sqlite3_stmt **out) {
    if (*out) return SQLITE_OK;
    char *sql = sqlite3_mprintf(text, t->schema, t->name);
    if (!sql) return SQLITE_NOMEM;
    int rc = sqlite3_prepare_v3(t->db, sql, -1, SQLITE_PREPARE_PERSISTENT, out, NULL);
    sqlite3_free(sql);
    return rc;
}

static int prepare_all(table *t) {
    int rc = prepare(t, "PRAGMA \"%w\".data_version", &t->version);
    if (rc == SQLITE_OK) rc = prepare(t, "SELECT x, y FROM \"%w\".\"%w_points\" WHERE id = ?", &t->get);
    if (rc == SQLITE_OK) rc = prepare(t, "INSERT INTO \"%w\".\"%w_points\" VALUES (?, ?, ?)", &t->add);
    if (rc == SQLITE_OK) rc = prepare(t, "DELETE FROM \"%w\".\"%w_points\" WHERE id = ?", &t->drop);
    return rc;
}

/* Puts a row. One that was deleted and not swept yet goes first. */
static int put(table *t, sqlite3_int64 id, int x, int y) {
    uint32_t answer = spg_insert_point(&t->index, row_of(id), x, y);
    if (answer == SPG_USED) {
        uint64_t swept = 0;
        answer = spg_vacuum(&t->index, &swept);
        if (answer == SPG_OK) answer = spg_insert_point(&t->index, row_of(id), x, y);
    }
    return answer_of(t, answer);
}

static int make(table *t) {
    sqlite3_stmt *all = NULL;
    int rc = prepare(t, "SELECT id, x, y FROM \"%w\".\"%w_points\"", &all);
    if (rc == SQLITE_OK) rc = answer_of(t, spg_open(&t->index, t->class_number, PAGES));
    while (rc == SQLITE_OK && sqlite3_step(all) == SQLITE_ROW)
        rc = put(t, sqlite3_column_int64(all, 0), sqlite3_column_int(all, 1), sqlite3_column_int(all, 2));
    int last = sqlite3_finalize(all);
    return rc == SQLITE_OK ? last : rc;
}

/* The index is that of the points then. */
static int ready(table *t) {
    int rc = prepare_all(t);
    if (rc != SQLITE_OK) return rc;
    sqlite3_int64 version = sqlite3_step(t->version) == SQLITE_ROW ? sqlite3_column_int64(t->version, 0) : -1;
    sqlite3_reset(t->version);
    if (t->made && t->seen == version) return SQLITE_OK;
    t->made = false;
    rc = make(t);
    if (rc != SQLITE_OK) return rc;
    t->made = true;
    t->seen = version;
    return SQLITE_OK;
}

/* ---- tables */

static int disconnect(sqlite3_vtab *v) {
    table *t = (table *)v;
    sqlite3_finalize(t->version);
    sqlite3_finalize(t->get);
    sqlite3_finalize(t->add);
    sqlite3_finalize(t->drop);
    spg_close(&t->index);
    sqlite3_free(t->schema);
    sqlite3_free(t->name);
    sqlite3_free(t);
    return SQLITE_OK;
}

static int connect(sqlite3 *db, void *aux, int argc, const char *const *argv, sqlite3_vtab **out, char **error) {
    (void)aux;
    uint32_t class_number = SPG_QUAD;
    if (argc > 4 || (argc == 4 && strcmp(argv[3], "quad") != 0 && strcmp(argv[3], "kd") != 0)) {
        *error = sqlite3_mprintf("spgist: give quad or kd");
        return SQLITE_ERROR;
    }
    if (argc == 4 && strcmp(argv[3], "kd") == 0) class_number = SPG_KD;
    int rc = sqlite3_declare_vtab(db, "CREATE TABLE t(x INTEGER, y INTEGER)");
    if (rc != SQLITE_OK) return rc;
    table *t = sqlite3_malloc(sizeof *t);
    if (!t) return SQLITE_NOMEM;
    memset(t, 0, sizeof *t);
    t->db = db;
    t->class_number = class_number;
    t->schema = sqlite3_mprintf("%s", argv[1]);
    t->name = sqlite3_mprintf("%s", argv[2]);
    if (!t->schema || !t->name) {
        disconnect(&t->base);
        return SQLITE_NOMEM;
    }
    sqlite3_vtab_config(db, SQLITE_VTAB_CONSTRAINT_SUPPORT, 1);
    *out = &t->base;
    return SQLITE_OK;
}

static int create(sqlite3 *db, void *aux, int argc, const char *const *argv, sqlite3_vtab **out, char **error) {
    int rc = connect(db, aux, argc, argv, out, error);
    if (rc != SQLITE_OK) return rc;
    rc = run((table *)*out, "CREATE TABLE \"%w\".\"%w_points\"(id INTEGER PRIMARY KEY, x INTEGER NOT NULL, y INTEGER NOT NULL)");
    if (rc != SQLITE_OK) {
        *error = sqlite3_mprintf("%s", sqlite3_errmsg(db));
        disconnect(*out);
        *out = NULL;
    }
    return rc;
}

static int destroy(sqlite3_vtab *v) {
    int rc = run((table *)v, "DROP TABLE \"%w\".\"%w_points\"");
    return rc == SQLITE_OK ? disconnect(v) : rc;
}

static int rename_to(sqlite3_vtab *v, const char *name) {
    table *t = (table *)v;
    char *own = sqlite3_mprintf("%s", name);
    char *sql = sqlite3_mprintf("ALTER TABLE \"%w\".\"%w_points\" RENAME TO \"%w_points\"", t->schema, t->name, name);
    int rc = own && sql ? sqlite3_exec(t->db, sql, NULL, NULL, NULL) : SQLITE_NOMEM;
    sqlite3_free(sql);
    if (rc != SQLITE_OK) {
        sqlite3_free(own);
        return rc;
    }
    sqlite3_finalize(t->get);
    sqlite3_finalize(t->add);
    sqlite3_finalize(t->drop);
    t->get = t->add = t->drop = NULL;
    sqlite3_free(t->name);
    t->name = own;
    return SQLITE_OK;
}

static int is_shadow(const char *name) { return sqlite3_stricmp(name, "points") == 0; }

/* ---- what a search asks: a letter for each bound, which tells the column and the comparison */

static char letter_of(int column, int op) {
    int at = op == SQLITE_INDEX_CONSTRAINT_EQ   ? 0
             : op == SQLITE_INDEX_CONSTRAINT_LT ? 1
             : op == SQLITE_INDEX_CONSTRAINT_LE ? 2
             : op == SQLITE_INDEX_CONSTRAINT_GT ? 3
             : op == SQLITE_INDEX_CONSTRAINT_GE ? 4
                                                : -1;
    return at < 0 || column < 0 || column > 1 ? 0 : (char)('a' + column * 5 + at);
}

static int best_index(sqlite3_vtab *v, sqlite3_index_info *info) {
    (void)v;
    char *letters = sqlite3_malloc(info->nConstraint + 1);
    int bounds = 0;
    if (!letters) return SQLITE_NOMEM;
    for (int i = 0; i < info->nConstraint; i++) {
        const struct sqlite3_index_constraint *c = &info->aConstraint[i];
        if (c->usable && c->iColumn < 0 && c->op == SQLITE_INDEX_CONSTRAINT_EQ) {
            sqlite3_free(letters);
            for (int k = 0; k < i; k++) info->aConstraintUsage[k] = (struct sqlite3_index_constraint_usage){0, 0};
            info->aConstraintUsage[i].argvIndex = 1;
            info->idxNum = 1;
            info->estimatedCost = 2;
            info->estimatedRows = 1;
            info->idxFlags = SQLITE_INDEX_SCAN_UNIQUE;
            return SQLITE_OK;
        }
        char letter = c->usable ? letter_of(c->iColumn, c->op) : 0;
        if (!letter) continue;
        letters[bounds++] = letter;
        info->aConstraintUsage[i].argvIndex = bounds;
        info->aConstraintUsage[i].omit = 1;
    }
    letters[bounds] = 0;
    info->idxNum = 0;
    info->idxStr = letters;
    info->needToFreeIdxStr = 1;
    info->estimatedCost = 1e6 / (1 << (bounds > 16 ? 16 : 4 * bounds));
    info->estimatedRows = (sqlite3_int64)info->estimatedCost + 1;
    info->orderByConsumed = info->nOrderBy == 1 && info->aOrderBy[0].iColumn < 0 && !info->aOrderBy[0].desc;
    return SQLITE_OK;
}

/* From the lowest to the highest value of a column. */
typedef struct {
    sqlite3_int64 low, high;
} span;

/* Narrows a span by a bound, as SQLite compares: a text and a blob are above each number, and nothing compares with NULL. */
static void narrow(span *s, int op, sqlite3_value *value) {
    static const span none = {1, 0};
    sqlite3_int64 low = LLONG_MIN, high = LLONG_MAX;
    int type = sqlite3_value_numeric_type(value);
    if (type == SQLITE_INTEGER) {
        sqlite3_int64 n = sqlite3_value_int64(value);
        if (op == 0 || op == 4) low = n;
        if (op == 0 || op == 2) high = n;
        if (op == 1 && n == LLONG_MIN) *s = none;
        else if (op == 1) high = n - 1;
        if (op == 3 && n == LLONG_MAX) *s = none;
        else if (op == 3) low = n + 1;
    } else if (type == SQLITE_FLOAT) {
        /* Points are far inside of this. */
        double d = sqlite3_value_double(value), down, up;
        d = d > 1e15 ? 1e15 : d < -1e15 ? -1e15 : d;
        down = floor(d);
        up = ceil(d);
        if (op == 0 && down != up) *s = none;
        if (op == 0 || op == 4) low = (sqlite3_int64)up;
        if (op == 0 || op == 2) high = (sqlite3_int64)down;
        if (op == 1) high = (sqlite3_int64)up - 1;
        if (op == 3) low = (sqlite3_int64)down + 1;
    } else if (type == SQLITE_NULL || op == 0 || op > 2) {
        *s = none;
    }
    if (s->low < low) s->low = low;
    if (s->high > high) s->high = high;
}

/* ---- cursors */

static int open_cursor(sqlite3_vtab *v, sqlite3_vtab_cursor **out) {
    (void)v;
    cursor *c = sqlite3_malloc(sizeof *c);
    if (!c) return SQLITE_NOMEM;
    memset(c, 0, sizeof *c);
    *out = &c->base;
    return SQLITE_OK;
}

static int close_cursor(sqlite3_vtab_cursor *base) {
    sqlite3_free(((cursor *)base)->rows);
    sqlite3_free(base);
    return SQLITE_OK;
}

static int find(table *t, cursor *c, const spg_point_cond *cond) {
    uint32_t answer = cond ? spg_find_points(&t->index, cond, 1, c->rows, c->room, &c->count)
                           : spg_find_all(&t->index, c->rows, c->room, &c->count);
    return answer_of(t, answer);
}

/* Finds all rows, with room for them. */
static int find_with_room(table *t, cursor *c, const spg_point_cond *cond) {
    int rc = find(t, c, cond);
    if (rc != SQLITE_OK || c->count <= c->room) return rc;
    spg_row *rows = sqlite3_realloc64(c->rows, c->count * sizeof *rows);
    if (!rows) return SQLITE_NOMEM;
    c->rows = rows;
    c->room = c->count;
    return find(t, c, cond);
}

static int find_one(table *t, cursor *c, sqlite3_int64 id) {
    if (id < 0 || id >= BEYOND) return SQLITE_OK;
    sqlite3_bind_int64(t->get, 1, id);
    if (sqlite3_step(t->get) == SQLITE_ROW) {
        if (c->room == 0 && !(c->rows = sqlite3_malloc(sizeof *c->rows))) return SQLITE_NOMEM;
        if (c->room == 0) c->room = 1;
        c->rows[0] = row_of(id);
        c->count = 1;
    }
    return sqlite3_reset(t->get);
}

static int filter(sqlite3_vtab_cursor *base, int number, const char *letters, int argc, sqlite3_value **argv) {
    cursor *c = (cursor *)base;
    table *t = (table *)base->pVtab;
    c->count = c->at = 0;
    c->read = false;
    int rc = ready(t);
    if (rc != SQLITE_OK) return rc;
    if (number == 1) return find_one(t, c, sqlite3_value_int64(argv[0]));
    if (argc == 0) return find_with_room(t, c, NULL);
    span s[2] = {{INT32_MIN, INT32_MAX}, {INT32_MIN, INT32_MAX}};
    for (int i = 0; i < argc; i++) narrow(&s[(letters[i] - 'a') / 5], (letters[i] - 'a') % 5, argv[i]);
    if (s[0].low > s[0].high || s[1].low > s[1].high) return SQLITE_OK;
    spg_point_cond cond = {SPG_INSIDE, (int32_t)s[0].low, (int32_t)s[1].low, (int32_t)s[0].high, (int32_t)s[1].high};
    return find_with_room(t, c, &cond);
}

static int next(sqlite3_vtab_cursor *base) {
    cursor *c = (cursor *)base;
    c->at++;
    c->read = false;
    return SQLITE_OK;
}

static int is_at_end(sqlite3_vtab_cursor *base) { return ((cursor *)base)->at >= ((cursor *)base)->count; }

static int rowid(sqlite3_vtab_cursor *base, sqlite3_int64 *out) {
    cursor *c = (cursor *)base;
    *out = id_of(c->rows[c->at]);
    return SQLITE_OK;
}

static int column(sqlite3_vtab_cursor *base, sqlite3_context *context, int which) {
    cursor *c = (cursor *)base;
    table *t = (table *)base->pVtab;
    if (!c->read) {
        sqlite3_bind_int64(t->get, 1, id_of(c->rows[c->at]));
        c->read = sqlite3_step(t->get) == SQLITE_ROW;
        if (c->read) {
            c->x = sqlite3_column_int(t->get, 0);
            c->y = sqlite3_column_int(t->get, 1);
        }
        int rc = sqlite3_reset(t->get);
        /* A row that was deleted since the search has no point any more. */
        if (rc != SQLITE_OK || !c->read) return rc;
    }
    sqlite3_result_int(context, which == 0 ? c->x : c->y);
    return SQLITE_OK;
}

/* ---- changes: the table of points first, then the index; where the index fails, it is made again */

static int take_out(table *t, sqlite3_int64 id) {
    sqlite3_bind_int64(t->drop, 1, id);
    sqlite3_step(t->drop);
    int rc = sqlite3_reset(t->drop);
    if (rc != SQLITE_OK || sqlite3_changes(t->db) == 0) return rc;
    return answer_of(t, spg_delete(&t->index, row_of(id)));
}

static bool is_coordinate(sqlite3_value *value) {
    sqlite3_int64 n = sqlite3_value_int64(value);
    return sqlite3_value_numeric_type(value) == SQLITE_INTEGER && n >= INT32_MIN && n <= INT32_MAX;
}

static int add(table *t, sqlite3_value *id, sqlite3_value *x, sqlite3_value *y, sqlite3_int64 *out) {
    if (!is_coordinate(x) || !is_coordinate(y)) return refuse(t, SQLITE_CONSTRAINT, "x and y are whole numbers of 32 bits");
    if (sqlite3_value_type(id) != SQLITE_NULL && (sqlite3_value_int64(id) < 0 || sqlite3_value_int64(id) >= BEYOND))
        return refuse(t, SQLITE_CONSTRAINT, "a rowid is from 0 to 2^47 - 1");
    sqlite3_bind_value(t->add, 1, id);
    sqlite3_bind_value(t->add, 2, x);
    sqlite3_bind_value(t->add, 3, y);
    sqlite3_step(t->add);
    int rc = sqlite3_reset(t->add);
    if (rc != SQLITE_OK) return rc;
    *out = sqlite3_last_insert_rowid(t->db);
    if (*out >= BEYOND) return refuse(t, SQLITE_FULL, "no rowid is left");
    return put(t, *out, sqlite3_value_int(x), sqlite3_value_int(y));
}

static int change(table *t, int argc, sqlite3_value **argv, sqlite3_int64 *out) {
    int rc = SQLITE_OK;
    if (sqlite3_value_type(argv[0]) != SQLITE_NULL) rc = take_out(t, sqlite3_value_int64(argv[0]));
    if (argc == 1 || rc != SQLITE_OK) return rc;
    if (sqlite3_value_type(argv[1]) != SQLITE_NULL && sqlite3_vtab_on_conflict(t->db) == SQLITE_REPLACE)
        rc = take_out(t, sqlite3_value_int64(argv[1]));
    return rc == SQLITE_OK ? add(t, argv[1], argv[2], argv[3], out) : rc;
}

static int update(sqlite3_vtab *v, int argc, sqlite3_value **argv, sqlite3_int64 *out) {
    table *t = (table *)v;
    int rc = ready(t);
    if (rc != SQLITE_OK) return rc;
    rc = change(t, argc, argv, out);
    if (rc != SQLITE_OK) t->made = false;
    return rc;
}

/* ---- transactions */

static int go_on(sqlite3_vtab *v) {
    (void)v;
    return SQLITE_OK;
}

static int roll_back(sqlite3_vtab *v) {
    ((table *)v)->made = false;
    return SQLITE_OK;
}

static int go_on_at(sqlite3_vtab *v, int point) {
    (void)point;
    return go_on(v);
}

static int roll_back_to(sqlite3_vtab *v, int point) {
    (void)point;
    return roll_back(v);
}

static sqlite3_module module = {
    .iVersion = 3,
    .xCreate = create,
    .xConnect = connect,
    .xBestIndex = best_index,
    .xDisconnect = disconnect,
    .xDestroy = destroy,
    .xOpen = open_cursor,
    .xClose = close_cursor,
    .xFilter = filter,
    .xNext = next,
    .xEof = is_at_end,
    .xColumn = column,
    .xRowid = rowid,
    .xUpdate = update,
    .xBegin = go_on,
    .xSync = go_on,
    .xCommit = go_on,
    .xRollback = roll_back,
    .xRename = rename_to,
    .xSavepoint = go_on_at,
    .xRelease = go_on_at,
    .xRollbackTo = roll_back_to,
    .xShadowName = is_shadow,
};

int sqlite3_spgist_init(sqlite3 *db, char **error, const sqlite3_api_routines *api) {
    (void)error;
    SQLITE_EXTENSION_INIT2(api);
    return sqlite3_create_module(db, "spgist", &module, NULL);
}
