/* The extension of SQLite: markdown_html, markdown_text and markdown_links. README.md of the folder above says what they answer. */
#include "given_page.h"

#include <sqlite3ext.h>

SQLITE_EXTENSION_INIT1

#ifdef _WIN32
#define EXPORTED __declspec(dllexport)
#else
#define EXPORTED __attribute__((visibility("default")))
#endif

enum { OLDEST = 3031000 }; /* the first version of SQLite that knows innocuous functions */

void *database_memory(size_t size) { return sqlite3_malloc64(size); }

void database_release(void *memory) { sqlite3_free(memory); }

/* ---- What is asked for ---- */

/* A page, whose text is NULL where an argument is, and extensions. */
struct request {
    struct mds_view page;
    uint32_t extensions;
};

/* SQLITE_OK, or SQLITE_NOMEM; or SQLITE_ERROR with a message, which is given away. */
static int refused(char **message, char *made) {
    *message = made;
    return made ? SQLITE_ERROR : SQLITE_NOMEM;
}

static int code_of(uint32_t status, char **message) {
    if (status == MDS_OK) return SQLITE_OK;
    if (status == MDS_NO_MEMORY) return SQLITE_NOMEM;
    return refused(message, sqlite3_mprintf("%s", status_message(status)));
}

/* The bytes of a value that is not NULL, as UTF-8; without memory their text is NULL. */
static struct mds_view view_of(sqlite3_value *value) {
    struct mds_view made;
    made.text = sqlite3_value_text(value);
    made.length = made.text ? (size_t)sqlite3_value_bytes(value) : 0;
    return made;
}

static int read_extensions(sqlite3_value *names, uint32_t *bits, char **message) {
    struct mds_view view = view_of(names);
    struct asked_extensions asked;
    if (!view.text) return SQLITE_NOMEM;
    asked = asked_extensions(view);
    *bits = asked.bits;
    if (!asked.fault) return SQLITE_OK;
    return refused(message, sqlite3_mprintf("%s '%.*s'", asked.fault, (int)asked.name.length, (const char *)asked.name.text));
}

/* Reads a page and perhaps names of extensions, as their values have them. */
static int read_request(int count, sqlite3_value **values, struct request *asked, char **message) {
    struct request none = {{NULL, 0}, 0};
    *asked = none;
    for (int at = 0; at < count; at++)
        if (sqlite3_value_type(values[at]) == SQLITE_NULL) return SQLITE_OK;
    if (count > 1) {
        int code = read_extensions(values[1], &asked->extensions, message);
        if (code != SQLITE_OK) return code;
    }
    asked->page = view_of(values[0]);
    return asked->page.text ? SQLITE_OK : SQLITE_NOMEM;
}

/* ---- Functions ---- */

static void answer_text(sqlite3_context *context, struct made_text made) {
    char *message = NULL;
    int code = code_of(made.status, &message);
    if (code == SQLITE_OK) sqlite3_result_text64(context, (char *)made.memory, made.length, sqlite3_free, SQLITE_UTF8);
    else if (code == SQLITE_NOMEM) sqlite3_result_error_nomem(context);
    else sqlite3_result_error(context, message, -1);
    sqlite3_free(message);
}

/* Whether there is a page to answer of. Else the result is NULL, or an error. */
static bool is_asked(sqlite3_context *context, int count, sqlite3_value **values, struct request *asked) {
    char *message = NULL;
    int code = read_request(count, values, asked, &message);
    if (code == SQLITE_OK) return asked->page.text;
    if (code == SQLITE_NOMEM) sqlite3_result_error_nomem(context);
    else sqlite3_result_error(context, message, -1);
    sqlite3_free(message);
    return false;
}

static void html_function(sqlite3_context *context, int count, sqlite3_value **values) {
    struct request asked;
    if (is_asked(context, count, values, &asked)) answer_text(context, made_html(asked.page, asked.extensions, 0));
}

/* Reads the events of a page, as its HTML has it. The zero bytes of `given` stay, to be released. */
static uint32_t read_page(struct page_events *events, struct given_page *given, struct request asked) {
    uint32_t status = read_given(given, asked.page);
    if (status != MDS_OK) return status;
    status = read_events(events, given->read, asked.extensions);
    release_copy(given);
    if (status != MDS_OK) release_given(given);
    return status;
}

static void text_function(sqlite3_context *context, int count, sqlite3_value **values) {
    struct request asked;
    struct page_events events = {NULL, NULL, 0};
    struct given_page given;
    struct made_text made = {MDS_OK, NULL, 0};
    if (!is_asked(context, count, values, &asked)) return;
    made.status = read_page(&events, &given, asked);
    if (made.status == MDS_OK) {
        made = made_part(&events, PART_PAGE, 0, 0);
        release_events(&events);
        release_given(&given);
    }
    answer_text(context, made);
}

/* ---- The table of links ---- */

/* The names of hidden columns are such as other tables of a query hardly have. */
static const char COLUMNS[] = "CREATE TABLE links(destination TEXT, title TEXT, text TEXT, kind TEXT, start INTEGER, stop INTEGER, "
                              "markdown_page HIDDEN, markdown_extensions HIDDEN)";
enum column { DESTINATION, TITLE, TEXT, KIND, START, STOP, PAGE, EXTENSIONS };

/* The links of a page, and the event at which the row begins that is read. The arguments are kept, as columns that are hidden. */
struct cursor {
    sqlite3_vtab_cursor base;
    sqlite3_value *page, *extensions;
    struct given_page given;
    struct page_events events;
    size_t at;
};

static int connect_links(sqlite3 *database, void *data, int count, const char *const *words, sqlite3_vtab **table, char **message) {
    int code = sqlite3_declare_vtab(database, COLUMNS);
    (void)data, (void)count, (void)words, (void)message;
    if (code != SQLITE_OK) return code;
    *table = sqlite3_malloc64(sizeof **table);
    if (!*table) return SQLITE_NOMEM;
    **table = (sqlite3_vtab){0};
    return sqlite3_vtab_config(database, SQLITE_VTAB_INNOCUOUS);
}

static int disconnect_links(sqlite3_vtab *table) {
    sqlite3_free(table);
    return SQLITE_OK;
}

/* Which constraint gives the argument of a hidden column: its index; -1 where none does, -2 where it can't be used in this plan. */
static int argument_of(const sqlite3_index_info *info, int column) {
    int found = -1;
    for (int at = 0; at < info->nConstraint; at++) {
        if (info->aConstraint[at].iColumn != column || info->aConstraint[at].op != SQLITE_INDEX_CONSTRAINT_EQ) continue;
        if (info->aConstraint[at].usable) return at;
        found = -2;
    }
    return found;
}

/* Takes the page as the first argument, and the extensions, where they are given, as the second. */
static int plan_links(sqlite3_vtab *table, sqlite3_index_info *info) {
    int page = argument_of(info, PAGE), extensions = argument_of(info, EXTENSIONS);
    if (page == -2 || extensions == -2) return SQLITE_CONSTRAINT;
    if (page == -1) {
        sqlite3_free(table->zErrMsg);
        return refused(&table->zErrMsg, sqlite3_mprintf("markdown_links needs a text, as in markdown_links('[a](b)')"));
    }
    info->aConstraintUsage[page].argvIndex = 1, info->aConstraintUsage[page].omit = 1;
    if (extensions >= 0) info->aConstraintUsage[extensions].argvIndex = 2, info->aConstraintUsage[extensions].omit = 1;
    info->estimatedCost = 1000, info->estimatedRows = 10;
    return SQLITE_OK;
}

static int open_links(sqlite3_vtab *table, sqlite3_vtab_cursor **made) {
    struct cursor *it = sqlite3_malloc64(sizeof *it);
    (void)table;
    if (!it) return SQLITE_NOMEM;
    *it = (struct cursor){0};
    *made = &it->base;
    return SQLITE_OK;
}

/* Releases what a cursor keeps of the page before. */
static void reset(struct cursor *it) {
    sqlite3_value_free(it->page);
    sqlite3_value_free(it->extensions);
    release_given(&it->given);
    release_events(&it->events);
    it->page = it->extensions = NULL, it->at = 0;
}

static int close_links(sqlite3_vtab_cursor *base) {
    reset((struct cursor *)base);
    sqlite3_free(base);
    return SQLITE_OK;
}

static int filter_links(sqlite3_vtab_cursor *base, int plan, const char *name, int count, sqlite3_value **values) {
    struct cursor *it = (struct cursor *)base;
    struct request asked;
    char *message = NULL;
    int code = read_request(count, values, &asked, &message);
    (void)plan, (void)name;
    reset(it);
    if (code == SQLITE_OK && !asked.page.text) return SQLITE_OK;
    if (code == SQLITE_OK) code = code_of(read_page(&it->events, &it->given, asked), &message);
    if (code == SQLITE_ERROR) {
        sqlite3_free(base->pVtab->zErrMsg);
        base->pVtab->zErrMsg = message;
    }
    if (code != SQLITE_OK) return code;
    it->at = next_link(&it->events, 0);
    it->page = sqlite3_value_dup(values[0]);
    it->extensions = count > 1 ? sqlite3_value_dup(values[1]) : NULL;
    return it->page && (count == 1 || it->extensions) ? SQLITE_OK : SQLITE_NOMEM;
}

static int pass_link(sqlite3_vtab_cursor *base) {
    struct cursor *it = (struct cursor *)base;
    it->at = next_link(&it->events, it->at + 1);
    return SQLITE_OK;
}

static int is_past_links(sqlite3_vtab_cursor *base) {
    const struct cursor *it = (const struct cursor *)base;
    return it->at >= it->events.count;
}

static void answer_offset(sqlite3_context *context, const struct cursor *it, size_t offset) {
    sqlite3_result_int64(context, (sqlite3_int64)given_offset(&it->given, offset));
}

static int answer_column(sqlite3_vtab_cursor *base, sqlite3_context *context, int column) {
    const struct cursor *it = (const struct cursor *)base;
    const struct mds_event *link = &it->events.events[it->at];
    switch (column) {
    case DESTINATION: answer_text(context, made_part(&it->events, PART_DESTINATION, it->at, 0)); break;
    case TITLE:
        if (link->title_length > 0) answer_text(context, made_part(&it->events, PART_TITLE, it->at, 0));
        break;
    case TEXT: answer_text(context, made_part(&it->events, PART_TEXT, it->at, 0)); break;
    case KIND: sqlite3_result_text(context, link->element == MDS_ELEMENT_LINK ? "link" : "image", -1, SQLITE_STATIC); break;
    case START: answer_offset(context, it, link->start); break;
    case STOP: answer_offset(context, it, link->end); break;
    case PAGE: sqlite3_result_value(context, it->page); break;
    case EXTENSIONS:
        if (it->extensions) sqlite3_result_value(context, it->extensions);
        break;
    }
    return SQLITE_OK;
}

static int answer_row(sqlite3_vtab_cursor *base, sqlite3_int64 *row) {
    *row = (sqlite3_int64)((const struct cursor *)base)->at;
    return SQLITE_OK;
}

/* Without xCreate the table needs no CREATE VIRTUAL TABLE, and takes none. */
static const sqlite3_module LINKS = {
    .xConnect = connect_links,
    .xBestIndex = plan_links,
    .xDisconnect = disconnect_links,
    .xOpen = open_links,
    .xClose = close_links,
    .xFilter = filter_links,
    .xNext = pass_link,
    .xEof = is_past_links,
    .xColumn = answer_column,
    .xRowid = answer_row,
};

/* ---- Loading ---- */

typedef void scalar_function(sqlite3_context *context, int count, sqlite3_value **values);

/* Adds a function of one argument and of two. */
static int add_function(sqlite3 *database, const char *name, scalar_function *function) {
    int flags = SQLITE_UTF8 | SQLITE_DETERMINISTIC | SQLITE_INNOCUOUS, code = SQLITE_OK;
    for (int count = 1; count <= 2 && code == SQLITE_OK; count++)
        code = sqlite3_create_function_v2(database, name, count, flags, NULL, function, NULL, NULL, NULL);
    return code;
}

EXPORTED int sqlite3_fillaqut_init(sqlite3 *database, char **message, const sqlite3_api_routines *routines);

int sqlite3_fillaqut_init(sqlite3 *database, char **message, const sqlite3_api_routines *routines) {
    int code;
    SQLITE_EXTENSION_INIT2(routines);
    if (sqlite3_libversion_number() < OLDEST) return refused(message, sqlite3_mprintf("fillaqut needs SQLite 3.31 or later"));
    code = add_function(database, "markdown_html", html_function);
    if (code == SQLITE_OK) code = add_function(database, "markdown_text", text_function);
    if (code == SQLITE_OK) code = sqlite3_create_module_v2(database, "markdown_links", &LINKS, NULL, NULL);
    return code;
}
