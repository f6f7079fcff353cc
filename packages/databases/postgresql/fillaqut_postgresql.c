/* The extension of PostgreSQL: markdown_html, markdown_text and markdown_links. README.md of the folder above says what they answer.
 *
 * All memory that is kept while the server may throw an error is the server's own, which it takes back then. */
#include "postgres.h"

#include "fmgr.h"
#include "funcapi.h"
#include "mb/pg_wchar.h"
#include "utils/builtins.h"
#include "utils/memutils.h"

#include "markdown_page.h"

PG_MODULE_MAGIC;

/* Arrays of events may be larger than a text can be. */
void *database_memory(size_t size) { return palloc_extended(size, MCXT_ALLOC_HUGE | MCXT_ALLOC_NO_OOM); }

void database_release(void *memory) {
    if (memory) pfree(memory);
}

/* ---- What is asked for ---- */

/* A page and extensions. */
struct request {
    struct mds_view page;
    uint32_t extensions;
};

static struct mds_view view_of(text *value) {
    struct mds_view made;
    made.text = VARDATA_ANY(value);
    made.length = VARSIZE_ANY_EXHDR(value);
    return made;
}

/* The library reads UTF-8. Other encodings are refused, since not all characters that a page may name, as by `&eacute;`, have a code
 * there. */
static void refuse_other_encodings(void) {
    if (GetDatabaseEncoding() == PG_UTF8) return;
    ereport(ERROR, (errcode(ERRCODE_FEATURE_NOT_SUPPORTED), errmsg("Markdown is read in databases whose encoding is UTF8"),
                    errdetail("The encoding of this database is %s.", GetDatabaseEncodingName())));
}

static uint32_t read_extensions(struct mds_view names) {
    struct asked_extensions asked = asked_extensions(names);
    if (asked.fault)
        ereport(ERROR, (errcode(ERRCODE_INVALID_PARAMETER_VALUE),
                        errmsg("%s '%.*s'", asked.fault, (int)asked.name.length, (const char *)asked.name.text)));
    return asked.bits;
}

static struct request read_request(FunctionCallInfo fcinfo) {
    struct request asked;
    refuse_other_encodings();
    asked.page = view_of(PG_GETARG_TEXT_PP(0));
    asked.extensions = read_extensions(view_of(PG_GETARG_TEXT_PP(1)));
    return asked;
}

/* ---- Answers ---- */

static void refuse(uint32_t status) {
    int code = status == MDS_NO_MEMORY ? ERRCODE_OUT_OF_MEMORY : ERRCODE_CHARACTER_NOT_IN_REPERTOIRE;
    if (status != MDS_OK) ereport(ERROR, (errcode(code), errmsg("%s", status_message(status))));
}

/* A text that is made after the bytes of its header. */
static Datum datum_of(struct made_text made) {
    refuse(made.status);
    if (made.length > MaxAllocSize - VARHDRSZ)
        ereport(ERROR, (errcode(ERRCODE_PROGRAM_LIMIT_EXCEEDED), errmsg("the text would be longer than a text can be")));
    SET_VARSIZE(made.memory, VARHDRSZ + made.length);
    return PointerGetDatum(made.memory);
}

static struct page_events events_of(struct request asked) {
    struct page_events events = {NULL, NULL, 0};
    refuse(read_events(&events, asked.page, asked.extensions));
    return events;
}

PG_FUNCTION_INFO_V1(fillaqut_html);

Datum fillaqut_html(PG_FUNCTION_ARGS) {
    struct request asked = read_request(fcinfo);
    PG_RETURN_DATUM(datum_of(made_html(asked.page, asked.extensions, VARHDRSZ)));
}

PG_FUNCTION_INFO_V1(fillaqut_text);

Datum fillaqut_text(PG_FUNCTION_ARGS) {
    struct page_events events = events_of(read_request(fcinfo));
    Datum made = datum_of(made_part(&events, PART_PAGE, 0, VARHDRSZ));
    release_events(&events);
    PG_RETURN_DATUM(made);
}

/* ---- Links, a row for each call ---- */

enum { DESTINATION, TITLE, TEXT, KIND, START, STOP, COLUMNS };

/* The links of a page, and the event from which on the next one is looked for. */
struct links {
    struct page_events events;
    size_t at;
};

/* Reads the links of a page into memory that stays until the last row. */
static void begin_links(FunctionCallInfo fcinfo) {
    FuncCallContext *call = SRF_FIRSTCALL_INIT();
    MemoryContext before = MemoryContextSwitchTo(call->multi_call_memory_ctx);
    struct links *links = palloc0(sizeof *links);
    if (get_call_result_type(fcinfo, NULL, &call->tuple_desc) != TYPEFUNC_COMPOSITE || call->tuple_desc->natts != COLUMNS)
        ereport(ERROR, (errcode(ERRCODE_DATATYPE_MISMATCH), errmsg("markdown_links has other columns")));
    call->tuple_desc = BlessTupleDesc(call->tuple_desc);
    links->events = events_of(read_request(fcinfo));
    call->user_fctx = links;
    MemoryContextSwitchTo(before);
}

static Datum row_of(TupleDesc columns, const struct page_events *events, size_t at) {
    const struct mds_event *link = &events->events[at];
    Datum values[COLUMNS];
    bool nulls[COLUMNS] = {false};
    values[DESTINATION] = datum_of(made_part(events, PART_DESTINATION, at, VARHDRSZ));
    values[TITLE] = datum_of(made_part(events, PART_TITLE, at, VARHDRSZ));
    nulls[TITLE] = link->title_length == 0;
    values[TEXT] = datum_of(made_part(events, PART_TEXT, at, VARHDRSZ));
    values[KIND] = CStringGetTextDatum(link->element == MDS_ELEMENT_LINK ? "link" : "image");
    values[START] = Int32GetDatum((int32)link->start);
    values[STOP] = Int32GetDatum((int32)link->end);
    return HeapTupleGetDatum(heap_form_tuple(columns, values, nulls));
}

PG_FUNCTION_INFO_V1(fillaqut_links);

Datum fillaqut_links(PG_FUNCTION_ARGS) {
    FuncCallContext *call;
    struct links *links;
    size_t at;
    if (SRF_IS_FIRSTCALL()) begin_links(fcinfo);
    call = SRF_PERCALL_SETUP();
    links = call->user_fctx;
    at = next_link(&links->events, links->at);
    if (at == links->events.count) SRF_RETURN_DONE(call);
    links->at = at + 1;
    SRF_RETURN_NEXT(call, row_of(call->tuple_desc, &links->events, at));
}
