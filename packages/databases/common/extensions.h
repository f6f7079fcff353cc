/* The extensions that the functions of databases take, by the names of packages/extensions.tsv, as packages/extensions writes them here. */
#ifndef FILLAQUT_DATABASE_EXTENSIONS_H
#define FILLAQUT_DATABASE_EXTENSIONS_H

#include "fillaqut.h"

/* A name, its bits, and whether events and HTML are built of it. */
struct named_extension {
    const char *name;
    uint32_t bits;
    bool is_built;
};

/* packages/extensions */
static const struct named_extension EXTENSIONS[] = {
    {"tables", MDS_TABLES, true},
    {"footnotes", MDS_FOOTNOTES, false},
    {"strikethrough", MDS_STRIKETHROUGH, true},
    {"tasks", MDS_TASKS, true},
    {"definition-lists", MDS_DEFINITION_LISTS, false},
    {"wikilinks", MDS_WIKILINKS, true},
    {"gfm", MDS_TABLES | MDS_STRIKETHROUGH | MDS_TASKS, true},
};
/* end */

#endif
