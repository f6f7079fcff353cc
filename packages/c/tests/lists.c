/* The lists of pages, on the rows of packages/pages.tsv: they are tight or loose as those of the HTML that stands in CommonMark 0.31.2,
 * which has a paragraph's tags in the items of a loose list alone. */
#include "tables.h"

#include <stdio.h>
#include <string.h>

enum { MOST = 8 };

/* Lists with their bullet or delimiter, their start, the containers around them, and their first line and their last. */
static void describe(const struct mds_list *lists, size_t count, char *said) {
    for (size_t i = 0; i < count; i++)
        said += sprintf(
            said, "%s%c%u@%zu:%zu-%zu %s", i ? " " : "", lists[i].delimiter, lists[i].start, lists[i].depth, lists[i].line + 1,
            lists[i].end, lists[i].is_loose ? "loose" : "tight");
}

static void check(const struct row *row) {
    static struct text page;
    read_text(row->columns[1], 0, &page);
    uint32_t asked = extensions_of(row->columns[2]);
    const void *bytes = given(BYTES, page.bytes, page.length);
    size_t count = mds_scan_lists(bytes, page.length, asked, NULL, 0).count, size = count * sizeof(struct mds_list);
    char said[256] = "";
    same(row->line, "fits", count <= MOST, true);
    for (size_t less = 0; less < 2 && less <= count; less++) {
        struct mds_list *lists = writable(BUFFER, size);
        struct mds_blocks returned = mds_scan_lists(bytes, page.length, asked, lists, count - less);
        same(row->line, "status", returned.status, less ? MDS_TOO_SHORT : MDS_OK);
        same(row->line, "count", returned.count, count);
        same(row->line, "is_left", is_left(BUFFER, less ? 0 : size), true);
        if (!less)
            describe(lists, count, said);
    }
    same(row->line, said, strcmp(said, row->columns[3]) == 0, true);
}

int main(void) {
    each_row("pages.tsv", 5, "scan_lists", check);
    return report("lists");
}
