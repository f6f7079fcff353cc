/* bits: on ARM and under Windows a caller may leave anything above an argument of less than 32 bits. Here something stands there, and each
 * function that takes such an argument answers as it does with zeros. wide_.. is the same function, declared to take 32 bits there. */
#include "fillaqut.h"

#include <inttypes.h>
#include <stdio.h>
#include <stdlib.h>

#define WIDE(answer, name, ...) extern answer wide_##name(__VA_ARGS__) __asm__("mds_" #name)

WIDE(bool, is_whitespace, uint32_t byte);
WIDE(bool, is_whitespace_in_line, uint32_t byte);
WIDE(bool, is_punctuation, uint32_t byte);
WIDE(size_t, scan_ch, const void *bytes, size_t length, uint32_t byte);
WIDE(size_t, scan_ch_repeat, const void *bytes, size_t length, uint32_t byte);
WIDE(size_t, scan_closing_code_fence, const void *bytes, size_t length, uint32_t fence, size_t count);
WIDE(struct mds_fence, scan_metadata_block, const void *bytes, size_t length, uint32_t yaml, uint32_t pluses);
WIDE(size_t, scan_closing_metadata_block, const void *bytes, size_t length, uint32_t fence);
WIDE(struct mds_line_block, block_line, const void *bytes, size_t length, uint32_t has_ended, struct mds_block *containers, size_t capacity,
     struct mds_open_blocks *open, struct mds_block *block);
WIDE(struct mds_text, unescape, const void *text, size_t length, uint32_t in_table, uint8_t *buffer, size_t capacity);
WIDE(struct mds_label, scan_link_label, const void *bytes, size_t length, size_t start, uint32_t in_table, const struct mds_skip *skips,
     size_t skip_count, uint8_t *buffer, size_t capacity);

static unsigned passed;

static void same(const char *name, uint32_t given, size_t found, size_t expected) {
    if (found != expected) {
        printf("mds_%s answers %" PRIu64 " of %#" PRIx32 ", and not %" PRIu64 "\n", name, (uint64_t)found, given, (uint64_t)expected);
        exit(1);
    }
    passed++;
}

/* Those that take a byte. */
static void check_byte(uint32_t byte) {
    const uint8_t is = (uint8_t)byte;
    same("is_whitespace", byte, wide_is_whitespace(byte), mds_is_whitespace(is));
    same("is_whitespace_in_line", byte, wide_is_whitespace_in_line(byte), mds_is_whitespace_in_line(is));
    same("is_punctuation", byte, wide_is_punctuation(byte), mds_is_punctuation(is));
    same("scan_ch", byte, wide_scan_ch("~~~ ", 4, byte), mds_scan_ch("~~~ ", 4, is));
    same("scan_ch_repeat", byte, wide_scan_ch_repeat("~~~ ", 4, byte), mds_scan_ch_repeat("~~~ ", 4, is));
    same("scan_closing_code_fence", byte, wide_scan_closing_code_fence("~~~ ", 4, byte, 3), mds_scan_closing_code_fence("~~~ ", 4, is, 3));
    same("scan_closing_metadata_block", byte, wide_scan_closing_metadata_block("---\n", 4, byte), mds_scan_closing_metadata_block("---\n", 4, is));
}

/* Those that take a bool, whose byte is 0 or 1. */
static void check_bool(uint32_t word) {
    static const char yaml[] = "---\na: b\n---\n", pluses[] = "+++\na\n+++\n", page[] = "> a\nb";
    const bool is = word & 1;
    uint8_t buffer[8];
    struct mds_block containers[2], block;
    struct mds_open_blocks wide = {0, 0, 0}, plain = {0, 0, 0};
    same("scan_metadata_block", word, wide_scan_metadata_block(yaml, 13, word, 0).length, mds_scan_metadata_block(yaml, 13, is, false).length);
    same("scan_metadata_block", word, wide_scan_metadata_block(pluses, 10, 0, word).length, mds_scan_metadata_block(pluses, 10, false, is).length);
    same("block_line", word, wide_block_line(page, 5, word, containers, 2, &wide, &block).status,
         mds_block_line(page, 5, is, containers, 2, &plain, &block).status);
    same("unescape", word, wide_unescape("\\|", 2, word, buffer, 8).length, mds_unescape("\\|", 2, is, buffer, 8).length);
    same("scan_link_label", word, wide_scan_link_label("[a\\|b]", 6, 1, word, NULL, 0, buffer, 8).length,
         mds_scan_link_label("[a\\|b]", 6, 1, is, NULL, 0, buffer, 8).length);
}

int main(void) {
    static const uint32_t above[] = {0, 0x100, 0xa500, 0x10000, 0x80000000, 0xffffff00};
    for (size_t i = 0; i < sizeof(above) / sizeof(*above); i++) {
        for (uint32_t byte = 0; byte < 256; byte++)
            check_byte(above[i] | byte);
        for (uint32_t word = 0; word < 2; word++)
            check_bool(above[i] | word);
    }
    printf("bits: %u passed\n", passed);
    return 0;
}
