/* What is no row of packages/rows.tsv: names, numbers, classes of characters, and labels that are long or match each other. The
 * expected values are worked out by hand from CommonMark 0.31.2 and from what the header says. The runs are in runs.c.
 *
 * Labels are checked twice, with what they are given at the one edge of its room and at the other. */
#include "checks.h"

#include <string.h>

/* Each status has its name, and no other number has one. */
static void status_names(void) {
    static const char *const names[] = {"MDS_OK", "MDS_NOTHING", "MDS_NOT_UTF8", "MDS_PAST_END", "MDS_BAD_SKIPS",
        "MDS_TOO_LARGE", "MDS_EMPTY", "MDS_TOO_SHORT", "MDS_NO_MEMORY", "MDS_NO_OPENER", "MDS_NOT_RISING",
        "MDS_INSIDE_FIND", "MDS_SPACE_PENDING", "MDS_BAD_KIND", "MDS_BAD_STATE"};
    for (uint32_t status = MDS_OK; status <= MDS_BAD_STATE; status++)
        SAME(strcmp(mds_status_name(status), names[status]), 0);
    SAME(strcmp(mds_status_name(MDS_BAD_STATE + 1), "unknown"), 0);
    SAME(strcmp(mds_status_name(UINT32_MAX), "unknown"), 0);
}

/* The library is of the header's version. */
static void version(void) {
    same(__LINE__, "mds_version()", mds_version(), MDS_VERSION);
    same(__LINE__, "major", MDS_VERSION >> 16, MDS_VERSION_MAJOR);
    same(__LINE__, "minor", MDS_VERSION >> 8 & 255, MDS_VERSION_MINOR);
    same(__LINE__, "patch", MDS_VERSION & 255, MDS_VERSION_PATCH);
}

static void byte_classes(void) {
    for (int byte = 0; byte < 256; byte++) {
        bool in_line = byte == ' ' || byte == '\t' || byte == '\v' || byte == '\f';
        SAME(mds_is_whitespace((uint8_t)byte), in_line || byte == '\n' || byte == '\r');
        SAME(mds_is_whitespace_in_line((uint8_t)byte), in_line);
        SAME(mds_is_punctuation((uint8_t)byte), byte && strchr("!\"#$%&'()*+,-./:;<=>?@[\\]^_`{|}~", byte));
    }
}

/* Tab, LF, FF, CR and the 17 characters of category Zs. Each ASCII punctuation character is a Unicode one. (2.1) */
static void character_classes(void) {
    static const uint32_t spaces[] = {' ', 0xA0, 0x1680, 0x202F, 0x205F, 0x3000, '\t', '\n', '\f', '\r'};
    static const uint32_t punctuation[] = {0xA1, 0xA3, 0xAB, 0x2014, 0x20AC, 0x3001, 0xFF01, 0x1F354};
    static const uint32_t others[] = {0x0B, 0x85, 0xAA, 0x300, 0x2028, 0x200B, 0x4E2D, 0xD800, 0xDFFF, 0x110000, UINT32_MAX};
    for (size_t i = 0; i < sizeof(spaces) / sizeof(*spaces); i++)
        SAME(mds_is_unicode_whitespace(spaces[i]), true), SAME(mds_is_unicode_punctuation(spaces[i]), false);
    for (size_t i = 0; i < sizeof(punctuation) / sizeof(*punctuation); i++)
        SAME(mds_is_unicode_whitespace(punctuation[i]), false), SAME(mds_is_unicode_punctuation(punctuation[i]), true);
    for (size_t i = 0; i < sizeof(others) / sizeof(*others); i++)
        SAME(mds_is_unicode_whitespace(others[i]), false), SAME(mds_is_unicode_punctuation(others[i]), false);
    for (uint32_t character = 0x2000; character <= 0x200A; character++)
        SAME(mds_is_unicode_whitespace(character), true);
    for (uint8_t byte = 0; byte < 128; byte++)
        SAME(mds_is_unicode_punctuation(byte), mds_is_punctuation(byte));
}

/* A call that makes a text, with its input at hand. */
typedef struct mds_text making(const void *bytes, size_t length, uint8_t *buffer, size_t capacity);

static void refuses(int line, making *call, const char *input, size_t input_length, uint32_t status) {
    uint8_t *buffer = writable(BUFFER, 9);
    struct mds_text text = call(input ? given(BYTES, input, input_length) : NULL, input_length, buffer, 9);
    same(line, "status", text.status, status);
    same(line, "taken", text.taken, 0);
    same(line, "length", text.length, 0);
    same(line, "the buffer is left", is_left(BUFFER, 0), true);
}

/* A label as a text. One that stands in the input needs no buffer, which skips.c checks; of a text the length is asked for so. */
static struct mds_text of_label(struct mds_label found, size_t capacity) {
    bool stands = capacity == 0 && found.status == MDS_OK && found.start != MDS_NONE;
    return (struct mds_text){stands ? MDS_TOO_SHORT : found.status, found.end, found.length};
}

static struct mds_text label(const void *bytes, size_t length, uint8_t *buffer, size_t capacity) {
    return of_label(mds_scan_link_label(bytes, length, 0, false, NULL, 0, buffer, capacity), capacity);
}

/* At most 999 characters stand between the brackets. */
static void long_labels(void) {
    static char text[1001];
    memset(text, 'a', sizeof(text));
    text[999] = ']';
    struct mds_text found = label(given(BYTES, text, 1000), 1000, writable(BUFFER, 999), 999);
    SAME(found.status, MDS_OK), SAME(found.taken, 1000), SAME(found.length, 999);
    SAME(is_left(BUFFER, 999), true);
    text[999] = 'a', text[1000] = ']';
    refuses(__LINE__, label, text, 1001, MDS_NOTHING);
    static char wide[2001]; // of two bytes each
    for (size_t i = 0; i < 1000; i++) memcpy(wide + 2 * i, "\xc3\xa9", 2);
    wide[2000] = ']';
    refuses(__LINE__, label, wide, 2001, MDS_NOTHING);
    found = label(given(BYTES, wide + 2, 1999), 1999, writable(BUFFER, 1998), 1998);
    SAME(found.status, MDS_OK), SAME(found.taken, 1999), SAME(found.length, 1998);
}

static const uint8_t *bytes_of(const char *text) {
    return (const uint8_t *)text;
}

/* Two labels match exactly where their keys are the same bytes. */
static void keys_match(void) {
    static const char *const texts[] = {"a", "A", "SS", "\xe1\xba\x9e", "\xc3\x9f", "ss", "i", "\xc4\xb0", "\xc4\xb1",
        "I", "\xce\x90", "\xe1\xbf\x93", "\xe2\x84\xaa", "k", "a b", "A  B", ""};
    enum { TEXTS = sizeof(texts) / sizeof(*texts), LONGEST = 16 };
    uint8_t made[TEXTS][LONGEST];
    size_t lengths[TEXTS];
    for (size_t i = 0; i < TEXTS; i++)
        lengths[i] = mds_label_key(bytes_of(texts[i]), strlen(texts[i]), made[i], LONGEST).length;
    for (size_t i = 0; i < TEXTS; i++)
        for (size_t j = 0; j < TEXTS; j++) {
            bool is_same = lengths[i] == lengths[j] && !memcmp(made[i], made[j], lengths[i]);
            const uint8_t *one = bytes_of(texts[i]), *other = bytes_of(texts[j]);
            SAME(mds_labels_match(one, strlen(texts[i]), other, strlen(texts[j])), is_same ? MDS_OK : MDS_NOTHING);
        }
}

static void scanners(void) {
    check_rooms();
    long_labels(), keys_match();
}

int main(void) {
    status_names();
    version();
    byte_classes();
    character_classes();
    scanners();
    at_front = true;
    scanners();
    return report("rows");
}
