/* The codecs of keys and values, by the cases of tests/codecs.txt, which Rust's are tested by, too.
 *
 *     codecs FILE */
#include "../clsm_codec.h"
#include "check.h"

#include <ctype.h>
#include <string.h>

enum { LINE = 400, WORDS = 8 };

/* A line: its kind, what is encoded, and the words. Null is refused. */
struct line {
    char *kind, *input;
    uint64_t words[WORDS];
    size_t count;
    bool has_words;
};

static bool is(const char *text, const char *other) { return strcmp(text, other) == 0; }

/* The bytes that a text of hexadecimal digits stands for: at most so many. */
static size_t bytes_of(const char *text, unsigned char *bytes, size_t most) {
    unsigned byte = 0, times = 0;
    size_t count = 0;
    if (is(text, "-")) return 0;
    if (sscanf(text, "%2x*%u", &byte, &times) == 2) {
        CHECK(times <= most);
        memset(bytes, (int)byte, times);
        return times;
    }
    for (; *text; text += 2) {
        CHECK(isxdigit((unsigned char)text[0]) && isxdigit((unsigned char)text[1]) && count < most);
        CHECK(sscanf(text, "%2x", &byte) == 1);
        bytes[count++] = (unsigned char)byte;
    }
    return count;
}

static bool is_same(const clsm_value *value, const struct line *line) {
    return value->length == line->count
           && memcmp(value->words, line->words, line->count * sizeof(uint64_t)) == 0;
}

static clsm_value value_of(const struct line *line) {
    clsm_value value = {.length = line->count};
    memcpy(value.words, line->words, sizeof line->words);
    return value;
}

/* ---- Keys: the last one of each kind, which the next is above */

static uint64_t last_key;
static char last_kind[LINE];

static void rises(const struct line *line) {
    if (is(last_kind, line->kind)) CHECK(last_key < line->words[0]);
    last_key = line->words[0];
    snprintf(last_kind, sizeof last_kind, "%s", line->kind);
}

static void check_text(const struct line *line) {
    unsigned char bytes[LINE], back[CLSM_KEY_BYTES];
    char text[CLSM_KEY_BYTES];
    uint64_t key;
    const size_t length = bytes_of(line->input, bytes, sizeof bytes);
    CHECK(clsm_key_of_text((const char *)bytes, length, &key) == line->has_words);
    if (!line->has_words) return;
    CHECK(key == line->words[0] && clsm_text_of_key(key, text) == length);
    memcpy(back, text, sizeof back);
    CHECK(memcmp(back, bytes, length) == 0);
    rises(line);
}

static void check_pair(const struct line *line) {
    unsigned long first, second;
    uint32_t one, other;
    CHECK(sscanf(line->input, "%lu,%lu", &first, &second) == 2);
    CHECK(clsm_key_of_pair((uint32_t)first, (uint32_t)second) == line->words[0]);
    clsm_pair_of_key(line->words[0], &one, &other);
    CHECK(one == first && other == second);
    rises(line);
}

static void check_signed(const struct line *line) {
    const int64_t number = strtoll(line->input, NULL, 10);
    CHECK(clsm_key_of_signed(number) == line->words[0]);
    CHECK(clsm_signed_of_key(line->words[0]) == number);
    rises(line);
}

static void check_double(const struct line *line) {
    const double number = strtod(line->input, NULL), back = clsm_double_of_key(line->words[0]);
    CHECK(clsm_key_of_double(number) == line->words[0]);
    CHECK(memcmp(&number, &back, sizeof back) == 0);
    rises(line);
}

/* ---- Values */

static void check_value_signed(const struct line *line) {
    const clsm_value value = value_of(line);
    int64_t number = 0;
    CHECK(clsm_signed_of_value(&value, &number) != is(line->input, "refused"));
    if (is(line->input, "refused")) return;
    const clsm_value encoded = clsm_value_of_signed(number);
    CHECK(number == strtoll(line->input, NULL, 10) && is_same(&encoded, line));
}

static void check_value_double(const struct line *line) {
    const clsm_value value = value_of(line);
    const double wanted = strtod(line->input, NULL);
    double number = 0;
    CHECK(clsm_double_of_value(&value, &number) != is(line->input, "refused"));
    if (is(line->input, "refused")) return;
    const clsm_value encoded = clsm_value_of_double(wanted);
    CHECK(memcmp(&number, &wanted, sizeof number) == 0 && is_same(&encoded, line));
}

static void check_bytes(const struct line *line) {
    const clsm_value value = value_of(line);
    unsigned char bytes[LINE], back[CLSM_VALUE_BYTES];
    size_t length = 0;
    clsm_value encoded;
    if (line->has_words)
        CHECK(clsm_bytes_of_value(&value, back, &length) != is(line->input, "refused"));
    if (is(line->input, "refused")) return;
    const size_t wanted = bytes_of(line->input, bytes, sizeof bytes);
    CHECK(clsm_value_of_bytes(bytes, wanted, &encoded) == line->has_words);
    if (!line->has_words) return;
    CHECK(is_same(&encoded, line) && length == wanted && memcmp(back, bytes, length) == 0);
}

static void check_line(const struct line *line) {
    if (is(line->kind, "text8")) check_text(line);
    else if (is(line->kind, "pair")) check_pair(line);
    else if (is(line->kind, "signed")) check_signed(line);
    else if (is(line->kind, "float")) check_double(line);
    else if (is(line->kind, "value_signed")) check_value_signed(line);
    else if (is(line->kind, "value_float")) check_value_double(line);
    else if (is(line->kind, "bytes63")) check_bytes(line);
    else CHECK(is(line->kind, "one of these"));
}

static struct line parsed(char *text) {
    struct line line = {.kind = strtok(text, " \n"), .input = strtok(NULL, " \n")};
    for (const char *word; (word = strtok(NULL, " \n")) && !is(word, "refused"); line.count++) {
        CHECK(line.count < WORDS && strlen(word) == 16);
        line.words[line.count] = strtoull(word, NULL, 16);
    }
    line.has_words = line.count > 0;
    return line;
}

int main(int count, char **texts) {
    char text[LINE];
    int cases = 0;
    CHECK(count == 2);
    FILE *file = fopen(texts[1], "r");
    CHECK(file);
    while (fgets(text, sizeof text, file)) {
        if (text[0] == '#' || text[0] == '\n') continue;
        const struct line line = parsed(text);
        CHECK(line.kind && line.input);
        check_line(&line);
        cases++;
    }
    CHECK(!fclose(file) && cases > 100);
    return passed("codecs");
}
