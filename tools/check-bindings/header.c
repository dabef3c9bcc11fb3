/* What the header computes, held against the library: its least lengths are the least, and its helpers find what a style row says. */
#include <hicsolmab.h>
#include <stdio.h>
#include <stdlib.h>
#include <string.h>

#define LENGTH(array) (sizeof(array) / sizeof((array)[0]))

static int failures;

static void expect(int holds, const char *what, size_t which)
{
    if (!holds) {
        fprintf(stderr, "header.c: %s %zu\n", what, which);
        failures++;
    }
}

/* Sheets, and a page: <p class=k><b style="content: 'own'">. */
static const uint8_t agent[] = "p { color: red; visibility: hidden }";
static const uint8_t user[] = ".k::before { content: 'rule'; visibility: visible }";
static const uint8_t author[] = "b { display: none }";
static const uint32_t nodes[] = {0, 0, 0, 0, 0, 0, HICSOLMAB_ELEMENT, 0, 0, 1, 0, 1, HICSOLMAB_ELEMENT, 1, 7, 1, 1, 1};
static const uint32_t attributes[] = {1, 5, 6, 1, 8, 5, 13, 14};
static const uint8_t text[] = "pclasskbstylecontent: 'own'";

/* Without the zero at its end. */
#define TEXT_LENGTH(array) (sizeof(array) - 1)
#define BYTES(array) (array), TEXT_LENGTH(array)

/* The slices that a call is lent, in an order of the test's own. */
enum { RULES, TOKENS, BRACKETS, TEXTS, ROWS, STATE, SLICES };

static size_t length[SLICES];
static uint32_t *rules, *tokens, *rows;
static uint8_t *brackets, *texts, *state;

static uint8_t compiled[HICSOLMAB_COMPILED_LIMIT];
static size_t compiled_length;

/* Lends the least lengths for so many bytes of text, `rows_length` numbers of rows and `state_length` bytes of state. */
static void lend(size_t bytes, size_t rows_length, size_t state_length)
{
    length[RULES] = HICSOLMAB_RULES_LEAST(bytes);
    length[TOKENS] = HICSOLMAB_TOKENS_LEAST(bytes);
    length[BRACKETS] = HICSOLMAB_BRACKETS_LEAST(bytes);
    length[TEXTS] = HICSOLMAB_TEXTS_LEAST(bytes);
    length[ROWS] = rows_length;
    length[STATE] = state_length;
    rules = realloc(rules, length[RULES] * sizeof *rules);
    tokens = realloc(tokens, length[TOKENS] * sizeof *tokens);
    brackets = realloc(brackets, length[BRACKETS] + 1);
    texts = realloc(texts, length[TEXTS]);
    rows = realloc(rows, (length[ROWS] + 1) * sizeof *rows);
    state = realloc(state, length[STATE] + 1);
    if (rules == NULL || tokens == NULL || brackets == NULL || texts == NULL || rows == NULL || state == NULL) {
        exit(2);
    }
}

static uint32_t read_sheet(void)
{
    return hicsolmab_read_sheet(BYTES(user), rules, length[RULES], tokens, length[TOKENS], brackets, length[BRACKETS], texts, length[TEXTS]).refusal;
}

static const uint8_t value[] = "+ 1.5px";

static uint32_t height_length(void)
{
    hicsolmab_length_result result = hicsolmab_height_length(BYTES(value), rules, length[RULES], tokens, length[TOKENS], brackets, length[BRACKETS],
                                                             texts, length[TEXTS]);
    if (result.refusal == HICSOLMAB_NO_REFUSAL) {
        expect(result.kind == HICSOLMAB_UNIT_LENGTH && result.amount == 5715000, "a length of kind", result.kind);
    }
    return result.refusal;
}

static uint32_t compile(void)
{
    hicsolmab_compile_result result = hicsolmab_compile(BYTES(agent), BYTES(user), BYTES(author), compiled, sizeof compiled, texts, length[TEXTS],
                                                        rules, length[RULES], tokens, length[TOKENS], brackets, length[BRACKETS]);
    if (result.refusal == HICSOLMAB_NO_REFUSAL) {
        compiled_length = result.bytes;
    }
    return result.refusal;
}

static uint32_t style(void)
{
    return hicsolmab_style(BYTES(agent), BYTES(user), BYTES(author), nodes, LENGTH(nodes), attributes, LENGTH(attributes), BYTES(text), 2, 1,
                           rows, length[ROWS], texts, length[TEXTS], rules, length[RULES], tokens, length[TOKENS], brackets, length[BRACKETS]).refusal;
}

static uint32_t style_book(void)
{
    return hicsolmab_style_book(BYTES(agent), BYTES(user), BYTES(author), nodes, LENGTH(nodes), attributes, LENGTH(attributes), BYTES(text), 2, 1,
                                rows, length[ROWS], texts, length[TEXTS], rules, length[RULES], tokens, length[TOKENS],
                                brackets, length[BRACKETS]).refusal;
}

static uint32_t run(void)
{
    return hicsolmab_run(compiled, compiled_length, nodes, LENGTH(nodes), attributes, LENGTH(attributes), BYTES(text), 1, rows, length[ROWS],
                         texts, length[TEXTS], state, length[STATE], rules, length[RULES], tokens, length[TOKENS], brackets, length[BRACKETS]).refusal;
}

/* A call takes the least lengths, and refuses each of its first slices that is shorter by one. */
static void least(const char *name, uint32_t (*call)(void), int slices)
{
    for (int slice = 0; slice < slices; slice++) {
        length[slice]--;
        expect(call() == HICSOLMAB_SHORT_STORE, name, (size_t)slice);
        length[slice]++;
    }
    expect(call() == HICSOLMAB_NO_REFUSAL, name, SLICES);
}

/* A content is these bytes, or there is none. */
static void content(const char *name, const uint32_t *row, enum hicsolmab_record record, const uint8_t *sheet, size_t sheet_length, const char *wanted)
{
    size_t count = 99;
    const uint8_t *found = hicsolmab_content(row, record, sheet, sheet_length, texts, &count);
    if (wanted == NULL) {
        expect(found == NULL && count == 0, name, record);
    } else {
        expect(found != NULL && count == strlen(wanted) && memcmp(found, wanted, count) == 0, name, record);
    }
}

/* What is said of <b>: red and invisible, from its parent, hidden, with a content of its own, and with the ::before that is wanted: its parent's, or in book order none. */
static void helpers(const char *name, const uint32_t *row, const uint8_t *sheet, size_t sheet_length, const char *before)
{
    const uint32_t *colour = hicsolmab_slot_of(row, HICSOLMAB_MAIN, HICSOLMAB_COLOUR_SLOT);
    expect(colour != NULL && colour[HICSOLMAB_SLOT_NUMBER] == 0xff0000, name, HICSOLMAB_COLOUR_SLOT);
    expect(colour != NULL && memcmp(agent + colour[HICSOLMAB_SLOT_START], "color: red", 10) == 0, name, HICSOLMAB_SLOT_START);
    expect(hicsolmab_slot_of(row, HICSOLMAB_MAIN, HICSOLMAB_BACKGROUND_SLOT) == NULL, name, HICSOLMAB_BACKGROUND_SLOT);
    expect(hicsolmab_is_hidden(row, HICSOLMAB_MAIN) && !hicsolmab_is_hidden(row, HICSOLMAB_BEFORE), name, HICSOLMAB_DISPLAY_SLOT);
    expect(hicsolmab_is_invisible(row, HICSOLMAB_MAIN) && !hicsolmab_is_invisible(row, HICSOLMAB_BEFORE), name, HICSOLMAB_VISIBILITY_SLOT);
    expect((hicsolmab_slot_of(row, HICSOLMAB_BEFORE, HICSOLMAB_VISIBILITY_SLOT) != NULL) == (before != NULL), name, HICSOLMAB_VISIBILITY_SLOT);
    expect(hicsolmab_has_record(row, HICSOLMAB_MAIN), name, HICSOLMAB_MAIN);
    expect(hicsolmab_has_record(row, HICSOLMAB_BEFORE) == (before != NULL), name, HICSOLMAB_BEFORE);
    expect(!hicsolmab_has_record(row, HICSOLMAB_AFTER), name, HICSOLMAB_AFTER);
    content(name, row, HICSOLMAB_MAIN, sheet, sheet_length, "own");
    content(name, row, HICSOLMAB_BEFORE, sheet, sheet_length, before);
    content(name, row, HICSOLMAB_AFTER, sheet, sheet_length, NULL);
}

int main(void)
{
    lend(HICSOLMAB_READ_SHEET_BYTES(TEXT_LENGTH(user)), 0, 0);
    least("hicsolmab_read_sheet", read_sheet, ROWS);
    lend(HICSOLMAB_HEIGHT_LENGTH_BYTES(TEXT_LENGTH(value)), 0, 0);
    least("hicsolmab_height_length", height_length, ROWS);
    lend(HICSOLMAB_COMPILE_BYTES(TEXT_LENGTH(agent), TEXT_LENGTH(user), TEXT_LENGTH(author)), 0, 0);
    least("hicsolmab_compile", compile, ROWS);
    lend(HICSOLMAB_STYLE_BYTES(TEXT_LENGTH(agent), TEXT_LENGTH(user), TEXT_LENGTH(author), LENGTH(attributes), TEXT_LENGTH(text)),
         HICSOLMAB_STYLE_ROW_WIDTH, 0);
    least("hicsolmab_style_book", style_book, STATE);
    helpers("hicsolmab_style_book", rows, NULL, 0, NULL);
    least("hicsolmab_style", style, STATE);
    helpers("hicsolmab_style", rows, NULL, 0, "rule");
    lend(HICSOLMAB_RUN_BYTES(LENGTH(attributes), TEXT_LENGTH(text)), HICSOLMAB_ROWS_LEAST(LENGTH(nodes)), HICSOLMAB_STATE_LEAST(compiled_length));
    least("hicsolmab_run", run, SLICES);
    helpers("hicsolmab_run", rows + 2 * HICSOLMAB_STYLE_ROW_WIDTH, compiled, compiled_length, "rule");
    if (failures == 0) {
        puts("check-bindings: the header's least lengths are the least, and its helpers find what a style row says");
    }
    return failures == 0 ? 0 : 1;
}
