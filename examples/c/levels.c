/* One sheet in every form that it takes: the rules that are read of it, its compiled bytes, and the style rows of a page. Prints the numbers of docs/ARCHITECTURE.md. */
#include <hicsolmab.h>
#include <stdio.h>
#include <string.h>

#define LENGTH(array) (sizeof(array) / sizeof((array)[0]))

static const char author[] = "div > p{color:red}";

/* A string without the zero at its end, as a slice; and a sheet that is empty. */
#define SHEET(text) (const uint8_t *)(text), sizeof(text) - 1
#define EMPTY SHEET("")

/* The document, a `div` in it, and a `p` in that. The page has no attributes. */
static const uint32_t nodes[] = {
    HICSOLMAB_DOCUMENT, 0, 0, 0, 0, 0,
    HICSOLMAB_ELEMENT,  0, 0, 3, 0, 0,
    HICSOLMAB_ELEMENT,  1, 3, 1, 0, 0
};
static const char text[] = "divp";
static const uint32_t no_attributes[1];

#define ROW_OF_P 2
#define ROWS (LENGTH(nodes) / HICSOLMAB_NODE_WIDTH)
#define BYTES HICSOLMAB_STYLE_BYTES(0, 0, sizeof author, 0, sizeof text)
#define COMPILED_ROOM 64

static uint8_t compiled[COMPILED_ROOM];
static uint32_t rules[HICSOLMAB_RULES_LEAST(BYTES)];
static uint32_t tokens[HICSOLMAB_TOKENS_LEAST(BYTES)];
static uint8_t brackets[HICSOLMAB_BRACKETS_LEAST(BYTES)];
static uint8_t texts[HICSOLMAB_TEXTS_LEAST(BYTES)];
static uint32_t row[HICSOLMAB_STYLE_ROW_WIDTH];
static uint32_t rows[HICSOLMAB_STYLE_ROW_WIDTH * ROWS];
static uint8_t state[HICSOLMAB_STATE_LEAST(COMPILED_ROOM)];

#define STORES rules, LENGTH(rules), tokens, LENGTH(tokens), brackets, LENGTH(brackets)

/* The numbers up to the last that is not zero, and how many zeros follow. */
static void print_row(const char *name, const uint32_t *numbers, size_t length)
{
    size_t said = length;
    while (said > 0 && numbers[said - 1] == 0) {
        said--;
    }
    printf("%s:", name);
    for (size_t i = 0; i < said; i++) {
        printf(" %u", (unsigned)numbers[i]);
    }
    printf(" and %zu zeros\n", length - said);
}

int main(void)
{
    hicsolmab_sheet_result sheet = hicsolmab_read_sheet(SHEET(author), rules, LENGTH(rules), tokens, LENGTH(tokens), brackets, LENGTH(brackets), texts, LENGTH(texts));
    printf("sheet: %s, %zu bytes; %zu rule, stop %zu, refusal %u\n", author, sizeof author - 1, sheet.count, sheet.stop, (unsigned)sheet.refusal);
    printf("rules, %zu numbers:", sheet.numbers);
    for (size_t i = 0; i < sheet.numbers; i++) {
        printf(" %u", (unsigned)rules[i]);
    }
    printf("\ntexts, %zu bytes: %.*s\n", sheet.bytes, (int)sheet.bytes, (const char *)texts);

    hicsolmab_compile_result bytes = hicsolmab_compile(EMPTY, EMPTY, SHEET(author), compiled, LENGTH(compiled), texts, LENGTH(texts), STORES);
    printf("compiled, %zu bytes, refusal %u:", bytes.bytes, (unsigned)bytes.refusal);
    for (size_t i = 0; i < bytes.bytes; i++) {
        printf(" %02x", (unsigned)compiled[i]);
    }
    putchar('\n');

    hicsolmab_page_result page = hicsolmab_check_page(nodes, LENGTH(nodes), no_attributes, 0, SHEET(text));
    printf("page: %zu rows, refusal %u\n", (size_t)ROWS, (unsigned)page.refusal);

    hicsolmab_style_result style = hicsolmab_style(EMPTY, EMPTY, SHEET(author), nodes, LENGTH(nodes), no_attributes, 0, SHEET(text), ROW_OF_P, 1,
                                                   row, LENGTH(row), texts, LENGTH(texts), STORES);
    printf("style, refusal %u\n", (unsigned)style.refusal);
    print_row("  p", row, LENGTH(row));

    hicsolmab_run_result run = hicsolmab_run(compiled, bytes.bytes, nodes, LENGTH(nodes), no_attributes, 0, SHEET(text), 1, rows, LENGTH(rows), texts, LENGTH(texts),
                                             state, HICSOLMAB_STATE_LEAST(bytes.bytes), STORES);
    printf("run, refusal %u, state %zu bytes\n", (unsigned)run.refusal, (size_t)HICSOLMAB_STATE_LEAST(bytes.bytes));
    print_row("  document", rows, HICSOLMAB_STYLE_ROW_WIDTH);
    print_row("  div", rows + HICSOLMAB_STYLE_ROW_WIDTH, HICSOLMAB_STYLE_ROW_WIDTH);
    print_row("  p", rows + HICSOLMAB_STYLE_ROW_WIDTH * ROW_OF_P, HICSOLMAB_STYLE_ROW_WIDTH);
    printf("the two rows of the p are %s\n", memcmp(row, rows + HICSOLMAB_STYLE_ROW_WIDTH * ROW_OF_P, sizeof row) == 0 ? "the same" : "not the same");
    return 0;
}
