/* Reads a sheet from standard input and prints how many rules it has and where reading stopped, or the refusal's number and place. */
#include <hicsolmab.h>
#include <stdio.h>

/* One byte more than a sheet may have is read, to see whether the input goes on. */
#define INPUT (HICSOLMAB_SHEET_LIMIT + 1)

/* The least lengths of the slices for the longest sheet; zeros at the start, as any contents would do. */
#define BYTES HICSOLMAB_READ_SHEET_BYTES(HICSOLMAB_SHEET_LIMIT)

static uint8_t sheet[INPUT];
static uint32_t rules[HICSOLMAB_RULES_LEAST(BYTES)];
static uint32_t tokens[HICSOLMAB_TOKENS_LEAST(BYTES)];
static uint8_t brackets[HICSOLMAB_BRACKETS_LEAST(BYTES)];
static uint8_t texts[HICSOLMAB_TEXTS_LEAST(BYTES)];

int main(void)
{
    size_t length = fread(sheet, 1, sizeof sheet, stdin);
    hicsolmab_sheet_result read = hicsolmab_read_sheet(sheet, length, rules, sizeof rules / sizeof *rules, tokens, sizeof tokens / sizeof *tokens,
                                                       brackets, sizeof brackets, texts, sizeof texts);
    if (read.refusal != HICSOLMAB_NO_REFUSAL) {
        printf("refused %u at %zu\n", (unsigned)read.refusal, read.place);
        return 1;
    }
    printf("%zu rules, read %zu of %zu bytes\n", read.count, read.stop, length);
    return 0;
}
