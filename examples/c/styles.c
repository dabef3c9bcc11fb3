/* Compiles three sheets, runs them down a small page, and prints each element's colour, the line and column of the declaration that it is from, and whether the
 * element is hidden, or invisible in its place. */
#include <hicsolmab.h>
#include <stdio.h>
#include <string.h>

#define LENGTH(array) (sizeof(array) / sizeof((array)[0]))

/* The maker's sheet gives the channels their colours, the school's hides what is not for the test, the third is the page's own. */
static const char agent[] = ".ch1 { color: yellow }\n.ch2 { color: aqua }";
static const char user[] = ".solution { display: none }";
static const char author[] = "h1 { color: #ff8800 }\np.ch2 > b { color: white }\n.ch1::before { content: 'CH1 ' }\n.answer { visibility: hidden }";

/* A string without the zero at its end, as a slice: a pointer and a length. */
#define SHEET(text) (const uint8_t *)(text), sizeof(text) - 1

/* The page. Each element here has at most one attribute, and stands behind its parent: element i is node row i + 1, for row 0 is the document. */
static const struct {
    uint32_t parent;
    const char *name;
    const char *attribute;
    const char *value;
} elements[] = {
    {0, "h1", NULL, NULL},                  /* <h1> */
    {0, "p", "class", "ch1"},               /* <p class=ch1> */
    {0, "p", "class", "ch2"},               /* <p class=ch2> */
    {3, "b", NULL, NULL},                   /*   <b> */
    {0, "div", "class", "solution"},        /* <div class=solution> */
    {5, "p", "class", "ch1"},               /*   <p class=ch1> */
    {0, "p", "style", "color: #00ff00"},    /* <p style="color: #00ff00"> */
    {0, "p", NULL, NULL},                   /* <p> */
    {0, "p", "class", "answer"}             /* <p class=answer> */
};

#define ELEMENTS LENGTH(elements)
#define TEXT_ROOM 256

static uint32_t nodes[HICSOLMAB_NODE_WIDTH * (1 + ELEMENTS)];
static uint32_t attributes[HICSOLMAB_ATTRIBUTE_WIDTH * ELEMENTS];
static uint8_t text[TEXT_ROOM];
static size_t attribute_count;
static size_t text_length;

/* Adds a name or a value to the page's text. Its start and its length go to two numbers that stand side by side. */
static void add_text(const char *string, uint32_t *place)
{
    size_t length = strlen(string);
    memcpy(text + text_length, string, length);
    place[0] = (uint32_t)text_length;
    place[1] = (uint32_t)length;
    text_length += length;
}

static void make_page(void)
{
    for (size_t i = 0; i < ELEMENTS; i++) {
        uint32_t *node = nodes + HICSOLMAB_NODE_WIDTH * (i + 1);
        node[HICSOLMAB_NODE_KIND] = HICSOLMAB_ELEMENT;
        node[HICSOLMAB_NODE_PARENT] = elements[i].parent;
        add_text(elements[i].name, node + HICSOLMAB_NODE_NAME_START);
        node[HICSOLMAB_NODE_FIRST_ATTRIBUTE] = (uint32_t)attribute_count;
        if (elements[i].attribute != NULL) {
            uint32_t *attribute = attributes + HICSOLMAB_ATTRIBUTE_WIDTH * attribute_count;
            add_text(elements[i].attribute, attribute + HICSOLMAB_ATTRIBUTE_NAME_START);
            add_text(elements[i].value, attribute + HICSOLMAB_ATTRIBUTE_VALUE_START);
            node[HICSOLMAB_NODE_ATTRIBUTE_COUNT] = 1;
            attribute_count++;
        }
    }
}

/* What is lent. The sheets have more bytes than the page, so the stores are sized by them, and serve both calls. */
#define BYTES HICSOLMAB_COMPILE_BYTES(sizeof agent, sizeof user, sizeof author)
#define COMPILED_ROOM 1024

static uint8_t compiled[COMPILED_ROOM];
static uint32_t rules[HICSOLMAB_RULES_LEAST(BYTES)];
static uint32_t tokens[HICSOLMAB_TOKENS_LEAST(BYTES)];
static uint8_t brackets[HICSOLMAB_BRACKETS_LEAST(BYTES)];
static uint8_t texts[HICSOLMAB_TEXTS_LEAST(BYTES)];
static uint32_t rows[HICSOLMAB_ROWS_LEAST(LENGTH(nodes))];
static uint8_t state[HICSOLMAB_STATE_LEAST(COMPILED_ROOM)];

/* Whether a byte of UTF-8 is the first of its character: the others are 10xxxxxx. */
static int begins_character(char byte)
{
    return ((unsigned char)byte & 0xc0) != 0x80;
}

/* Which line coloured it: the sheet of a slot's origin, and the line and column where its declaration starts, a column being
 * a character. What an attribute declares stands in no sheet. */
static void print_place(const uint32_t *slot)
{
    static const struct {
        const char *name;
        const char *text;
    } sheets[] = {
        [HICSOLMAB_AGENT_ORIGIN] = {"agent", agent},
        [HICSOLMAB_USER_ORIGIN] = {"user", user},
        [HICSOLMAB_AUTHOR_ORIGIN] = {"author", author}
    };
    if (slot[HICSOLMAB_SLOT_INLINE]) {
        printf("an attribute");
        return;
    }
    const char *sheet = sheets[slot[HICSOLMAB_SLOT_ORIGIN]].text;
    unsigned line = 1;
    unsigned column = 1;
    for (uint32_t i = 0; i < slot[HICSOLMAB_SLOT_START]; i++) {
        line += sheet[i] == '\n';
        column = sheet[i] == '\n' ? 1 : column + (unsigned)begins_character(sheet[i]);
    }
    printf("%s %u:%u", sheets[slot[HICSOLMAB_SLOT_ORIGIN]].name, line, column);
}

static void print_styles(void)
{
    for (size_t i = 0; i < ELEMENTS; i++) {
        const uint32_t *row = rows + HICSOLMAB_STYLE_ROW_WIDTH * (i + 1);
        const uint32_t *colour = hicsolmab_slot_of(row, HICSOLMAB_MAIN, HICSOLMAB_COLOUR_SLOT);
        printf("%zu %s: ", i + 1, elements[i].name);
        if (colour != NULL) {
            printf("#%06x by ", (unsigned)colour[HICSOLMAB_SLOT_NUMBER]);
            print_place(colour);
            printf(", ");
        } else {
            printf("no colour, ");
        }
        puts(hicsolmab_is_hidden(row, HICSOLMAB_MAIN) ? "hidden" : hicsolmab_is_invisible(row, HICSOLMAB_MAIN) ? "invisible" : "shown");
    }
}

int main(void)
{
    hicsolmab_compile_result sheet = hicsolmab_compile(SHEET(agent), SHEET(user), SHEET(author), compiled, LENGTH(compiled), texts, LENGTH(texts),
                                                       rules, LENGTH(rules), tokens, LENGTH(tokens), brackets, LENGTH(brackets));
    if (sheet.refusal != HICSOLMAB_NO_REFUSAL) {
        fprintf(stderr, "compile: refused %u, sheet %zu, byte %zu\n", (unsigned)sheet.refusal, sheet.text, sheet.place);
        return 1;
    }
    make_page();
    hicsolmab_run_result run = hicsolmab_run(compiled, sheet.bytes, nodes, LENGTH(nodes), attributes, HICSOLMAB_ATTRIBUTE_WIDTH * attribute_count,
                                             text, text_length, 1, rows, LENGTH(rows), texts, LENGTH(texts),
                                             state, HICSOLMAB_STATE_LEAST(sheet.bytes), rules, LENGTH(rules), tokens, LENGTH(tokens),
                                             brackets, LENGTH(brackets));
    if (run.refusal != HICSOLMAB_NO_REFUSAL) {
        fprintf(stderr, "run: refused %u at %zu\n", (unsigned)run.refusal, run.place);
        return 1;
    }
    print_styles();
    return 0;
}
