/* Hicsolmab, a stylesheet engine: three stylesheets and a page in, the style of each element out. For programs in C, and in C++.
 *
 * Link libengine.a, which `bash tools/staticlib.sh engine` writes to target/staticlib; x86-64, System V calling convention.
 *
 *     1. hicsolmab_compile   makes one compiled sheet of three stylesheets;
 *     2. hicsolmab_run       styles all elements of a page by it: colour, background, display, white space, content, visibility.
 *
 * hicsolmab_style and hicsolmab_style_book style one element straight from the sheets, hicsolmab_check_page says whether a page is accepted,
 * hicsolmab_read_sheet reads one sheet and says where reading stopped, and hicsolmab_height_length gives a height's value as an exact length.
 * examples/c/styles.c is a whole program.
 *
 * A compiled sheet carries the byte where each style's declaration starts, and so does a style row: which line of which sheet coloured an element can be told.
 * Bytes that were compiled before these starts are void. They carry no mark, so hicsolmab_run would read them as others, and mostly refuse them with
 * HICSOLMAB_BAD_BYTES: compile the sheets again. Bytes with starts that were compiled before visibility was known are read as they were, and say nothing of it.
 *
 * What holds for every call:
 *
 *   - A pointer and a length are a slice: so many bytes or numbers behind the pointer, which is aligned, not null even where the length is 0, and whose
 *     memory nothing else writes during the call. A slice that the call writes overlaps no other slice.
 *   - No call allocates memory, keeps anything after it returns, or uses a static variable: calls may be made from any thread at any time.
 *   - A call asks nothing of what its arguments hold. What it cannot serve it refuses, with one of the numbers below.
 *   - What a work store (`state`, `rules`, `tokens`, `brackets`) held before a call does not matter. After an answer all work stores are zero, and what is
 *     lent for the answer is zero beyond it. So a call takes time for each byte lent: lend the least lengths, even of larger arrays.
 *   - Of the stack a call takes little. Below, "Stack" is the most that was measured for it, with its arguments, over the longest sheets and attributes, the
 *     deepest pages and selectors and 32,768 open brackets, on a stack that ends in a page without access (tools/stack). hicsolmab_style and
 *     hicsolmab_style_book go down to their element by calling themselves, less than 700 bytes for each level of the page. */
#ifndef HICSOLMAB_H
#define HICSOLMAB_H

#include <stddef.h>
#include <stdint.h>

#ifdef __cplusplus
extern "C" {
#endif

/* ---- Refusals
 *
 * The first number of each result. Where several apply, they are looked for in the order in which they stand here. After HICSOLMAB_PANIC,
 * HICSOLMAB_BAD_LENGTH and HICSOLMAB_NO_ROOM every slice that the call writes is zero throughout; after the others it is unchanged. A place counts from 0, and
 * is 0 where none is named. */
enum hicsolmab_refusal {
    HICSOLMAB_NO_REFUSAL = 0,  /* nothing is refused */
    HICSOLMAB_TOO_LONG = 1,    /* a sheet of more than HICSOLMAB_SHEET_LIMIT bytes, or more than HICSOLMAB_COMPILED_LIMIT compiled bytes */
    HICSOLMAB_SHORT_STORE = 2, /* a slice shorter than its least length */
    HICSOLMAB_NOT_UTF8 = 3,    /* a sheet that is not UTF-8 */
    HICSOLMAB_TOO_LARGE = 5,   /* a page over a limit, or a list that is no whole count of rows */
    HICSOLMAB_BAD_ROW = 6,     /* a node row against the rules, or no row at all; place: the first such row */
    HICSOLMAB_BAD_TEXT = 7,    /* a name or value of the page that ends beyond its text, or is not UTF-8; place: the first such node row */
    HICSOLMAB_NO_ELEMENT = 8,  /* the row asked for is no element, or beyond the page */
    HICSOLMAB_BAD_BYTES = 9,   /* bytes that are no compiled sheet; place: the byte where the number or text starts that cannot be read, or the first left over */
    HICSOLMAB_PANIC = 4,       /* an nth-child number of a sheet, on which html2text panics, is above 2147483647; text: the sheet; place: its first digit */
    HICSOLMAB_BAD_LENGTH = 12, /* a height with one of the eight units that has five or more decimals, is above 10,000 or is below 0; place: its first byte */
    HICSOLMAB_NO_ROOM = 10     /* the compiled sheet would have more bytes than are lent, or than HICSOLMAB_COMPILED_LIMIT */
};

/* The text of HICSOLMAB_PANIC: in which of the three sheets. A call with one sheet says 0. */
enum hicsolmab_text {
    HICSOLMAB_AGENT_TEXT = 0,
    HICSOLMAB_USER_TEXT = 1,
    HICSOLMAB_AUTHOR_TEXT = 2
};

/* ---- Limits */
#define HICSOLMAB_SHEET_LIMIT 32768     /* bytes of each sheet */
#define HICSOLMAB_COMPILED_LIMIT 65536  /* bytes of a compiled sheet; a slice lent for one need not be longer */
#define HICSOLMAB_NODE_LIMIT 4096       /* node rows of a page */
#define HICSOLMAB_ATTRIBUTE_LIMIT 16384 /* attribute rows of a page */
#define HICSOLMAB_TEXT_LIMIT 65536      /* bytes of all names and values of a page */
#define HICSOLMAB_DEPTH_LIMIT 64        /* of a node; the document's depth is 0 */

/* ---- Pages
 *
 * A page is node rows in document order, attribute rows, and one text with all names and values.
 *
 *   - Row 0 is the document, six zeros. Every other row is an element, or a node that is neither (a text, a comment, a doctype).
 *   - A row's parent is the document or an element: the row before, or an ancestor of the row before.
 *   - Names and values lie end to end in the text from its byte 0 on: an element's name, then for each of its attributes the name and the value. Each start
 *     is where the text before it ends, also where a length is 0. Each is UTF-8.
 *   - Attribute rows lie end to end likewise: an element's first attribute is where those of the elements before it end, also where its count is 0.
 *   - A row that is no element has zeros behind its parent.
 *   - What is left over at the end of the text and of the attribute rows is not read. */

/* The numbers of a node row; node i is nodes[HICSOLMAB_NODE_WIDTH * i] and those behind. */
enum hicsolmab_node {
    HICSOLMAB_NODE_KIND = 0,
    HICSOLMAB_NODE_PARENT = 1,          /* a row */
    HICSOLMAB_NODE_NAME_START = 2,      /* a byte of the text */
    HICSOLMAB_NODE_NAME_LENGTH = 3,     /* in bytes */
    HICSOLMAB_NODE_FIRST_ATTRIBUTE = 4, /* an attribute row */
    HICSOLMAB_NODE_ATTRIBUTE_COUNT = 5
};
#define HICSOLMAB_NODE_WIDTH 6

enum hicsolmab_kind {
    HICSOLMAB_DOCUMENT = 0,
    HICSOLMAB_ELEMENT = 1,
    HICSOLMAB_OTHER = 2
};

/* The numbers of an attribute row; attribute i is attributes[HICSOLMAB_ATTRIBUTE_WIDTH * i] and those behind. */
enum hicsolmab_attribute {
    HICSOLMAB_ATTRIBUTE_NAME_START = 0,
    HICSOLMAB_ATTRIBUTE_NAME_LENGTH = 1,
    HICSOLMAB_ATTRIBUTE_VALUE_START = 2,
    HICSOLMAB_ATTRIBUTE_VALUE_LENGTH = 3
};
#define HICSOLMAB_ATTRIBUTE_WIDTH 4

/* ---- Style rows
 *
 * A style row has three records: the element's own style, that of its ::before and that of its ::after. A record is a number that says whether it is there,
 * 1 or 0 (an element's own always is), and a slot for each property. A slot that no declaration fills is zeros; so is a record that is not there. */
enum hicsolmab_record {
    HICSOLMAB_MAIN = 0,
    HICSOLMAB_BEFORE = 1,
    HICSOLMAB_AFTER = 2
};
#define HICSOLMAB_RECORD_COUNT 3

/* The slots, each with what its value is. */
enum hicsolmab_slot {
    HICSOLMAB_COLOUR_SLOT = 0,      /* red * 65536 + green * 256 + blue */
    HICSOLMAB_BACKGROUND_SLOT = 1,  /* likewise */
    HICSOLMAB_DISPLAY_SLOT = 2,     /* 0: where the slot is filled, the element is not displayed */
    HICSOLMAB_WHITE_SPACE_SLOT = 3, /* one of hicsolmab_white_space */
    HICSOLMAB_CONTENT_SLOT = 4,     /* where the text starts; the second number is its length in bytes */
    HICSOLMAB_VISIBILITY_SLOT = 5   /* one of hicsolmab_visibility; html2text has no such slot, and this one is decided as the others are */
};
#define HICSOLMAB_SLOT_COUNT 6

enum hicsolmab_white_space {
    HICSOLMAB_WHITE_SPACE_NORMAL = 0,
    HICSOLMAB_WHITE_SPACE_PRE = 1,
    HICSOLMAB_WHITE_SPACE_PRE_WRAP = 2
};

/* What is hidden by it is not seen and keeps its place, unlike what is not displayed. Where the slot is empty it is visible. */
enum hicsolmab_visibility {
    HICSOLMAB_VISIBILITY_VISIBLE = 0,
    HICSOLMAB_VISIBILITY_HIDDEN = 1
};

/* The numbers of a slot: the value that won, and the declaration that it is from.
 *
 * A declaration starts at the first byte of its name, counted from 0. Where a zero height with hidden overflow hides the element, the start is that of the first
 * `height` or `max-height` that is zero. A child that inherits a value has all its numbers, so that an inline start may count in an attribute of an ancestor. */
enum hicsolmab_slot_number {
    HICSOLMAB_SLOT_FILLED = 0,    /* 1, or 0 and all others 0 */
    HICSOLMAB_SLOT_ORIGIN = 1,    /* one of hicsolmab_origin */
    HICSOLMAB_SLOT_INLINE = 2,    /* 1 where it is from a `style`, `color` or `bgcolor` attribute; in book order from a `style` attribute alone */
    HICSOLMAB_SLOT_ID = 3,        /* how many ids the rule's selector names, */
    HICSOLMAB_SLOT_CLASS = 4,     /* how many classes, attributes and :nth-child(), */
    HICSOLMAB_SLOT_TYPE = 5,      /* how many element names; all three are 0 where it is from no rule */
    HICSOLMAB_SLOT_IMPORTANT = 6, /* 1 where it counts as !important */
    HICSOLMAB_SLOT_NUMBER = 7,    /* the value, */
    HICSOLMAB_SLOT_SECOND = 8,    /* its second number, 0 but for a content, */
    HICSOLMAB_SLOT_START = 9      /* and the byte where its declaration starts: in its sheet, of a `style` attribute in its value; 0 for `color` and `bgcolor` */
};
#define HICSOLMAB_SLOT_WIDTH 10

enum hicsolmab_origin {
    HICSOLMAB_AGENT_ORIGIN = 1,
    HICSOLMAB_USER_ORIGIN = 2,
    HICSOLMAB_AUTHOR_ORIGIN = 3
};

#define HICSOLMAB_PRESENCE_WIDTH 1 /* the number before the slots of a record */
#define HICSOLMAB_RECORD_WIDTH (HICSOLMAB_PRESENCE_WIDTH + HICSOLMAB_SLOT_COUNT * HICSOLMAB_SLOT_WIDTH)
#define HICSOLMAB_STYLE_ROW_WIDTH (HICSOLMAB_RECORD_COUNT * HICSOLMAB_RECORD_WIDTH)

/* Where a record begins in a style row, and where a slot of it does. */
#define HICSOLMAB_RECORD_PLACE(record) ((size_t)(record) * HICSOLMAB_RECORD_WIDTH)
#define HICSOLMAB_SLOT_PLACE(record, slot) (HICSOLMAB_RECORD_PLACE(record) + HICSOLMAB_PRESENCE_WIDTH + (size_t)(slot) * HICSOLMAB_SLOT_WIDTH)

/* Whether a style row has a record. */
static inline int hicsolmab_has_record(const uint32_t *row, enum hicsolmab_record record)
{
    return row[HICSOLMAB_RECORD_PLACE(record)] != 0;
}

/* The numbers of a slot of a style row, or null where it is not filled. */
static inline const uint32_t *hicsolmab_slot_of(const uint32_t *row, enum hicsolmab_record record, enum hicsolmab_slot slot)
{
    const uint32_t *numbers = row + HICSOLMAB_SLOT_PLACE(record, slot);
    return numbers[HICSOLMAB_SLOT_FILLED] != 0 ? numbers : NULL;
}

/* Whether a record says that nothing is displayed. */
static inline int hicsolmab_is_hidden(const uint32_t *row, enum hicsolmab_record record)
{
    return hicsolmab_slot_of(row, record, HICSOLMAB_DISPLAY_SLOT) != NULL;
}

/* Whether a record says that it is not seen and keeps its place. */
static inline int hicsolmab_is_invisible(const uint32_t *row, enum hicsolmab_record record)
{
    const uint32_t *visibility = hicsolmab_slot_of(row, record, HICSOLMAB_VISIBILITY_SLOT);
    return visibility != NULL && visibility[HICSOLMAB_SLOT_NUMBER] == HICSOLMAB_VISIBILITY_HIDDEN;
}

/* The bytes of a record's content, with their count in `length`, or null where it has none. For a row of hicsolmab_run `compiled` and `texts` are the slices of
 * that call; for one of hicsolmab_style or hicsolmab_style_book `compiled` may be null and `compiled_length` is 0. A content of length 0 is not null. */
static inline const uint8_t *hicsolmab_content(const uint32_t *row, enum hicsolmab_record record, const uint8_t *compiled, size_t compiled_length,
                                               const uint8_t *texts, size_t *length)
{
    const uint32_t *content = hicsolmab_slot_of(row, record, HICSOLMAB_CONTENT_SLOT);
    size_t start;
    if (content == NULL) {
        *length = 0;
        return NULL;
    }
    start = content[HICSOLMAB_SLOT_NUMBER];
    *length = content[HICSOLMAB_SLOT_SECOND];
    return start < compiled_length ? compiled + start : texts + (start - compiled_length);
}

/* ---- Least lengths
 *
 * What is lent has a least length, which grows with the bytes of text that a call is handed. First so many bytes for each call, then the least lengths for so
 * many bytes. All are constant expressions where their arguments are, so that arrays can have them. */
#define HICSOLMAB_READ_SHEET_BYTES(sheet_length) ((size_t)(sheet_length))
#define HICSOLMAB_HEIGHT_LENGTH_BYTES(value_length) ((size_t)(value_length))
#define HICSOLMAB_COMPILE_BYTES(agent_length, user_length, author_length) ((size_t)(agent_length) + (size_t)(user_length) + (size_t)(author_length))
#define HICSOLMAB_RUN_BYTES(attributes_length, text_length) ((size_t)(text_length) + 2 * ((size_t)(attributes_length) / HICSOLMAB_ATTRIBUTE_WIDTH))
#define HICSOLMAB_STYLE_BYTES(agent_length, user_length, author_length, attributes_length, text_length) \
    (HICSOLMAB_COMPILE_BYTES(agent_length, user_length, author_length) + HICSOLMAB_RUN_BYTES(attributes_length, text_length))

#define HICSOLMAB_TEXT_WIDTH 2
#define HICSOLMAB_TEXT_MORE 12
#define HICSOLMAB_NUMBER_WIDTH 8
#define HICSOLMAB_NUMBER_MORE 64

#define HICSOLMAB_RULES_LEAST(bytes) (HICSOLMAB_NUMBER_WIDTH * (size_t)(bytes) + HICSOLMAB_NUMBER_MORE)  /* numbers in `rules` */
#define HICSOLMAB_TOKENS_LEAST(bytes) (HICSOLMAB_NUMBER_WIDTH * (size_t)(bytes) + HICSOLMAB_NUMBER_MORE) /* numbers in `tokens` */
#define HICSOLMAB_BRACKETS_LEAST(bytes) ((size_t)(bytes))                                                /* bytes in `brackets` */
#define HICSOLMAB_TEXTS_LEAST(bytes) (HICSOLMAB_TEXT_WIDTH * (size_t)(bytes) + HICSOLMAB_TEXT_MORE)      /* bytes in `texts` */

/* Of a run also numbers in `rows`, by the length of `nodes`, and bytes in `state`, by the length of `compiled`. */
#define HICSOLMAB_ROWS_LEAST(nodes_length) (HICSOLMAB_STYLE_ROW_WIDTH * ((size_t)(nodes_length) / HICSOLMAB_NODE_WIDTH))
#define HICSOLMAB_STATE_LEAST(compiled_length) ((HICSOLMAB_DEPTH_LIMIT + 1) * ((size_t)(compiled_length) + 1))

/* ---- Calls */

/* What hicsolmab_read_sheet answers. */
typedef struct {
    uint32_t refusal;
    size_t place;   /* that of the refusal */
    size_t count;   /* the rules that were read */
    size_t stop;    /* the first byte not read; the sheet's length where all of it was */
    size_t numbers; /* of `rules`, that the rules take */
    size_t bytes;   /* of `texts`, that the texts of the rules take */
} hicsolmab_sheet_result;

/* Reads a sheet: how many rules it has, and where reading stopped. Like html2text, a reader stops for good at the first rule that it cannot read; that is an
 * answer and no refusal. `rules` and `texts` get the rules (crates/syntax/specs/RuleLayout.antt says how they lie there).
 *
 * Least lengths for HICSOLMAB_READ_SHEET_BYTES. Refuses TOO_LONG, SHORT_STORE, NOT_UTF8, PANIC. Stack: 2,288 bytes. */
hicsolmab_sheet_result hicsolmab_read_sheet(const uint8_t *sheet, size_t sheet_length,
                                            uint32_t *rules, size_t rules_length,
                                            uint32_t *tokens, size_t tokens_length,
                                            uint8_t *brackets, size_t brackets_length,
                                            uint8_t *texts, size_t texts_length);

/* What a length counts. */
enum hicsolmab_length {
    HICSOLMAB_NO_LENGTH = 0,    /* nothing: the value is no length */
    HICSOLMAB_UNIT_LENGTH = 1,  /* units: 3,810,000 to the pixel, 365,760,000 to the inch */
    HICSOLMAB_EM_LENGTH = 2,    /* ten-thousandths of an em */
    HICSOLMAB_EX_LENGTH = 3     /* ten-thousandths of an ex */
};

/* What hicsolmab_height_length answers. */
typedef struct {
    uint32_t refusal;
    size_t place;    /* of BAD_LENGTH the first byte of the number, its sign included */
    uint32_t kind;   /* one of hicsolmab_length */
    uint64_t amount; /* so many; at most 3,657,600,000,000 */
} hicsolmab_length_result;

/* A height's value, such as `1.5px`, as an exact length: a number with one of the units px, in, cm, mm, pt, pc, em and ex, or zero without one, with nothing but
 * white space and comments around it. Every other value is no length, which is an answer and no refusal. All four stores are work stores.
 *
 * Least lengths for HICSOLMAB_HEIGHT_LENGTH_BYTES. Refuses TOO_LONG, SHORT_STORE, NOT_UTF8, BAD_LENGTH. Stack: 640 bytes. */
hicsolmab_length_result hicsolmab_height_length(const uint8_t *value, size_t value_length,
                                                uint32_t *rules, size_t rules_length,
                                                uint32_t *tokens, size_t tokens_length,
                                                uint8_t *brackets, size_t brackets_length,
                                                uint8_t *texts, size_t texts_length);

/* What hicsolmab_compile answers. */
typedef struct {
    uint32_t refusal;
    size_t text;  /* of PANIC the sheet, one of hicsolmab_text */
    size_t place; /* of PANIC the byte in it */
    size_t bytes; /* of `compiled`, that the compiled sheet takes */
    size_t texts; /* of `texts`, that the texts named by rules take */
} hicsolmab_compile_result;

/* Compiles three sheets. The first `bytes` bytes of `compiled` are for hicsolmab_run; they can be kept, and used as often as wanted. (What they say:
 * crates/compiled/specs/Sheet.antt. What `texts` gets, the texts that rules name, a caller need not look at.)
 *
 * Least lengths for HICSOLMAB_COMPILE_BYTES; `compiled` may have any length, and is too short where NO_ROOM says so. Refuses TOO_LONG, SHORT_STORE, NOT_UTF8,
 * PANIC, NO_ROOM. Stack: 3,184 bytes. */
hicsolmab_compile_result hicsolmab_compile(const uint8_t *agent, size_t agent_length,
                                           const uint8_t *user, size_t user_length,
                                           const uint8_t *author, size_t author_length,
                                           uint8_t *compiled, size_t compiled_length,
                                           uint8_t *texts, size_t texts_length,
                                           uint32_t *rules, size_t rules_length,
                                           uint32_t *tokens, size_t tokens_length,
                                           uint8_t *brackets, size_t brackets_length);

/* What hicsolmab_check_page answers. */
typedef struct {
    uint32_t refusal;
    size_t place; /* of BAD_ROW and BAD_TEXT the row */
} hicsolmab_page_result;

/* Whether a page is accepted. Nothing is written. The calls below check their page themselves, by the same rules. Refuses TOO_LARGE, BAD_ROW, BAD_TEXT.
 * Stack: 320 bytes. */
hicsolmab_page_result hicsolmab_check_page(const uint32_t *nodes, size_t nodes_length,
                                           const uint32_t *attributes, size_t attributes_length,
                                           const uint8_t *text, size_t text_length);

/* What hicsolmab_style and hicsolmab_style_book answer. */
typedef struct {
    uint32_t refusal;
    size_t text;  /* of PANIC the sheet, one of hicsolmab_text */
    size_t place; /* of PANIC the byte in it, of BAD_ROW and BAD_TEXT the row */
    size_t texts; /* bytes of `texts` that were filled */
} hicsolmab_style_result;

/* The style of one element, the node row `row`, by three sheets, as html2text computes it. `document_styles` is 0 where the page's `style`, `color` and
 * `bgcolor` attributes do not count, and anything else where they do.
 *
 * `out` gets the element's style row, and `texts` the texts of contents, in which a content's start counts. In html2text's cascade a child starts from all that
 * its parent has, display and contents too.
 *
 * Least lengths for HICSOLMAB_STYLE_BYTES, and HICSOLMAB_STYLE_ROW_WIDTH for `out`. Refuses TOO_LONG, SHORT_STORE, NOT_UTF8, TOO_LARGE, BAD_ROW, BAD_TEXT,
 * NO_ELEMENT, PANIC. Stack: 44,000 bytes. */
hicsolmab_style_result hicsolmab_style(const uint8_t *agent, size_t agent_length,
                                       const uint8_t *user, size_t user_length,
                                       const uint8_t *author, size_t author_length,
                                       const uint32_t *nodes, size_t nodes_length,
                                       const uint32_t *attributes, size_t attributes_length,
                                       const uint8_t *text, size_t text_length,
                                       size_t row,
                                       uint32_t document_styles,
                                       uint32_t *out, size_t out_length,
                                       uint8_t *texts, size_t texts_length,
                                       uint32_t *rules, size_t rules_length,
                                       uint32_t *tokens, size_t tokens_length,
                                       uint8_t *brackets, size_t brackets_length);

/* The same in the order of CSS Cascading Level 3: importance and origin decide first, then whether it is a `style` attribute, then
 * specificity, then what stands later. Where nothing is declared on the element for a slot, colour, white space and visibility are the parent's, with all their
 * numbers; background, display and content are empty. So an element in one that is not displayed does not say so itself. A record of `::before` or `::after` is
 * there where a rule on the element has a style for it, and takes colour, white space and visibility, where nothing is declared for them, from the element.
 * Stack: 44,000 bytes. */
hicsolmab_style_result hicsolmab_style_book(const uint8_t *agent, size_t agent_length,
                                            const uint8_t *user, size_t user_length,
                                            const uint8_t *author, size_t author_length,
                                            const uint32_t *nodes, size_t nodes_length,
                                            const uint32_t *attributes, size_t attributes_length,
                                            const uint8_t *text, size_t text_length,
                                            size_t row,
                                            uint32_t document_styles,
                                            uint32_t *out, size_t out_length,
                                            uint8_t *texts, size_t texts_length,
                                            uint32_t *rules, size_t rules_length,
                                            uint32_t *tokens, size_t tokens_length,
                                            uint8_t *brackets, size_t brackets_length);

/* What hicsolmab_run answers. */
typedef struct {
    uint32_t refusal;
    size_t place; /* of BAD_ROW and BAD_TEXT the row, of BAD_BYTES the byte of `compiled` */
    size_t texts; /* bytes of `texts` that were filled */
} hicsolmab_run_result;

/* The styles of all elements of a page in one call, by a compiled sheet: `compiled` are the bytes that hicsolmab_compile wrote, exactly so many as it says.
 * `document_styles` is that of hicsolmab_style, and so are the styles.
 *
 * `rows` gets a style row for each node, that of node i from rows[HICSOLMAB_STYLE_ROW_WIDTH * i] on; the rows of the document and of nodes that are no elements
 * are zeros. `texts` gets the contents of `style` attributes. A content's start counts in the bytes of `compiled` followed by `texts`: with c the length of
 * `compiled`, a text that starts below c lies at compiled + start, any other at texts + (start - c). hicsolmab_content finds it.
 *
 * Least lengths for HICSOLMAB_RUN_BYTES, and HICSOLMAB_ROWS_LEAST and HICSOLMAB_STATE_LEAST. Refuses TOO_LONG, SHORT_STORE, TOO_LARGE, BAD_ROW, BAD_TEXT,
 * BAD_BYTES. Stack: 2,704 bytes. */
hicsolmab_run_result hicsolmab_run(const uint8_t *compiled, size_t compiled_length,
                                   const uint32_t *nodes, size_t nodes_length,
                                   const uint32_t *attributes, size_t attributes_length,
                                   const uint8_t *text, size_t text_length,
                                   uint32_t document_styles,
                                   uint32_t *rows, size_t rows_length,
                                   uint8_t *texts, size_t texts_length,
                                   uint8_t *state, size_t state_length,
                                   uint32_t *rules, size_t rules_length,
                                   uint32_t *tokens, size_t tokens_length,
                                   uint8_t *brackets, size_t brackets_length);

#ifdef __cplusplus
}
#endif

#endif
