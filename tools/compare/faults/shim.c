/* A layer between the comparison and the engine's functions, which changes one thing of what a call takes or answers: the engine's own text cannot be built where it
 * is wrong. tools/compare/faults.py gives the engine's functions other names (real_..), links this in their place, and names the fault in the variable FAULT. */
#include <stdlib.h>
#include <string.h>

#include "comparison.h"
#include "hicsolmab.h"

#define WIDTH HICSOLMAB_STYLE_ROW_WIDTH
#define ROW_BYTES (WIDTH * sizeof(uint32_t))

__typeof__(hicsolmab_read_sheet) real_hicsolmab_read_sheet;
__typeof__(hicsolmab_height_length) real_hicsolmab_height_length;
__typeof__(hicsolmab_compile) real_hicsolmab_compile;
__typeof__(hicsolmab_check_page) real_hicsolmab_check_page;
__typeof__(hicsolmab_style) real_hicsolmab_style;
__typeof__(hicsolmab_style_book) real_hicsolmab_style_book;
__typeof__(hicsolmab_run) real_hicsolmab_run;
__typeof__(comparison_check_bytes) real_comparison_check_bytes;
__typeof__(comparison_matches) real_comparison_matches;
__typeof__(comparison_color_attribute) real_comparison_color_attribute;

/* Whether this is the fault that is planted. */
static int is(const char *name)
{
    static const char *planted;
    if (planted == NULL) {
        planted = getenv("FAULT");
        planted = planted == NULL ? "" : planted;
    }
    return strcmp(planted, name) == 0;
}

static uint32_t *slot(uint32_t *row, enum hicsolmab_record record, enum hicsolmab_slot slot)
{
    return row + HICSOLMAB_SLOT_PLACE(record, slot);
}

static int filled(const uint32_t *slot)
{
    return slot[HICSOLMAB_SLOT_FILLED] != 0;
}

static void clear(uint32_t *slot)
{
    memset(slot, 0, HICSOLMAB_SLOT_WIDTH * sizeof(uint32_t));
}

static uint32_t kind(const uint32_t *nodes, size_t row)
{
    return nodes[HICSOLMAB_NODE_WIDTH * row + HICSOLMAB_NODE_KIND];
}

static uint32_t parent(const uint32_t *nodes, size_t row)
{
    return nodes[HICSOLMAB_NODE_WIDTH * row + HICSOLMAB_NODE_PARENT];
}

/* ---- sheets */

hicsolmab_sheet_result hicsolmab_read_sheet(const uint8_t *sheet, size_t sheet_length, uint32_t *rules, size_t rules_length, uint32_t *tokens, size_t tokens_length,
                                            uint8_t *brackets, size_t brackets_length, uint8_t *texts, size_t texts_length)
{
    hicsolmab_sheet_result result = real_hicsolmab_read_sheet(sheet, sheet_length, rules, rules_length, tokens, tokens_length, brackets, brackets_length, texts, texts_length);
    if (is("sheet_stop") && result.refusal == 0 && result.stop < sheet_length)
        result.stop += 1;
    if (is("sheet_last_number") && result.numbers > 0)
        rules[result.numbers - 1] += 1;
    if (is("sheet_tokens_left"))
        tokens[tokens_length - 1] = 1;
    if (is("sheet_panic_place") && result.refusal == HICSOLMAB_PANIC)
        result.place += 1;
    return result;
}

hicsolmab_length_result hicsolmab_height_length(const uint8_t *value, size_t value_length, uint32_t *rules, size_t rules_length, uint32_t *tokens, size_t tokens_length,
                                                uint8_t *brackets, size_t brackets_length, uint8_t *texts, size_t texts_length)
{
    hicsolmab_length_result result =
        real_hicsolmab_height_length(value, value_length, rules, rules_length, tokens, tokens_length, brackets, brackets_length, texts, texts_length);
    if (is("length_rounded") && result.kind == HICSOLMAB_UNIT_LENGTH)
        result.amount -= result.amount % 10;
    if (is("length_em_as_ex") && result.kind == HICSOLMAB_EM_LENGTH)
        result.kind = HICSOLMAB_EX_LENGTH;
    if (is("length_place") && result.refusal == HICSOLMAB_BAD_LENGTH)
        result.place += 1;
    if (is("length_texts_left") && result.refusal == 0)
        texts[texts_length - 1] = 1;
    return result;
}

hicsolmab_compile_result hicsolmab_compile(const uint8_t *agent, size_t agent_length, const uint8_t *user, size_t user_length, const uint8_t *author, size_t author_length,
                                           uint8_t *compiled, size_t compiled_length, uint8_t *texts, size_t texts_length, uint32_t *rules, size_t rules_length,
                                           uint32_t *tokens, size_t tokens_length, uint8_t *brackets, size_t brackets_length)
{
    hicsolmab_compile_result result;
    int swap = is("compile_swapped");
    size_t lent = is("compile_byte_less") && compiled_length > 0 ? compiled_length - 1 : compiled_length;
    result = real_hicsolmab_compile(swap ? user : agent, swap ? user_length : agent_length, swap ? agent : user, swap ? agent_length : user_length, author, author_length,
                                    compiled, lent, texts, texts_length, rules, rules_length, tokens, tokens_length, brackets, brackets_length);
    if (is("compile_last_byte") && result.bytes > 1)
        result.bytes -= 1;
    if (is("compile_panic_text") && result.refusal == HICSOLMAB_PANIC)
        result.text = HICSOLMAB_AUTHOR_TEXT;
    if (is("compile_panic_unclear") && result.refusal == HICSOLMAB_PANIC)
        brackets[brackets_length - 1] = 1;
    return result;
}

/* ---- pages */

hicsolmab_page_result hicsolmab_check_page(const uint32_t *nodes, size_t nodes_length, const uint32_t *attributes, size_t attributes_length, const uint8_t *text, size_t text_length)
{
    hicsolmab_page_result result = real_hicsolmab_check_page(nodes, nodes_length, attributes, attributes_length, text, text_length);
    if (is("page_place") && result.refusal == HICSOLMAB_BAD_ROW)
        result.place -= result.place > 0;
    if (is("page_refusal") && result.refusal == HICSOLMAB_BAD_TEXT)
        result.refusal = HICSOLMAB_BAD_ROW;
    return result;
}

/* ---- what only the comparison asks */

comparison_match_result comparison_matches(const uint32_t *components, size_t components_length, size_t count, const uint8_t *texts, size_t texts_length, const uint32_t *nodes,
                                           size_t nodes_length, const uint32_t *attributes, size_t attributes_length, const uint8_t *text, size_t text_length, size_t row)
{
    comparison_match_result result =
        real_comparison_matches(components, components_length, count, texts, texts_length, nodes, nodes_length, attributes, attributes_length, text, text_length, row);
    if (is("matches_class_count") && result.refusal == 0 && result.ids > 0)
        result.classes += 1;
    return result;
}

comparison_colour_result comparison_color_attribute(const uint8_t *value, size_t value_length, uint32_t *tokens, size_t tokens_length, uint8_t *brackets,
                                                    size_t brackets_length, uint8_t *texts, size_t texts_length)
{
    comparison_colour_result result =
        real_comparison_color_attribute(value, value_length, tokens, tokens_length, brackets, brackets_length, texts, texts_length);
    if (is("colour_without_hash") && value_length > 0 && value[0] == '0')
        result.found = 0;
    return result;
}

comparison_bytes_result comparison_check_bytes(const uint8_t *bytes, size_t bytes_length)
{
    comparison_bytes_result result = real_comparison_check_bytes(bytes, bytes_length);
    if (is("bytes_left_over") && result.refusal == HICSOLMAB_BAD_BYTES && result.place == bytes_length - 1)
        result.refusal = HICSOLMAB_NO_REFUSAL;
    return result;
}

/* ---- the style of one element */

#define STYLE_PARAMETERS                                                                                                                                              \
    const uint8_t *agent, size_t agent_length, const uint8_t *user, size_t user_length, const uint8_t *author, size_t author_length, const uint32_t *nodes,           \
        size_t nodes_length, const uint32_t *attributes, size_t attributes_length, const uint8_t *text, size_t text_length, size_t row, uint32_t document_styles,     \
        uint32_t *out, size_t out_length, uint8_t *texts, size_t texts_length, uint32_t *rules, size_t rules_length, uint32_t *tokens, size_t tokens_length,          \
        uint8_t *brackets, size_t brackets_length
#define STYLE_ARGUMENTS(row, document_styles)                                                                                                                         \
    agent, agent_length, user, user_length, author, author_length, nodes, nodes_length, attributes, attributes_length, text, text_length, row, document_styles, out, \
        out_length, texts, texts_length, rules, rules_length, tokens, tokens_length, brackets, brackets_length

hicsolmab_style_result hicsolmab_style(STYLE_PARAMETERS)
{
    size_t asked = is("style_of_parent") && row > 0 && row < nodes_length / HICSOLMAB_NODE_WIDTH && parent(nodes, row) > 0 ? parent(nodes, row) : row;
    hicsolmab_style_result result = real_hicsolmab_style(STYLE_ARGUMENTS(asked, document_styles));
    uint32_t *content, *colour, *space, *visibility;
    if (is("style_no_element") && result.refusal == HICSOLMAB_NO_ELEMENT)
        result.refusal = HICSOLMAB_BAD_ROW;
    if (is("style_short_store") && result.refusal == HICSOLMAB_SHORT_STORE && out_length >= WIDTH && texts_length > 0)
        texts[0] = 0;
    if (result.refusal != 0)
        return result;
    content = slot(out, HICSOLMAB_BEFORE, HICSOLMAB_CONTENT_SLOT);
    colour = slot(out, HICSOLMAB_MAIN, HICSOLMAB_COLOUR_SLOT);
    if (is("style_content_start") && filled(content) && content[HICSOLMAB_SLOT_SECOND] > 1)
        content[HICSOLMAB_SLOT_NUMBER] -= content[HICSOLMAB_SLOT_NUMBER] > 0;
    space = slot(out, HICSOLMAB_MAIN, HICSOLMAB_WHITE_SPACE_SLOT);
    if (is("style_declaration") && filled(space) && !space[HICSOLMAB_SLOT_INLINE])
        space[HICSOLMAB_SLOT_START] += 1;
    visibility = slot(out, HICSOLMAB_MAIN, HICSOLMAB_VISIBILITY_SLOT);
    if (is("style_visibility") && filled(visibility))
        visibility[HICSOLMAB_SLOT_NUMBER] = HICSOLMAB_VISIBILITY_HIDDEN;
    if (is("style_inline_origin") && filled(colour) && colour[HICSOLMAB_SLOT_INLINE])
        colour[HICSOLMAB_SLOT_ORIGIN] = HICSOLMAB_USER_ORIGIN;
    if (is("style_empty_record") && hicsolmab_has_record(out, HICSOLMAB_AFTER) && !filled(slot(out, HICSOLMAB_AFTER, HICSOLMAB_CONTENT_SLOT)))
        memset(out + HICSOLMAB_RECORD_PLACE(HICSOLMAB_AFTER), 0, HICSOLMAB_RECORD_WIDTH * sizeof(uint32_t));
    return result;
}

hicsolmab_style_result hicsolmab_style_book(STYLE_PARAMETERS)
{
    hicsolmab_style_result result;
    uint32_t *colour, *visibility;
    if (is("book_is_crate"))
        return real_hicsolmab_style(STYLE_ARGUMENTS(row, document_styles));
    result = real_hicsolmab_style_book(STYLE_ARGUMENTS(row, is("book_switch") ? 1 : document_styles));
    if (result.refusal != 0)
        return result;
    colour = slot(out, HICSOLMAB_MAIN, HICSOLMAB_COLOUR_SLOT);
    visibility = slot(out, HICSOLMAB_BEFORE, HICSOLMAB_VISIBILITY_SLOT);
    if (is("book_visibility") && memcmp(visibility, slot(out, HICSOLMAB_MAIN, HICSOLMAB_VISIBILITY_SLOT), HICSOLMAB_SLOT_WIDTH * sizeof(uint32_t)) == 0)
        clear(visibility);
    if (is("book_inline_important") && filled(colour) && colour[HICSOLMAB_SLOT_INLINE])
        colour[HICSOLMAB_SLOT_IMPORTANT] = 0;
    if (is("book_declaration") && filled(colour) && colour[HICSOLMAB_SLOT_IMPORTANT] && filled(colour + HICSOLMAB_SLOT_WIDTH))
        colour[HICSOLMAB_SLOT_START] = colour[HICSOLMAB_SLOT_WIDTH + HICSOLMAB_SLOT_START];
    if (is("book_inherited_class") && filled(colour) && colour[HICSOLMAB_SLOT_ID] > 0)
        colour[HICSOLMAB_SLOT_CLASS] += 1;
    return result;
}

/* ---- a run */

/* Changes the rows of a run that refuses nothing. */
static void change_rows(const uint32_t *nodes, size_t count, size_t compiled_length, uint32_t *rows)
{
    size_t row;
    for (row = 1; row < count; row++) {
        uint32_t *own = rows + WIDTH * row;
        uint32_t *before = own - WIDTH;
        uint32_t *colour = slot(own, HICSOLMAB_MAIN, HICSOLMAB_COLOUR_SLOT);
        uint32_t *content = slot(own, HICSOLMAB_MAIN, HICSOLMAB_CONTENT_SLOT);
        uint32_t *display = slot(own, HICSOLMAB_MAIN, HICSOLMAB_DISPLAY_SLOT);
        uint32_t *visibility = slot(own, HICSOLMAB_MAIN, HICSOLMAB_VISIBILITY_SLOT);
        int element = kind(nodes, row) == HICSOLMAB_ELEMENT;
        if (is("run_row_copied") && element && row == count - 1)
            memcpy(own, before, ROW_BYTES);
        if (is("run_other_rows") && !element)
            memcpy(own, rows + WIDTH * parent(nodes, row), ROW_BYTES);
        if (is("run_stale") && element && parent(nodes, row) != row - 1 && !filled(colour))
            memcpy(colour, slot(before, HICSOLMAB_MAIN, HICSOLMAB_COLOUR_SLOT), HICSOLMAB_SLOT_WIDTH * sizeof(uint32_t));
        if (is("run_slot_off") && filled(colour) && !filled(colour + HICSOLMAB_SLOT_WIDTH)) {
            memcpy(colour + HICSOLMAB_SLOT_WIDTH, colour, HICSOLMAB_SLOT_WIDTH * sizeof(uint32_t));
            clear(colour);
        }
        if (is("run_visibility") && visibility[HICSOLMAB_SLOT_NUMBER] == HICSOLMAB_VISIBILITY_VISIBLE)
            clear(visibility);
        if (is("run_other_store") && filled(content) && content[HICSOLMAB_SLOT_NUMBER] >= compiled_length)
            content[HICSOLMAB_SLOT_NUMBER] -= (uint32_t)compiled_length;
        if (is("run_important") && filled(colour))
            colour[HICSOLMAB_SLOT_IMPORTANT] = 0;
        if (is("run_declaration") && filled(display) && display[HICSOLMAB_SLOT_INLINE])
            display[HICSOLMAB_SLOT_START] = 0;
        if (is("run_type_count") && filled(colour) && colour[HICSOLMAB_SLOT_TYPE] > 1)
            colour[HICSOLMAB_SLOT_TYPE] -= 1;
    }
}

hicsolmab_run_result hicsolmab_run(const uint8_t *compiled, size_t compiled_length, const uint32_t *nodes, size_t nodes_length, const uint32_t *attributes,
                                   size_t attributes_length, const uint8_t *text, size_t text_length, uint32_t document_styles, uint32_t *rows, size_t rows_length,
                                   uint8_t *texts, size_t texts_length, uint8_t *state, size_t state_length, uint32_t *rules, size_t rules_length, uint32_t *tokens,
                                   size_t tokens_length, uint8_t *brackets, size_t brackets_length)
{
    uint32_t switched = is("run_switch") ? document_styles == 1 : document_styles;
    hicsolmab_run_result result = real_hicsolmab_run(compiled, compiled_length, nodes, nodes_length, attributes, attributes_length, text, text_length, switched, rows,
                                                     rows_length, texts, texts_length, state, state_length, rules, rules_length, tokens, tokens_length, brackets,
                                                     brackets_length);
    if (is("run_bytes_place") && result.refusal == HICSOLMAB_BAD_BYTES)
        result.place += 1;
    if (is("run_refused_write") && result.refusal == HICSOLMAB_BAD_ROW)
        rows[0] = 0;
    if (result.refusal != 0)
        return result;
    if (is("run_state_left"))
        state[state_length - 1] = 1;
    if (is("run_texts_count") && result.texts > 0)
        result.texts -= 1;
    change_rows(nodes, nodes_length / HICSOLMAB_NODE_WIDTH, compiled_length, rows);
    return result;
}
