/* What the comparison with html2text asks beside the engine's entry points (include/hicsolmab.h, whose words on slices, refusals and least lengths hold
 * here too). Link target/staticlib/libcomparison.a, which `bash tools/staticlib.sh comparison` writes. */
#ifndef COMPARISON_H
#define COMPARISON_H

#include <stddef.h>
#include <stdint.h>

#ifdef __cplusplus
extern "C" {
#endif

/* Styles that were read: `count` rows of five numbers in `tokens`, and `bytes` bytes of their texts in `texts`. */
typedef struct {
    uint32_t refusal;
    size_t count;
    size_t bytes;
} comparison_styles_result;

/* Reads the value of a `style` attribute, of at most 65,536 bytes (all that a page's texts may have). How styles lie in rows:
 * crates/syntax/specs/Layout.antt. What else the call used of the slices is zero, all else in them is unchanged. Refuses 1, 2. */
comparison_styles_result comparison_style_attribute(const uint8_t *value, size_t value_length,
                                                    uint32_t *rules, size_t rules_length,
                                                    uint32_t *tokens, size_t tokens_length,
                                                    uint8_t *brackets, size_t brackets_length,
                                                    uint8_t *texts, size_t texts_length);

/* `found` is 1 where there is a colour, which is red * 65536 + green * 256 + blue. */
typedef struct {
    uint32_t refusal;
    uint32_t found;
    uint32_t colour;
} comparison_colour_result;

/* Reads the value of a `color` or `bgcolor` attribute, of at most 65,536 bytes. What the call used of the slices is zero, all else in them is
 * unchanged. Refuses 1, 2. */
comparison_colour_result comparison_color_attribute(const uint8_t *value, size_t value_length,
                                                    uint32_t *tokens, size_t tokens_length,
                                                    uint8_t *brackets, size_t brackets_length,
                                                    uint8_t *texts, size_t texts_length);

/* `matches` is 1 where the selector matches; `ids`, `classes` and `types` are its specificity. `place` is that of refusals 6 and 7. */
typedef struct {
    uint32_t refusal;
    size_t place;
    uint32_t matches;
    uint32_t ids;
    uint32_t classes;
    uint32_t types;
} comparison_match_result;

/* Whether a selector matches a row of a page: its first `count` components, at most 32,768, as they lie in a rule (four numbers each, in reading
 * order, their texts in `texts`; a kind above 8 is read as an attribute selector). The matcher calls itself only to go up a row. Nothing is written.
 * Refuses 1, 2 (fewer than 4 * count numbers), 5, 6, 7, 8. */
comparison_match_result comparison_matches(const uint32_t *components, size_t components_length, size_t count,
                                           const uint8_t *texts, size_t texts_length,
                                           const uint32_t *nodes, size_t nodes_length,
                                           const uint32_t *attributes, size_t attributes_length,
                                           const uint8_t *text, size_t text_length,
                                           size_t row);

/* `place` is the byte where the number or text that fails starts, or the first byte left over. */
typedef struct {
    uint32_t refusal;
    size_t place;
} comparison_bytes_result;

/* Whether bytes are a compiled sheet to their last byte. Refuses 1 (over 65,536 bytes), 9. */
comparison_bytes_result comparison_check_bytes(const uint8_t *bytes, size_t bytes_length);

#ifdef __cplusplus
}
#endif

#endif
