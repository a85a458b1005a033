/* The library's answer with something altered, for the tests: the command, built with
 * altered_decide in place of utvpi_decide, and so on, has to find it. ALTERATION is a
 * statement for deciding and sessions, DIFFERENCES_ALTERATION is for deciding differences,
 * SHORTER_ALTERATION for the shorter of two refutations, PAIR_ALTERATION and
 * LINE_ALTERATION are for the two questions, SHOW_ALTERATION is for showing a line,
 * FIRST_ALTERATION and CHOICE_ALTERATION for the two calls on alternatives,
 * SECONDS_ALTERATION is for seconds, CHECK_ALTERATION and SHOWN_ALTERATION for the checks of
 * a refutation and of a showing, of which calls is the number; what is not given alters
 * nothing. */
#define utvpi_decide altered_decide
#define utvpi_decide_differences altered_decide_differences
#define utvpi_shorter altered_shorter
#define utvpi_session_add altered_session_add
#define utvpi_implied_pair altered_implied_pair
#define utvpi_implied_line altered_implied_line
#define utvpi_show_line altered_show_line
#define utvpi_check_shown altered_check_shown
#define utvpi_tree_first altered_tree_first
#define utvpi_tree_decide altered_tree_decide
#define utvpi_events_seconds altered_events_seconds
#define utvpi_check_refutation altered_check_refutation
#include "utvpi.h"
#undef utvpi_decide
#undef utvpi_decide_differences
#undef utvpi_shorter
#undef utvpi_session_add
#undef utvpi_implied_pair
#undef utvpi_implied_line
#undef utvpi_show_line
#undef utvpi_check_shown
#undef utvpi_tree_first
#undef utvpi_tree_decide
#undef utvpi_events_seconds
#undef utvpi_check_refutation

#ifndef ALTERATION
#define ALTERATION (void)0
#endif
#ifndef DIFFERENCES_ALTERATION
#define DIFFERENCES_ALTERATION (void)0
#endif
#ifndef SHORTER_ALTERATION
#define SHORTER_ALTERATION (void)0
#endif
#ifndef PAIR_ALTERATION
#define PAIR_ALTERATION (void)0
#endif
#ifndef LINE_ALTERATION
#define LINE_ALTERATION (void)0
#endif
#ifndef SHOW_ALTERATION
#define SHOW_ALTERATION (void)0
#endif
#ifndef SHOWN_ALTERATION
#define SHOWN_ALTERATION (void)0
#endif
#ifndef FIRST_ALTERATION
#define FIRST_ALTERATION (void)0
#endif
#ifndef CHOICE_ALTERATION
#define CHOICE_ALTERATION (void)0
#endif
#ifndef SECONDS_ALTERATION
#define SECONDS_ALTERATION (void)0
#endif
#ifndef CHECK_ALTERATION
#define CHECK_ALTERATION (void)0
#endif

/* The header declared those that the command calls; the library's are of their types. */
extern __typeof__(altered_decide) utvpi_decide;
extern __typeof__(altered_decide_differences) utvpi_decide_differences;
extern __typeof__(altered_shorter) utvpi_shorter;
extern __typeof__(altered_session_add) utvpi_session_add;
extern __typeof__(altered_implied_pair) utvpi_implied_pair;
extern __typeof__(altered_implied_line) utvpi_implied_line;
extern __typeof__(altered_show_line) utvpi_show_line;
extern __typeof__(altered_check_shown) utvpi_check_shown;
extern __typeof__(altered_tree_first) utvpi_tree_first;
extern __typeof__(altered_tree_decide) utvpi_tree_decide;
extern __typeof__(altered_events_seconds) utvpi_events_seconds;
extern __typeof__(altered_check_refutation) utvpi_check_refutation;

int64_t altered_decide(uint64_t n, const int32_t *list, size_t list_len,
                       int32_t *model, size_t model_len, int64_t *bounds, size_t bounds_len,
                       uint32_t *groups, size_t groups_len,
                       uint32_t *refutation, size_t refutation_len,
                       uint32_t *identifiers, size_t identifiers_len,
                       int64_t *work, size_t work_len)
{
    int64_t result = utvpi_decide(n, list, list_len, model, model_len, bounds, bounds_len,
                                  groups, groups_len, refutation, refutation_len,
                                  identifiers, identifiers_len, work, work_len);
    ALTERATION;
    return result;
}

int64_t altered_decide_differences(uint64_t n, const int32_t *list, size_t list_len,
                                   int32_t *model, size_t model_len,
                                   int64_t *bounds, size_t bounds_len,
                                   uint32_t *groups, size_t groups_len,
                                   uint32_t *refutation, size_t refutation_len,
                                   uint32_t *identifiers, size_t identifiers_len,
                                   int64_t *work, size_t work_len)
{
    int64_t result = utvpi_decide_differences(n, list, list_len, model, model_len, bounds,
                                              bounds_len, groups, groups_len, refutation,
                                              refutation_len, identifiers, identifiers_len,
                                              work, work_len);
    DIFFERENCES_ALTERATION;
    return result;
}

utvpi_part altered_shorter(uint64_t n, const int32_t *list, size_t list_len,
                           const uint32_t *first, size_t first_len,
                           const uint32_t *second, size_t second_len)
{
    utvpi_part part = utvpi_shorter(n, list, list_len, first, first_len, second, second_len);
    SHORTER_ALTERATION;
    return part;
}

int64_t altered_session_add(int64_t *state, size_t state_len, utvpi_line line,
                            int32_t *model, size_t model_len,
                            int64_t *bounds, size_t bounds_len,
                            uint32_t *groups, size_t groups_len,
                            uint32_t *refutation, size_t refutation_len,
                            uint32_t *identifiers, size_t identifiers_len,
                            int64_t *work, size_t work_len)
{
    size_t n = (size_t)state[0];
    int64_t result = utvpi_session_add(state, state_len, line, model, model_len, bounds,
                                       bounds_len, groups, groups_len, refutation,
                                       refutation_len, identifiers, identifiers_len, work,
                                       work_len);
    ALTERATION;
    (void)n;
    return result;
}

utvpi_pair altered_implied_pair(uint64_t n, const int32_t *list, size_t list_len,
                                uint64_t x, uint64_t y, int64_t *work, size_t work_len)
{
    utvpi_pair pair = utvpi_implied_pair(n, list, list_len, x, y, work, work_len);
    PAIR_ALTERATION;
    return pair;
}

int64_t altered_implied_line(uint64_t n, const int32_t *list, size_t list_len, utvpi_line line,
                             int32_t *model, size_t model_len, int64_t *work, size_t work_len)
{
    int64_t result = utvpi_implied_line(n, list, list_len, line, model, model_len, work,
                                        work_len);
    LINE_ALTERATION;
    return result;
}

int64_t altered_show_line(uint64_t n, const int32_t *list, size_t list_len, utvpi_line line,
                          uint32_t *refutation, size_t refutation_len,
                          uint32_t *identifiers, size_t identifiers_len,
                          int64_t *work, size_t work_len)
{
    static int calls;
    int64_t result = utvpi_show_line(n, list, list_len, line, refutation, refutation_len,
                                     identifiers, identifiers_len, work, work_len);
    calls++;
    SHOW_ALTERATION;
    return result;
}

int64_t altered_check_shown(uint64_t n, const uint8_t *list, size_t list_len,
                            const uint8_t *line, size_t line_len,
                            const uint8_t *showing, size_t showing_len)
{
    static int calls;
    int64_t result = utvpi_check_shown(n, list, list_len, line, line_len, showing, showing_len);
    calls++;
    SHOWN_ALTERATION;
    return result;
}

utvpi_choice altered_tree_first(uint64_t n, const int32_t *list, size_t list_len,
                                const uint32_t *tree, size_t tree_len,
                                int32_t *model, size_t model_len,
                                int64_t *work, size_t work_len)
{
    utvpi_choice first = utvpi_tree_first(n, list, list_len, tree, tree_len, model, model_len,
                                          work, work_len);
    FIRST_ALTERATION;
    return first;
}

utvpi_choice altered_tree_decide(uint64_t n, const int32_t *list, size_t list_len,
                                 const uint32_t *tree, size_t tree_len, uint64_t choice,
                                 int32_t *model, size_t model_len,
                                 int64_t *bounds, size_t bounds_len,
                                 uint32_t *groups, size_t groups_len,
                                 uint32_t *refutation, size_t refutation_len,
                                 uint32_t *identifiers, size_t identifiers_len,
                                 int64_t *work, size_t work_len)
{
    utvpi_choice found = utvpi_tree_decide(n, list, list_len, tree, tree_len, choice, model,
                                           model_len, bounds, bounds_len, groups, groups_len,
                                           refutation, refutation_len, identifiers,
                                           identifiers_len, work, work_len);
    CHOICE_ALTERATION;
    return found;
}

utvpi_seconds altered_events_seconds(const uint32_t *forms, size_t forms_len,
                                     const double *rates, size_t rates_len,
                                     const uint32_t *recorders, size_t recorders_len,
                                     const int64_t *counts, size_t counts_len,
                                     double *seconds, size_t seconds_len)
{
    utvpi_seconds written = utvpi_events_seconds(forms, forms_len, rates, rates_len, recorders,
                                                 recorders_len, counts, counts_len, seconds,
                                                 seconds_len);
    SECONDS_ALTERATION;
    return written;
}

int64_t altered_check_refutation(uint64_t n, const uint8_t *list, size_t list_len,
                                 const uint8_t *refutation, size_t refutation_len)
{
    static int calls;
    int64_t result = utvpi_check_refutation(n, list, list_len, refutation, refutation_len);
    calls++;
    CHECK_ALTERATION;
    return result;
}
