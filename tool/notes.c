/* Notes on a list that can be read: events that stand in one rule only, which may be
 * mistyped, and words that a dash has split in two. They change no answer. And what else
 * is said behind an answer: how many rules were left out, and how to see the order. */
#include "list.h"

#include <string.h>

/* The most notes that are kept. What is beyond is only counted. */
#define MOST_NOTES 8

/* An event that stands in one rule only, and perhaps another that is called nearly so; or
 * a word that was read as a difference. */
struct note {
    struct origin origin;
    struct text word;
    bool split;
    struct text like;
};

static struct note notes[MOST_NOTES];
static size_t found;

/* Where an event is named: in how many rules, in which first and last, how often in all,
 * and how often in a word with a dash; and whether such a word was noted. */
struct mention {
    size_t rules;
    size_t first;
    size_t last;
    size_t terms;
    size_t dashed;
    bool split;
};

static struct mention mentions[UTVPI_MOST_VARIABLES];

/* A name in a rule, and the word that it stands in: plain names with dashes and no blanks
 * between them, or the name alone. */
struct part {
    struct text name;
    struct text word;
};

static bool is_dashed(const struct part *part)
{
    return part->word.at[0] != '"' && part->name.length < part->word.length;
}

static bool ends_word(const struct part *part)
{
    return part->word.at[0] == '"' ||
           part->name.at + part->name.length == part->word.at + part->word.length;
}

/* The length of the word that a text begins with. */
static size_t word_length(struct text text)
{
    size_t length = name_length(text);
    while (length > 0 && length + 1 < text.length && text.at[length] == '-' &&
           is_letter(text.at[length + 1])) {
        length++;
        length += name_length((struct text){text.at + length, text.length - length});
    }
    return length;
}

/* Takes the next name off what is left of a rule. The first time there is no word before
 * it. False where there is no name left. */
static bool next_part(struct text *rest, struct part *part)
{
    bool goes_on = part->word.length > 0 && !ends_word(part);
    size_t taken = 0;
    while (taken < rest->length && rest->at[taken] != '"' && !is_letter(rest->at[taken])) {
        taken++;
    }
    rest->at += taken;
    rest->length -= taken;
    taken = scan_name(*rest, &part->name);
    if (!goes_on) {
        size_t length = rest->length > 0 && rest->at[0] == '"' ? taken : word_length(*rest);
        part->word = (struct text){rest->at, length};
    }
    rest->at += taken;
    rest->length -= taken;
    return taken > 0;
}

/* The first word of a rule that has a dash and no blanks around it. */
bool find_dashed(struct text rule, struct text *word)
{
    struct text rest = without_identifier(rule);
    struct part part = {nowhere.rule, nowhere.rule};
    while (next_part(&rest, &part)) {
        if (is_dashed(&part)) {
            *word = part.word;
            return true;
        }
    }
    return false;
}

/* Notes where a rule, the one of this line, names which events. */
static void mention_rule(const struct list *list, size_t rule)
{
    struct text rest = without_identifier(list->origins[rule].rule);
    struct part part = {nowhere.rule, nowhere.rule};
    uint64_t v;
    while (next_part(&rest, &part)) {
        if (find_name(list, part.name, &v)) {
            struct mention *own = &mentions[v];
            own->first = own->rules == 0 ? rule : own->first;
            own->rules += own->rules == 0 || own->last != rule ? 1 : 0;
            own->last = rule;
            own->terms++;
            own->dashed += is_dashed(&part) ? 1 : 0;
        }
    }
}

/* Keeps a note, of a word only the first. */
static void add_note(struct note note)
{
    for (size_t at = 0; note.split && at < found && at < MOST_NOTES; at++) {
        if (is_same(notes[at].word, note.word)) {
            return;
        }
    }
    if (found < MOST_NOTES) {
        notes[found] = note;
    }
    found++;
}

/* Whether a part of a word with a dash looks like one of a name: it is long enough, and
 * the event that it was read as is nowhere named but in such words. */
static bool looks_split(const struct list *list, const struct part *part)
{
    uint64_t v;
    return is_dashed(part) && part->name.length > 1 && find_name(list, part->name, &v) &&
           mentions[v].terms == mentions[v].dashed;
}

/* Notes that events are the parts of a word. */
static void mark_split(const struct list *list, struct text word)
{
    struct part part = {nowhere.rule, nowhere.rule};
    uint64_t v;
    while (next_part(&word, &part)) {
        if (find_name(list, part.name, &v)) {
            mentions[v].split = true;
        }
    }
}

/* Notes the words of a rule that look like one name, where it has a blank before its <=
 * or the like. */
static void note_words(const struct list *list, size_t rule)
{
    struct origin origin = list->origins[rule];
    struct text rest = without_identifier(origin.rule);
    struct part part = {nowhere.rule, nowhere.rule};
    size_t relation = find_unquoted(rest, "<>=");
    bool spaced = relation > 0 && is_blank(rest.at[relation - 1]), whole = true;
    while (spaced && next_part(&rest, &part)) {
        whole = (whole || part.name.at == part.word.at) && looks_split(list, &part);
        if (whole && ends_word(&part)) {
            add_note((struct note){origin, part.word, true, nowhere.rule});
            mark_split(list, part.word);
        }
    }
}

/* Whether two names differ by one letter that was left out, added or changed, or by two
 * that were swapped. What differs in digits is meant to. */
static bool is_near(struct text one, struct text other)
{
    while (one.length > 0 && other.length > 0 && one.at[0] == other.at[0]) {
        one = (struct text){one.at + 1, one.length - 1};
        other = (struct text){other.at + 1, other.length - 1};
    }
    while (one.length > 0 && other.length > 0 &&
           one.at[one.length - 1] == other.at[other.length - 1]) {
        one.length--;
        other.length--;
    }
    for (size_t at = 0; at < one.length + other.length; at++) {
        if (is_digit(at < one.length ? one.at[at] : other.at[at - one.length])) {
            return false;
        }
    }
    return (one.length <= 1 && other.length <= 1) ||
           (one.length == 2 && other.length == 2 && one.at[0] == other.at[1] &&
            one.at[1] == other.at[0]);
}

/* The name of an event of several rules that an event is called nearly as, where names
 * are long enough to tell. */
static struct text name_like(const struct list *list, size_t v)
{
    for (size_t other = 0; list->names[v].length > 2 && other < list->variables; other++) {
        if (mentions[other].rules > 1 && is_near(list->names[v], list->names[other])) {
            return list->names[other];
        }
    }
    return nowhere.rule;
}

/* Finds what there is to note on a list in words, before rules are left out of it. */
void find_notes(const struct list *list)
{
    for (size_t line = 0; list->form == FORM_NAMES && line < list->count; line++) {
        if (line == 0 || !same_rule(list->origins[line], list->origins[line - 1])) {
            mention_rule(list, line);
        }
    }
    for (size_t line = 0; list->form == FORM_NAMES && line < list->count; line++) {
        note_words(list, line);
    }
    for (size_t v = 0; list->form == FORM_NAMES && v < list->variables; v++) {
        if (mentions[v].rules == 1 && !mentions[v].split) {
            add_note((struct note){list->origins[mentions[v].first], list->names[v], false,
                                   name_like(list, v)});
        }
    }
}

/* The words of a note. */
static void put_note(struct writing *words, const struct note *note)
{
    if (note->split) {
        put_text(words, note->word);
        put_string(words, " is read as a difference; for one name write it in quotes, \"");
        put_text(words, note->word);
        put_string(words, "\"");
        return;
    }
    put_name(words, note->word);
    put_string(words, " stands in this rule only");
    if (note->like.length > 0) {
        put_string(words, "; is it ");
        put_name(words, note->like);
        put_string(words, ", mistyped?");
    }
}

/* Writes the notes as a member. */
static void write_notes(void)
{
    struct writing words = {NULL, 0, 0, false};
    json_array("notes");
    for (size_t at = 0; at < found && at < MOST_NOTES; at++) {
        json_object(NULL);
        json_string("file", notes[at].origin.file);
        json_integer("line", (int64_t)notes[at].origin.line);
        put_note(&words, &notes[at]);
        json_text("note", written(&words));
        clear_writing(&words);
        json_close();
    }
    json_close();
    free_writing(&words);
}

/* Prints the notes on standard error, behind the answer. */
static void print_notes(void)
{
    struct writing words = {NULL, 0, 0, false};
    fflush(stdout);
    for (size_t at = 0; at < found && at < MOST_NOTES; at++) {
        fprintf(stderr, "%s:%zu: note: ", notes[at].origin.file, notes[at].origin.line);
        put_note(&words, &notes[at]);
        show(stderr, written(&words));
        fputs(notes[at].like.length > 0 ? "\n" : ".\n", stderr);
        clear_writing(&words);
    }
    if (found > MOST_NOTES) {
        fprintf(stderr, "utvpi: %zu more notes are not shown.\n", found - MOST_NOTES);
    }
    free_writing(&words);
}

/* Says what there is to say behind an answer that was printed in this manner; that to a
 * question, and in order, counts as short. */
void print_rest(const struct list *list, enum manner manner, int status)
{
    bool in_words = manner == IN_WORDS || manner == IN_SHORT;
    if (json_wanted) {
        json_integer("rules", (int64_t)list->rules);
        json_integer("left_out", (int64_t)list->left_out);
        write_notes();
        return;
    }
    if (in_words && list->left_out > 0) {
        printf("\n%zu of %zu rules were left out: others on the same events say as much.\n",
               list->left_out, list->rules);
    }
    if (manner == IN_WORDS && status == STATUS_YES && list->variables > 1) {
        puts("\nutvpi --order shows the events in order, and which orders are forced.");
    }
    print_notes();
}
