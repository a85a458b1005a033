/* The command: decides a list of rules given as text, or takes them one at a time in a
 * session. Or it says what the list implies, and why, checks a refutation that someone
 * proposes, or writes the list in another form. Lists come as text or as records. */
#include "list.h"

#include <errno.h>
#include <string.h>

/* What is asked for. Where nothing else is, the list is decided. */
struct command {
    bool help;
    bool version;
    bool in_numbers;
    bool session;
    bool to_text;
    bool json;
    bool csv;
    bool in_order;
    bool quiet;
    const char *to_records;
    const char *proposed;
    const char *between[2];
    const char *implied;
    const char *why;
    const char *picture;
    const char *engine;
    char **files;
    size_t file_count;
};

/* How a list that is decided is answered. */
static enum manner manner_of(const struct command *command)
{
    if (command->picture != NULL && is_standard_input(command->picture)) {
        return UNPRINTED;
    }
    return command->in_numbers ? IN_NUMBERS : command->csv ? IN_CSV : IN_WORDS;
}

/* The engine that decides, and whether there is one of the name that is given: where none
 * is, differences are decided by theirs. */
static bool find_engine(const struct command *command, enum engine *engine)
{
    const char *name = command->engine;
    *engine = name == NULL                      ? ENGINE_FITTING
              : strcmp(name, "differences") == 0 ? ENGINE_DIFFERENCES
                                                 : ENGINE_ALL;
    return *engine != ENGINE_ALL || strcmp(name, "all") == 0;
}

/* The option that a file with alternatives does not go with; NULL where there is none. */
static const char *option_of(const struct command *command)
{
    const struct {
        bool given;
        const char *name;
    } options[] = {
        {command->proposed != NULL, "--check"},   {command->to_text, "--text"},
        {command->to_records != NULL, "--write"}, {command->between[0] != NULL, "--between"},
        {command->implied != NULL, "--implies"},  {command->why != NULL, "--why"},
        {command->in_numbers, "--numbers"},       {command->csv, "--csv"},
        {command->in_order, "--order"},           {command->picture != NULL, "--svg"},
        {command->engine != NULL, "--engine"},
    };
    for (size_t at = 0; at < sizeof options / sizeof options[0]; at++) {
        if (options[at].given) {
            return options[at].name;
        }
    }
    return NULL;
}

/* Does what is asked for with rules that have alternatives. */
static int obey_with_alternatives(struct list *list, const struct command *command)
{
    const char *option = option_of(command);
    if (option != NULL) {
        return refuse_alternatives(list, option);
    }
    if (!command->quiet) {
        find_notes(list);
    }
    count_rules(list, NULL);
    return answer_alternatives(list);
}

/* Does what is asked for with the rules that were read. */
static int obey(struct list *list, const struct command *command)
{
    if (list->tree.either > 0) {
        return obey_with_alternatives(list, command);
    }
    if (command->proposed != NULL) {
        return run_check(list, command->proposed);
    }
    if (command->to_text || command->to_records != NULL) {
        return convert(list, command->to_records);
    }
    if (!command->quiet) {
        find_notes(list);
    }
    if (!leave_out(list)) {
        return STATUS_BAD;
    }
    if (command->between[0] != NULL) {
        return answer_between(list, command->between);
    }
    if (command->implied != NULL) {
        return answer_implies(list, command->implied);
    }
    if (command->why != NULL) {
        return answer_why(list, command->why);
    }
    find_engine(command, &list->engine);
    if (command->picture != NULL) {
        int status = answer_drawn(list, command->picture);
        if (status == STATUS_BAD || status == STATUS_DISAGREE || manner_of(command) == UNPRINTED) {
            return status;
        }
    }
    return command->in_order ? answer_order(list) : answer(list, manner_of(command));
}

/* Reads the list, does what is asked for, and says what there is to say besides. */
static int run(const struct command *command)
{
    static struct list list;
    bool asks = command->between[0] != NULL || command->implied != NULL ||
                command->why != NULL || command->in_order;
    bool decides = command->proposed == NULL && !command->to_text && command->to_records == NULL;
    int status = STATUS_BAD;
    if (read_files(&list, (const char *const *)command->files, command->file_count)) {
        status = obey(&list, command);
        if (decides && (status == STATUS_YES || status == STATUS_NO)) {
            bool in_short = asks || list.tree.either > 0;
            print_rest(&list, in_short ? IN_SHORT : manner_of(command), status);
        }
    }
    free_list(&list);
    return status;
}

/* Ends with the status, unless what was printed did not get out. */
static int finish(int status)
{
    json_end();
    if (fflush(stdout) != 0 || ferror(stdout)) {
        fprintf(stderr, "utvpi: the answer could not be written: %s\n", strerror(errno));
        return STATUS_BAD;
    }
    return status;
}

/* The option without arguments that has this name; NULL where there is none. */
static bool *find_flag(const char *name, struct command *command)
{
    struct flag {
        const char *name;
        bool *set;
    } flags[] = {
        {"--help", &command->help},       {"-h", &command->help},
        {"--version", &command->version}, {"--numbers", &command->in_numbers},
        {"--session", &command->session}, {"--text", &command->to_text},
        {"--json", &command->json},       {"--csv", &command->csv},
        {"--order", &command->in_order},  {"--quiet", &command->quiet},
    };
    for (size_t at = 0; at < sizeof flags / sizeof flags[0]; at++) {
        if (strcmp(name, flags[at].name) == 0) {
            return flags[at].set;
        }
    }
    return NULL;
}

static const char engine_use[] = "--engine takes one ENGINE, differences or all";

/* An option that arguments follow: so many, and what to say where they do not, or where
 * it is given twice. */
struct option {
    const char *name;
    const char **arguments;
    int count;
    const char *use;
};

/* Reads an option's arguments, which stand behind it. */
static bool take_arguments(int argc, char **argv, int *at, struct option option)
{
    if (argc - *at <= option.count || option.arguments[0] != NULL) {
        return false;
    }
    for (int argument = 0; argument < option.count; argument++) {
        *at += 1;
        option.arguments[argument] = argv[*at];
    }
    return true;
}

/* Reads an option that arguments follow. Gives back what is wrong, or NULL. */
static const char *read_option(int argc, char **argv, int *at, struct command *command)
{
    const struct option options[] = {
        {"--between", command->between, 2, "--between takes two EVENTs, the names of two events"},
        {"--check", &command->proposed, 1,
         "--check takes one REFUTATION: a file, or - for standard input"},
        {"--engine", &command->engine, 1, engine_use},
        {"--implies", &command->implied, 1, "--implies takes one RULE, in quotes"},
        {"--svg", &command->picture, 1,
         "--svg takes one PICTURE, a file whose name ends with .svg, or - for standard output"},
        {"--why", &command->why, 1,
         "--why takes one RULE, in quotes, or one EVENT, the name of an event"},
        {"--write", &command->to_records, 1,
         "--write takes one NEW file, or - for standard output"},
    };
    for (size_t one = 0; one < sizeof options / sizeof options[0]; one++) {
        if (strcmp(argv[*at], options[one].name) == 0) {
            return take_arguments(argc, argv, at, options[one]) ? NULL : options[one].use;
        }
    }
    return "there are only the options --between, --check, --csv, --engine, --help, --implies,"
           " --json, --numbers, --order, --quiet, --session, --svg, --text, --version, --why and --write,"
           " and -- before a FILE that looks like one";
}

/* Takes the arguments apart. FILEs are kept at the front. Gives back what is wrong with
 * the arguments, or NULL. */
static const char *read_arguments(int argc, char **argv, struct command *command)
{
    const char *wrong_use = NULL;
    bool only_files = false;
    for (int at = 1; at < argc && wrong_use == NULL; at++) {
        bool *flag = only_files ? NULL : find_flag(argv[at], command);
        if (flag != NULL) {
            *flag = true;
        } else if (!only_files && strcmp(argv[at], "--") == 0) {
            only_files = true;
        } else if (!only_files && argv[at][0] == '-' && argv[at][1] != '\0') {
            wrong_use = read_option(argc, argv, &at, command);
        } else {
            command->files[command->file_count] = argv[at];
            command->file_count++;
        }
    }
    return wrong_use;
}

/* Whether standard input is asked for twice, as FILE or as REFUTATION. */
static bool reads_twice(const struct command *command)
{
    int times = command->proposed != NULL && is_standard_input(command->proposed);
    for (size_t at = 0; at < command->file_count; at++) {
        times += is_standard_input(command->files[at]);
    }
    return times > 1;
}

/* Whether a text ends with a word. */
static bool ends_with(const char *text, const char *end)
{
    size_t length = strlen(text), own = strlen(end);
    return length > own && strcmp(text + length - own, end) == 0;
}

/* Whether the list is decided, and nothing else asked for. */
static bool only_decides(const struct command *command)
{
    return !command->session && !command->to_text && command->to_records == NULL &&
           command->proposed == NULL && command->between[0] == NULL && command->implied == NULL &&
           command->why == NULL;
}

/* Whether an engine goes with what is asked for. Gives back what does not, or NULL. */
static const char *suits_engine(const struct command *command)
{
    enum engine engine;
    if (!find_engine(command, &engine)) {
        return engine_use;
    }
    return command->engine == NULL || only_decides(command)
               ? NULL
               : "--engine goes with deciding, and with none of --between, --check, --implies,"
                 " --session, --text, --why and --write";
}

/* Whether a picture goes with what is asked for. Gives back what does not, or NULL. */
static const char *suits_picture(const struct command *command)
{
    bool to_output = is_standard_input(command->picture);
    if (!only_decides(command)) {
        return "--svg goes with deciding, and with none of --between, --check, --implies,"
               " --session, --text, --why and --write";
    }
    if (to_output && (command->json || command->csv || command->in_order || command->in_numbers)) {
        return "--svg - prints the picture alone: name a file, or leave out the other options";
    }
    return to_output || ends_with(command->picture, ".svg")
               ? NULL
               : "--svg takes a PICTURE whose name ends with .svg, so that no file of rules is"
                 " written over";
}

/* Whether what is asked for fits together. Gives back what does not, or NULL. */
static const char *suits(const struct command *command)
{
    bool to_records = command->to_records != NULL;
    int orders = command->in_numbers + command->session + command->to_text + command->csv +
                 command->in_order + to_records + (command->proposed != NULL) +
                 (command->between[0] != NULL) + (command->implied != NULL) +
                 (command->why != NULL);
    if (orders > 1) {
        return "give only one of --between, --check, --csv, --implies, --numbers, --order,"
               " --session, --text, --why and --write";
    }
    if (command->json && (command->in_numbers || command->csv || command->to_text || to_records)) {
        return "--json goes with none of --csv, --numbers, --text and --write";
    }
    if (command->session && !(command->file_count == 1 && is_standard_input(command->files[0]))) {
        return "--session reads standard input and takes no FILE";
    }
    if (to_records && command->to_records[0] == '-' && command->to_records[1] != '\0') {
        return "--write takes a NEW file, and this is an option";
    }
    if (reads_twice(command)) {
        return "standard input can't be read twice, as FILE and REFUTATION or both: name a file";
    }
    const char *wrong_use = suits_engine(command);
    return wrong_use != NULL || command->picture == NULL ? wrong_use : suits_picture(command);
}

/* Reads the command line. Gives back what is wrong with it, or NULL. */
static const char *read_command(int argc, char **argv, struct command *command)
{
    static char standard_input[] = "-";
    const char *wrong_use = read_arguments(argc, argv, command);
    if (command->file_count == 0) {
        command->files[0] = standard_input;
        command->file_count = 1;
    }
    return wrong_use != NULL ? wrong_use : suits(command);
}

/* Whether --json is given, also where something is wrong before it. */
static bool asks_for_json(int argc, char **argv)
{
    bool asks = false;
    for (int at = 1; at < argc && !asks && strcmp(argv[at], "--") != 0; at++) {
        asks = strcmp(argv[at], "--json") == 0;
    }
    return asks;
}

int main(int argc, char **argv)
{
    struct command command = {.files = argv};
    json_wanted = asks_for_json(argc, argv);
    const char *wrong_use = read_command(argc, argv, &command);
    if (command.help || command.version) {
        fputs(command.help ? help : version, stdout);
        return finish(0);
    }
    if (wrong_use != NULL) {
        return finish(refuse_use(wrong_use));
    }
    return finish(command.session ? run_session(called(command.files[0])) : run(&command));
}
