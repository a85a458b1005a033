/* What --help and --version print, and help in a session. docs/MANUAL.md says the rest. */
#include "list.h"

/* It fits one screen, of 24 lines with 80 characters. */
const char help[] =
    "Usage: utvpi [OPTION...] [FILE...]\n"
    "Says whether whole numbers meet all the rules in the FILEs, or on standard\n"
    "input: yes, with a value for each event, or no, with the rules that clash.\n"
    "\n"
    "    brake - cause >= 1            # the brake came after its cause\n"
    "    up + down = 400 @ 0x18DA10F1  # two counters, and the message that said so\n"
    "    \"ABS-Status\" < brake + 5      # a name with other characters is in quotes\n"
    "Lines either, or and end stand around alternatives, of which one is to hold.\n"
    "\n"
    "  --order                  the events in order, and which orders are forced\n"
    "  --svg PICTURE            draws a timeline, or the rules that clash as a ring\n"
    "  --json, --csv            the answer for programs, or the table of a yes\n"
    "  --between EVENT EVENT    how far apart two events can be, how large together\n"
    "  --implies RULE           whether RULE follows from the rules\n"
    "  --why RULE, --why EVENT  why RULE always holds, or why EVENT has its bounds\n"
    "  --session                takes rules one at a time; there, help says more\n"
    "  --numbers                a no as the numbers of a refutation\n"
    "  --check REFUTATION       checks such numbers\n"
    "  --text, --write NEW      the rules as numbers, or as a file of records\n"
    "  --engine ENGINE          which engine decides, differences or all\n"
    "  --quiet, --version       no notes on names; the version, and the limits\n"
    "  --                       only FILEs follow; a FILE - is standard input\n"
    "Exit status: 0 yes, 1 no, 2 bad input, 3 internal (an answer failed its check).\n"
    "docs/MANUAL.md has the rest: names, numbers, clocks, origins, JSON, refutations.\n";

const char version[] =
    "utvpi " UTVPI_VERSION "\n"
    "The limits:\n"
    "    events       " AS_TEXT(UTVPI_MOST_VARIABLES) "\n"
    "    rules        " AS_TEXT(UTVPI_MOST_LINES) "; one with = counts twice, a needless one"
    " does not\n"
    "    bounds       -" AS_TEXT(UTVPI_MOST_BOUND) " to " AS_TEXT(UTVPI_MOST_BOUND)
    ", counted from origins\n"
    "    origins      -" AS_TEXT(MOST_ORIGIN) " to " AS_TEXT(MOST_ORIGIN) "\n"
    "    identifiers  0 to " AS_TEXT(UTVPI_MOST_IDENTIFIER) "\n"
    "    clocks       " AS_TEXT(UTVPI_MOST_RECORDERS) "\n"
    "    choices      " AS_TEXT(UTVPI_MOST_CHOICES) " of alternatives, and " AS_TEXT(MOST_EITHERS)
    " eithers inside each other\n"
    "    a name       " AS_TEXT(MOST_NAME) " characters\n"
    "    a rule       " AS_TEXT(MOST_RULE) " characters\n"
    "    a file       " AS_TEXT(MOST_MIB) " MiB\n";

const char help_of_session[] =
    "A session, utvpi --session, takes rules from standard input one at a time, such as\n"
    "cause - brake <= -1, and says of each at once whether whole numbers meet all the rules\n"
    "so far, or which of them clash. A line with one of these words does the rest:\n"
    "\n"
    "    show    prints the answer so far in full\n"
    "    order   prints the events in order, and which orders are forced\n"
    "    list    prints the rules so far, with the lines that they stand in\n"
    "    undo    withdraws the last rule, and with it the events that only it named\n"
    "    help    prints this\n"
    "\n"
    "Lines count from 1, those that are no rules too. A line that is wrong or refused\n"
    "changes nothing. After a no, undo has to come before another rule, clock or origin.\n"
    "The number of variables can be given only before the first rule. A session ends with\n"
    "its input, on a terminal with Ctrl-D.\n";
