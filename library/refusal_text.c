/* The library's own words on its refusals: the one part of it that is written in C, and
 * outside the proof. A number of the header that has no text here is an error, whatever
 * the compiler's options are. */
#include "utvpi.h"

#define AS_TEXT(number) AS_WRITTEN(number)
#define AS_WRITTEN(number) #number

/* A number's range, on both sides of 0. */
#define BEYOND(most) "is below -" AS_TEXT(most) " or above " AS_TEXT(most)

#pragma GCC diagnostic error "-Wswitch"
const char *utvpi_refusal_text(int number)
{
    switch ((enum utvpi_refusal)number) {
    case UTVPI_TOO_MANY_VARIABLES:
        return "there are more than " AS_TEXT(UTVPI_MOST_VARIABLES) " variables: use fewer";
    case UTVPI_BROKEN_LIST_LENGTH:
        return "the list's length is no multiple of a line's, " AS_TEXT(UTVPI_LINE_NUMBERS)
               " numbers of four bytes, or a line alone has another length: look for a cut or"
               " added part";
    case UTVPI_TOO_MANY_LINES:
        return "there are more than " AS_TEXT(UTVPI_MOST_LINES)
               " lines: leave out lines that add nothing";
    case UTVPI_BAD_COEFFICIENT:
        return "a coefficient of this line is not -1, 0 or 1: correct it, or write the line in"
               " another way";
    case UTVPI_BAD_VARIABLE:
        return "a variable's number is below 0 or not below n, or is not 0 beside the"
               " coefficient 0: correct it";
    case UTVPI_BAD_BOUND:
        return "the bound of this line " BEYOND(UTVPI_MOST_BOUND)
               ", where a line is shown 2*n times that: choose a coarser unit, or an origin"
               " nearer to the values";
    case UTVPI_SHORT_OUTPUT:
        return "a buffer for output is too short, or what is lent as a session's state is"
               " none: lend a longer one, or a state that a call left";
    case UTVPI_SHORT_WORK_AREA:
        return "the work area is too short: lend the room that the header names";
    case UTVPI_BAD_MODEL_LENGTH:
        return "the model has not one value for each variable: complete it";
    case UTVPI_BAD_MODEL_VALUE:
        return "a value of the model " BEYOND(UTVPI_MOST_VALUE) ": choose a nearer one";
    case UTVPI_LONG_REFUTATION:
        return "the refutation has more than " AS_TEXT(UTVPI_MOST_REFUTATION)
               " numbers: look for a shorter one";
    case UTVPI_MISPLACED_COEFFICIENT:
        return "the first coefficient of this line is 0 and the second is not: write the"
               " second term in the first place, and 0 and 0 in the second";
    case UTVPI_BAD_IDENTIFIER:
        return "the identifier of this line is below 0 or above " AS_TEXT(UTVPI_MOST_IDENTIFIER)
               ": give the message's own, of at most 29 bits, or 0 where there is none";
    case UTVPI_RECORD_CUT:
        return "the file ends before this record does, or before the record of kind "
               AS_TEXT(UTVPI_KIND_END) " that ends a list: get it again, its end is missing";
    case UTVPI_RECORD_UNKNOWN:
        return "this record is of no known kind: look for a damaged part";
    case UTVPI_RECORD_LENGTH:
        return "this record's length is not that of its kind: look for a damaged part";
    case UTVPI_RECORD_MISPLACED:
        return "this record is out of place, as kind " AS_TEXT(UTVPI_KIND_VARIABLES)
               " stands first and only there: look for records left out or added";
    case UTVPI_RECORD_AFTER_END:
        return "something follows the record that ends the list: cut the file off there";
    case UTVPI_NO_ROOM:
        return "the buffer has no room for the list, or for its file: lend a longer one";
    case UTVPI_RECORD_NO_IDENTIFIER:
        return "this record is a line of kind " AS_TEXT(UTVPI_KIND_IDENTIFIED_LINE)
               ", and its identifier is 0: write it as kind " AS_TEXT(UTVPI_KIND_LINE)
               ", without one";
    case UTVPI_AFTER_NO:
        return "the last line that was added made a no: withdraw it, and add this one then";
    case UTVPI_NO_LINES:
        return "the session has no line to withdraw: there is nothing to do";
    case UTVPI_TOO_MANY_CHOICES:
        return "this node of the tree has more than " AS_TEXT(UTVPI_MOST_CHOICES)
               " choices: leave out alternatives, or decide parts of the tree one by one";
    case UTVPI_BROKEN_TREE:
        return "the numbers are no tree, from this one on: correct it, or a count before it";
    case UTVPI_TREE_TOO_DEEP:
        return "this node of the tree is deeper than " AS_TEXT(UTVPI_MOST_DEPTH)
               ": write the tree with fewer levels";
    case UTVPI_NO_SUCH_CHOICE:
        return "the tree has no choice with this number: ask for a lower one, from 0 on";
    case UTVPI_BAD_CLOCK:
        return "the clock's form is none, or its rate is not a finite number above 0: correct"
               " it";
    case UTVPI_BAD_COUNT:
        return "a count " BEYOND(UTVPI_MOST_COUNT)
               ", so that a double need not hold it: choose an origin nearer to the values";
    case UTVPI_SHORT_SECONDS:
        return "the buffer for the seconds is shorter than the counts: lend a longer one";
    case UTVPI_BAD_RECORDER:
        return "an event names a recorder that the table has not: correct it, or add the"
               " recorder";
    case UTVPI_BAD_TABLE:
        return "the table has more than " AS_TEXT(UTVPI_MOST_RECORDERS)
               " recorders, or its lengths do not fit together: correct them, or write the"
               " events in parts";
    case UTVPI_NOT_DIFFERENCE:
        return "this line is no difference, with one coefficient 1 and the other -1: leave it"
               " out, or hand the list to the call that decides all lists";
    }
    return "this number is no refusal: look for a result that was taken for one";
}
