/* The C interface: a function that decides a list, one that decides a list of differences
 * with less memory, and two that check a proposed model of a list, and a proposed
 * refutation of a list; a check of a refutation that arrives in pieces, one that finds the
 * shorter of two refutations, three functions for sessions, in which lines come one at a
 * time, two that say what a list implies, about two variables or of one line more, and two
 * that say the same of a session's lines, two that show that a list implies a line and
 * check what is shown, two for conditions with alternatives, two that write a model in
 * seconds, two for lists in files, and one that puts a refusal in words. A program links
 * one file, libutvpi.a, which ./build-library makes in target/lib/; make install puts it
 * in place, with libutvpi.so, the manual pages and what pkg-config asks for.
 *
 * Deciding, sessions, what a list implies, showing a line, alternatives, the shorter of
 * two refutations and seconds take and write numbers, as the machine holds them. The
 * checks of a model, of a refutation and of a showing take bytes, the lowest byte of each
 * number first.
 *
 * A LIST has n variables, numbered 0 to n-1, each standing for a whole number,
 * and lines of the form  a*x + b*y <= d.  A line is UTVPI_LINE_NUMBERS signed
 * 32-bit numbers, for the checks each as four bytes:
 *
 *     a   the first coefficient: -1, 0 or 1
 *     x   the number of its variable; 0 where a is 0
 *     b   the second coefficient: -1, 0 or 1; 0 where a is 0
 *     y   the number of its variable; 0 where b is 0
 *     d   the bound, from -UTVPI_MOST_BOUND to UTVPI_MOST_BOUND
 *     identifier   of the message that the line came from, from 0 to
 *         UTVPI_MOST_IDENTIFIER, all 29 bits of it; 0 where there is none. It
 *         changes no answer, and comes back with a refutation.
 *
 * So a list of k lines is UTVPI_LINE_NUMBERS*k numbers, or UTVPI_LINE_BYTES*k
 * bytes. x and y may be the same variable. A line on one variable has it in the
 * first place, with b and y 0. With both coefficients 0 the line says 0 <= d. At
 * most UTVPI_MOST_VARIABLES variables and UTVPI_MOST_LINES lines.
 *
 * A MODEL is one value for each variable, in order, each a signed 64-bit number,
 * for the checks as eight bytes. It is a yes if it meets every line.
 *
 * A REFUTATION shows that no whole numbers meet all lines. It is a row of
 * unsigned 32-bit numbers, for the checks each as four bytes: the kind, a first
 * count p, a second count q, then p + q step numbers and nothing more.
 * Each variable x has two points: x+ stands for x and x- for -x. A step leads
 * from one point to another and has a weight. Its number is twice the number
 * of its line, plus its side:
 *
 *     line             side 0      side 1      weight
 *      x + y <= d      x+ to y-    y+ to x-    d
 *      x - y <= d      x+ to y+    y- to x-    d
 *     -x + y <= d      x- to y-    y+ to x+    d
 *     -x - y <= d      x- to y+    y- to x+    d
 *      x     <= d      x+ to x-    none        2*d
 *     -x     <= d      x- to x+    none        2*d
 *      0     <= d      none        none
 *
 * In a walk each step begins at the point where the one before it ends. A
 * refutation is a yes if it is one of these:
 *
 *     kind 1   q is 0, p is at least 1: a walk that ends where it began and
 *              whose weights sum to less than 0.
 *     kind 2   p and q are at least 1: a walk of p steps from a point to its
 *              opposite, with sum S, and one of q steps back, with sum T. S
 *              halved plus T halved is less than 0, each half rounded down: -7
 *              halved is -4.
 *     kind 3   p is 1, q is 0: the one step number is twice the number of a
 *              line 0 <= d with d below 0.
 *
 * Any other is a no, which says where it breaks: see WHERE A REFUTATION BREAKS.
 */
#ifndef UTVPI_H
#define UTVPI_H

#include <stddef.h>
#include <stdint.h>

#ifdef __cplusplus
extern "C" {
#endif

/* The version of this header and of the library that belongs to it. The first number is
 * raised where a program that was compiled with the header before has to be compiled
 * again or changed; it is the number behind libutvpi.so, too. */
#define UTVPI_VERSION "3.0.0"

/* Trees, seconds and files return structs of their own. Deciding, checking, sessions and
 * what lines imply return one number; of two variables it is the result of a struct:
 *
 *     0                              yes; of starting a session, of withdrawing a line
 *                                    and of two variables, that it was done
 *     1,000,000 + k                  no. For deciding, for a line added to a session
 *                                    and for a line that may be implied, k is always
 *                                    0. For a model, k is the first line that it does
 *                                    not meet.
 *                                    For a refutation and for a showing, k is the
 *                                    index of the first number that is wrong; where
 *                                    a line is to be shown, k is 0: see WHERE A
 *                                    REFUTATION BREAKS. Lines and indexes count
 *                                    from 0.
 *     2,000,000                      of what lines imply: they can't be met, so that
 *                                    there is nothing to say
 *     -(refusal * 100,000 + place)   a refusal: there is no answer. The refusal
 *                                    is one of the numbers below; the place is
 *                                    a line, an index or a buffer where the
 *                                    table says so, and else 0. Lines and
 *                                    indexes count from 0.
 *
 * A pointer may be NULL only where its length is 0, and even there NULL is best
 * avoided: pass a pointer to anything. The functions keep nothing from one call
 * to the next and may be called from several threads at once.
 */

/* The most variables and the most lines that a list may have, and the most
 * numbers of a refutation. */
#define UTVPI_MOST_VARIABLES 256
#define UTVPI_MOST_LINES 4096
#define UTVPI_MOST_REFUTATION 65536

/* The greatest bound of a line; the least is its opposite. */
#define UTVPI_MOST_BOUND 1000000

/* The greatest bound of a line that is shown, among n variables; the least is its
 * opposite. */
#define UTVPI_MOST_SHOWN_BOUND(n) (2 * (int64_t)(n) * UTVPI_MOST_BOUND)

/* The greatest value of a model that is checked; the least is its opposite. */
#define UTVPI_MOST_VALUE 1000000000000

/* The greatest identifier of a message: 29 bits. */
#define UTVPI_MOST_IDENTIFIER 536870911

/* The numbers of a line, and its bytes. */
#define UTVPI_LINE_NUMBERS 6
#define UTVPI_LINE_BYTES ((size_t)4 * UTVPI_LINE_NUMBERS)

/* The room that deciding a list of n variables needs, in numbers, for n up to
 * UTVPI_MOST_VARIABLES. With a constant n these are constants, fit for the
 * length of an array; but for n = 0 the first three are 0, which no array may
 * have. The work area grows with the square of n, and for many variables is too
 * long for most stacks: take it from the heap, for the n at hand. A list with n
 * above UTVPI_MOST_VARIABLES is refused before any room is looked at: for it, lend
 * whatever there is. */
#define UTVPI_MODEL_ROOM(n) ((size_t)(n))
#define UTVPI_BOUNDS_ROOM(n) ((size_t)2 * (size_t)(n))
#define UTVPI_GROUPS_ROOM(n) ((size_t)2 * (size_t)(n))
#define UTVPI_REFUTATION_ROOM(n) ((size_t)4 + (size_t)4 * (size_t)(n))
#define UTVPI_IDENTIFIERS_ROOM(n) ((size_t)4 + (size_t)4 * (size_t)(n))
#define UTVPI_WORK_ROOM(n) \
    ((size_t)16 * (size_t)(n) * (size_t)(n) + (size_t)64 * (size_t)(n) + (size_t)64)

/* The room of the work area with which utvpi_decide_differences does, in numbers. */
#define UTVPI_DIFFERENCES_WORK_ROOM(n) \
    ((size_t)2 * (size_t)(n) * (size_t)(n) + (size_t)16 * (size_t)(n) + (size_t)16)

/* The same in bytes, for malloc: the rooms above and the lengths that the calls ask for
 * are in numbers. For n = 0 the first three are 0: there malloc may give NULL, which is
 * no lack of memory. */
#define UTVPI_MODEL_BYTES(n) (sizeof(int32_t) * UTVPI_MODEL_ROOM(n))
#define UTVPI_BOUNDS_BYTES(n) (sizeof(int64_t) * UTVPI_BOUNDS_ROOM(n))
#define UTVPI_GROUPS_BYTES(n) (sizeof(uint32_t) * UTVPI_GROUPS_ROOM(n))
#define UTVPI_REFUTATION_BYTES(n) (sizeof(uint32_t) * UTVPI_REFUTATION_ROOM(n))
#define UTVPI_IDENTIFIERS_BYTES(n) (sizeof(uint32_t) * UTVPI_IDENTIFIERS_ROOM(n))
#define UTVPI_WORK_BYTES(n) (sizeof(int64_t) * UTVPI_WORK_ROOM(n))
#define UTVPI_DIFFERENCES_WORK_BYTES(n) (sizeof(int64_t) * UTVPI_DIFFERENCES_WORK_ROOM(n))

/* The most stack that a call takes, in bytes. utvpi_check_model,
 * utvpi_check_refutation and utvpi_read_list hold the longest list there, however
 * short the one at hand is; utvpi_session_add, utvpi_session_withdraw, utvpi_implied_line
 * and utvpi_show_line hold it and one line more; utvpi_check_shown holds both, which is
 * the most. What the others hold beside a list, a byte for each of its lines in
 * utvpi_tree_first and utvpi_tree_decide, a model in utvpi_check_model, a row of distances
 * in utvpi_session_add and utvpi_session_withdraw, and a refutation that is handed over in
 * utvpi_implied_line, utvpi_implied_pair and utvpi_tree_first, takes less than a second
 * list. The last part is for all else, and the other calls take no more than that. A
 * thread that calls them needs this much and what it takes itself. No call takes memory
 * from the heap. */
#define UTVPI_MOST_STACK \
    (UTVPI_LINE_BYTES * (2 * UTVPI_MOST_LINES + 1) + (size_t)4096)

/* In the bounds: a variable that has no least value, and one that has no greatest; so
 * the latter of a sum of two variables, too. */
#define UTVPI_NO_LEAST INT64_MIN
#define UTVPI_NO_GREATEST INT64_MAX

/* Are there whole numbers that meet every line of this list of n variables?
 *
 * Lengths are in numbers, not bytes. Each pointer must point to at least as
 * many numbers as its length says, at the alignment of its type. The list is
 * only read. The six buffers are lent for writing: no two of them may overlap,
 * and none may overlap the list. Nobody else may use them during the call, nor
 * change the list. What they hold before the call does not matter. Each may be
 * longer than the room it needs; what lies beyond that room is left as it was.
 *
 *     buffer       room                        what for
 *     model        UTVPI_MODEL_ROOM(n)         n values
 *     bounds       UTVPI_BOUNDS_ROOM(n)        n times a least, then a greatest
 *     groups       UTVPI_GROUPS_ROOM(n)        n times a variable, then a sign
 *     refutation   UTVPI_REFUTATION_ROOM(n)    kind, p, q and the steps
 *     identifiers  UTVPI_IDENTIFIERS_ROOM(n)   an identifier for each step
 *     work         UTVPI_WORK_ROOM(n)          nothing that lasts
 *
 * On a yes, the model, the bounds and the groups are written, and the refutation
 * and the identifiers are left as they were:
 *
 *     model    The variables in the order of their numbers. Each has the value
 *              nearest 0 among those that it can have beside the values chosen
 *              before it. No value is further than n * UTVPI_MOST_BOUND from 0, so
 *              that 32 bits hold it.
 *     bounds   For variable v, bounds[2*v] is the least and bounds[2*v + 1] the
 *              greatest value that it has among all the ways to meet the list.
 *              Where there is none, UTVPI_NO_LEAST and UTVPI_NO_GREATEST; one
 *              that is there is no further than n * UTVPI_MOST_BOUND from 0.
 *     groups   For variable v, groups[2*v] is the lowest variable r with v = r
 *              in every way to meet the list, or v = -r in every one; v itself
 *              where there is no lower one. groups[2*v + 1] is the sign: 0 for
 *              v = r, 1 for v = -r, and 0 where both hold, which is where v is
 *              always 0. So v and w are equal in every way to meet the list
 *              exactly if both numbers are the same for v as for w, and v = -w
 *              exactly if the first is the same and the second differs, or both
 *              are always 0.
 *
 * On a no, the refutation is written, and the model, the bounds and the groups
 * are left as they were. It has 3 + p + q numbers, where p is refutation[1] and
 * q is refutation[2]; what lies beyond them is left as it was. It is of kind 3,
 * for the lowest line 0 <= d with d below 0, if there is such a line; else of
 * kind 1, if there is one of kind 1; else of kind 2. In kinds 1 and 2, p + q is
 * at most 4*n. Of several such walks, any may be given. Of each of its p + q steps,
 * in the order in which they stand there, identifiers[i] is the identifier of the
 * step's line, whole; what lies beyond them is left as it was.
 *
 * On a yes and on a no, the first UTVPI_WORK_ROOM(n) numbers of the work area
 * are 0 after the call. On a refusal, every buffer is left as it was. */
int64_t utvpi_decide(uint64_t n, const int32_t *list, size_t list_len,
                     int32_t *model, size_t model_len, int64_t *bounds, size_t bounds_len,
                     uint32_t *groups, size_t groups_len,
                     uint32_t *refutation, size_t refutation_len,
                     uint32_t *identifiers, size_t identifiers_len,
                     int64_t *work, size_t work_len);

/* The same for a list of DIFFERENCES, with about an eighth of the work area. A line is a
 * difference if one of its coefficients is 1 and the other -1, in either order: x - y <= d
 * or -x + y <= d, where x and y may be the same variable.
 *
 * Arguments, buffers and results are those of utvpi_decide, and so is all that is said
 * there of pointers and of what is written, but that the room of the work area is
 * UTVPI_DIFFERENCES_WORK_ROOM(n): so many numbers of it are 0 after a yes and after a no.
 * Result, model, bounds and groups are those that utvpi_decide gives for the same list; no
 * variable has a least or a greatest value, as all may grow and fall together, and no sign
 * of a group is 1. On a no the refutation is of kind 1, and its walk may be another than
 * that of utvpi_decide: utvpi_shorter says which of the two is the shorter.
 *
 * It is refused, in this order: as utvpi_decide refuses the list; as UTVPI_NOT_DIFFERENCE,
 * at the first line that is no difference; as UTVPI_SHORT_OUTPUT; as
 * UTVPI_SHORT_WORK_AREA. */
int64_t utvpi_decide_differences(uint64_t n, const int32_t *list, size_t list_len,
                                 int32_t *model, size_t model_len,
                                 int64_t *bounds, size_t bounds_len,
                                 uint32_t *groups, size_t groups_len,
                                 uint32_t *refutation, size_t refutation_len,
                                 uint32_t *identifiers, size_t identifiers_len,
                                 int64_t *work, size_t work_len);

/* The two checks. Lengths are in bytes. Each pointer must point to at least as
 * many readable bytes as its length says, at any alignment. The bytes must not
 * change during the call. The checks only read: they write to nothing, and may
 * be called from several threads at once on the same bytes too. */

/* Does this model meet every line of this list of n variables? Of a no, k is the
 * first line that it does not meet. A value has eight bytes here: those of a model that
 * was written, which have four, are made int64_t first. */
int64_t utvpi_check_model(uint64_t n, const uint8_t *list, size_t list_len,
                          const uint8_t *model, size_t model_len);

/* Does this refutation show that this list of n variables cannot be met? Of a no,
 * k is the index of the number where it breaks.
 *
 * WHERE A REFUTATION BREAKS. Index 0 is the kind, 1 is p, 2 is q, and the steps
 * follow from index 3 on. Of these, the first that applies gives k:
 *
 *     k             what is wrong, and what to correct
 *     0             The bytes are no multiple of four, or there are fewer than
 *                   three numbers: look for a cut or added part.
 *     0             The kind is not 1, 2 or 3: correct it.
 *     1             The counts do not suit the kind: correct p, q or the kind.
 *     2             There are not 3 + p + q numbers: correct p or q, or look for
 *                   numbers left out or added.
 *     3             In kind 3, the step number is not twice the number of a line
 *                   0 <= d with d below 0: correct it.
 *     3 or more     In kinds 1 and 2, the first step number of which one of these
 *                   is true: correct it, or the ones before it.
 *                     - It names no step: its line is not in the list, or has no
 *                       such side in the table of steps.
 *                     - It does not join: its step does not begin where the one
 *                       before it ends. The step at index 3 may begin anywhere;
 *                       the second walk goes on where the first ends.
 *                     - It is the last of the first walk in kind 2, at index
 *                       2 + p, and does not end at the opposite of where the
 *                       step at index 3 begins.
 *                     - It is the last of all, at index 2 + p + q, and does not
 *                       end where the step at index 3 begins.
 *     2 + p + q     In kinds 1 and 2, all steps are as they should be, but the
 *                   sums are not low enough: name other steps. This is the index
 *                   of the last number.
 */
int64_t utvpi_check_refutation(uint64_t n, const uint8_t *list, size_t list_len,
                               const uint8_t *refutation, size_t refutation_len);

/* The same for a refutation that arrives in pieces: begin, take its numbers one
 * after another, and ask for the result at the end, which is that of
 * utvpi_check_refutation on the whole; the index of a no counts from the first
 * number taken. List and numbers are given as the machine holds them; lengths
 * are in numbers.
 *
 * What is kept between two numbers is this struct, and nothing else: it may be
 * stored and used again later, and a copy of it goes on from the same place. Its
 * ten numbers are the checker's own and best left alone. Whatever they are, the
 * calls return, and what they return is fixed by them: the byte good is 1 as long
 * as nothing was wrong, and any other number there counts as 0; a struct with larger numbers than those taken can have left makes
 * the refutation wrong, at the end with k = 0. Of a struct that no call returned
 * the result says nothing else.
 *
 * Give every call the same list. The refusals of the list are given at the end;
 * too many numbers are refused there too. */
typedef struct utvpi_progress {
    size_t read, kind, p, q, u, here;
    int64_t first, second;
    uint8_t good;
    size_t wrong;
} utvpi_progress;

utvpi_progress utvpi_refutation_begin(void);

utvpi_progress utvpi_refutation_take(utvpi_progress kept, const int32_t *list, size_t list_len,
                                     uint32_t number);

int64_t utvpi_refutation_end(utvpi_progress kept, uint64_t n,
                             const int32_t *list, size_t list_len);

/* THE SHORTER OF TWO REFUTATIONS. Which of two refutations of this list of n variables is
 * accepted, as utvpi_check_refutation accepts it, and which of two that are is the shorter?
 * Anybody may have proposed them. Each is lent with whatever lies behind it, such as the
 * buffer that deciding wrote it to, whole: the first 3 + p + q numbers are the refutation,
 * where p is its number at index 1 and q that at index 2, and only these are looked at. One
 * that has fewer numbers is not accepted, and neither is one with 3 + p + q above
 * UTVPI_MOST_REFUTATION, though what is lent may be longer than that.
 *
 * The shorter accepted one is handed back as a part of what was lent: which says of which
 * of the two, and length how many numbers from its front, which is 3 + p + q. When they
 * tie it is the first. Where neither is accepted, or the list is refused, which is
 * UTVPI_SHORTER_NEITHER and length is 0; the checks say why. There is no refusal.
 *
 * List and refutations are numbers as the machine holds them, at the alignment of their
 * types; lengths are in numbers. Nothing is written: the two may overlap, or be the same,
 * and several threads may be lent the same numbers. */
#define UTVPI_SHORTER_NEITHER 0
#define UTVPI_SHORTER_FIRST 1
#define UTVPI_SHORTER_SECOND 2

typedef struct utvpi_part {
    uint64_t which, length;
} utvpi_part;

utvpi_part utvpi_shorter(uint64_t n, const int32_t *list, size_t list_len,
                         const uint32_t *first, size_t first_len,
                         const uint32_t *second, size_t second_len);

/* A SESSION takes the lines of a list one at a time, and decides all that it has each
 * time. It starts with n variables and no lines. What is kept between two calls is its
 * state, and nothing else: a lent buffer of signed 64-bit numbers, in which every line
 * stands, what the lines say of each two variables, and their model and groups. So a line
 * that is added takes time that grows with the square of n, not with its cube, as long as
 * the answer is a yes; the one that makes a no takes as long as deciding all lines. The room
 * of a state is UTVPI_SESSION_ROOM(n) numbers, for n up to UTVPI_MOST_VARIABLES: at least
 * 24,579 numbers, or 196,632 bytes, and at most 287,491 numbers, or 2,299,928 bytes, which
 * are best taken from the heap. The buffer may be longer; what lies beyond the room is
 * left as it was. Lengths are in numbers. A state may be stored and used again later, and a
 * copy of it is a session of its own.
 *
 * Only these calls write a state. It is n, how many lines there are, 1 where the last
 * answer was a no and else 0, the numbers of each line in order, zeros up to where those of
 * the last of UTVPI_MOST_LINES lines would end, and the table of distances: with 2*x for
 * the point x+ and 2*x + 1 for x-, of each point v a row of 2*n numbers, in which the one
 * of each point u is the least sum of a walk from u to v, 0 where both are one point, and
 * UTVPI_NO_GREATEST where there is no walk. Behind it stand the model, n numbers, and the
 * groups, 2*n numbers, as utvpi_decide writes them. After a no these three are of the lines
 * before the last. Numbers that are no state are refused, as UTVPI_SHORT_OUTPUT at the place
 * UTVPI_OUTPUT_STATE: where there are fewer than the room for their n, or where one of the
 * first three, or a number of a line, is out of its range. Of all others that no call left,
 * no more is said than that each call returns, that a refusal is given as it is for states
 * and changes nothing, and that a no to a line that is added is right: a yes may be wrong.
 *
 * The pointers are as for utvpi_decide: no two buffers may overlap. On a refusal the
 * state and every buffer are left as they were. */
#define UTVPI_SESSION_ROOM(n) \
    ((size_t)3 + (size_t)UTVPI_LINE_NUMBERS * UTVPI_MOST_LINES + \
     (size_t)4 * (size_t)(n) * (size_t)(n) + (size_t)3 * (size_t)(n))

/* The same in bytes, for malloc. */
#define UTVPI_SESSION_BYTES(n) (sizeof(int64_t) * UTVPI_SESSION_ROOM(n))

/* A line, by value. The head of this file says what its numbers are. */
typedef struct utvpi_line {
    int32_t a, x, b, y, d, identifier;
} utvpi_line;

/* Starts a session of n variables without lines: all of its room is written, whatever
 * stood there, and 0 is returned. It is refused as UTVPI_TOO_MANY_VARIABLES, and then as
 * UTVPI_SHORT_OUTPUT, place UTVPI_OUTPUT_STATE, where the state is shorter than its
 * room. */
int64_t utvpi_session_start(uint64_t n, int64_t *state, size_t state_len);

/* Adds a line behind those of the session, and decides all of them: the result, and what
 * is left in the six buffers, is as utvpi_decide has it for the list of all lines so far.
 * After a yes and after a no the line is part of the state. After a no, no line is added
 * before one was withdrawn.
 *
 * It is refused, in this order: where the numbers are no state; as UTVPI_AFTER_NO, where
 * the last answer was a no; as UTVPI_TOO_MANY_LINES, where there are UTVPI_MOST_LINES
 * lines; by the rules of a line, with the new line's number as the place, which is how
 * many lines there were before; as UTVPI_SHORT_OUTPUT and as UTVPI_SHORT_WORK_AREA, as
 * by utvpi_decide. */
int64_t utvpi_session_add(int64_t *state, size_t state_len, utvpi_line line,
                          int32_t *model, size_t model_len, int64_t *bounds, size_t bounds_len,
                          uint32_t *groups, size_t groups_len,
                          uint32_t *refutation, size_t refutation_len,
                          uint32_t *identifiers, size_t identifiers_len,
                          int64_t *work, size_t work_len);

/* Withdraws the last line: every number of the state is what it was before that line was
 * added, and 0 is returned, which is no answer to the lines that are left. They were
 * answered with a yes when the last of them was added, so that lines can be added again.
 * After a no it takes next to no time; else it takes as long as adding all lines that are
 * left. It is refused where the numbers are no state, and then as UTVPI_NO_LINES, where
 * there is no line. */
int64_t utvpi_session_withdraw(int64_t *state, size_t state_len);

/* WHAT A LIST IMPLIES, for all the ways to meet it: how large sums and differences of two
 * variables can be, and whether a line more would add nothing. Lengths are in numbers. The
 * list is only read; the pointers are as for utvpi_decide, and the work area is that of
 * utvpi_decide, with UTVPI_WORK_ROOM(n) numbers, which are 0 after every answer that is
 * no refusal. On a refusal every buffer is left as it was. */

/* Of two variables, result says whether the list can be met: 0 where it can, else
 * UTVPI_UNSOLVABLE or a refusal, and then the four numbers are 0. */
typedef struct utvpi_pair {
    int64_t result, plus[2], minus[2];
} utvpi_pair;

/* How large can the sum and the difference of the variables x and y be, with either sign
 * of each? Over all the ways to meet the list, plus[0] is the greatest value of x + y and
 * plus[1] that of x - y, minus[0] that of -x + y and minus[1] that of -x - y; where there
 * is none, UTVPI_NO_GREATEST. So the least value of x + y is -minus[1], and that of x - y
 * is -minus[0]. x and y may be the same variable: x - x has 0, and x + x twice the
 * greatest value of x.
 *
 * It is refused, in this order: as utvpi_decide refuses the list; as UTVPI_BAD_VARIABLE
 * at place 0, where x is not below n, and at place 1, where y is not; as
 * UTVPI_SHORT_WORK_AREA. */
utvpi_pair utvpi_implied_pair(uint64_t n, const int32_t *list, size_t list_len,
                              uint64_t x, uint64_t y, int64_t *work, size_t work_len);

/* Does every way to meet the list meet this line, too? 0 for a yes. For a no the model is
 * written, as utvpi_decide would write it for the list with the opposite line behind it,
 * -a*x - b*y <= -d - 1, which may have one line more than UTVPI_MOST_LINES, and a bound
 * one beyond: it meets the list and breaks the line, and no value is further than
 * n * (UTVPI_MOST_BOUND + 1) from 0. The room of the model is UTVPI_MODEL_ROOM(n).
 * UTVPI_UNSOLVABLE where the list can't be met. Only a no writes the model.
 *
 * It is refused, in this order: as utvpi_decide refuses the list; by the rules of a line,
 * with the number of lines in the list as the place; as UTVPI_SHORT_OUTPUT, place
 * UTVPI_OUTPUT_MODEL; as UTVPI_SHORT_WORK_AREA. */
int64_t utvpi_implied_line(uint64_t n, const int32_t *list, size_t list_len, utvpi_line line,
                           int32_t *model, size_t model_len, int64_t *work, size_t work_len);

/* The same two questions to a session, about all lines that it has, the one that made a no
 * among them. They read the state and write nothing: the session goes on as if it had not
 * been asked, and nothing but the state is lent. Each takes a few looks into the table of
 * the state. The numbers of its lines are not looked at, so that numbers are no state only
 * where there are fewer than the room, or one of the first three is out of its range. */

/* How large can the sum and the difference of the variables x and y be? What is returned is
 * as utvpi_implied_pair has it for the list of all lines so far.
 *
 * It is refused, in this order: as UTVPI_SHORT_OUTPUT, place UTVPI_OUTPUT_STATE, where the
 * numbers are no state; as UTVPI_BAD_VARIABLE at place 0, where x is not below n, and at
 * place 1, where y is not. */
utvpi_pair utvpi_session_pair(const int64_t *state, size_t state_len, uint64_t x, uint64_t y);

/* Does every way to meet the lines of the session meet this line, too? The result is as
 * utvpi_implied_line has it for the list of all lines so far: 0 for a yes, UTVPI_NO for a
 * no, UTVPI_UNSOLVABLE where the last answer was a no. No model is written. Adding the
 * opposite line, -a*x - b*y <= -d - 1, gives one that breaks the line, where its bound is
 * within the limits; and it can be withdrawn.
 *
 * It is refused, in this order: as UTVPI_SHORT_OUTPUT, place UTVPI_OUTPUT_STATE, where the
 * numbers are no state; by the rules of a line, with the number of lines in the session as
 * the place. A session with UTVPI_MOST_LINES lines can be asked, too. */
int64_t utvpi_session_implied(const int64_t *state, size_t state_len, utvpi_line line);

/* A LINE IS SHOWN, a*x + b*y <= d, by a refutation of the list against the line: the list,
 * and as line number UTVPI_MOST_LINES, whatever the list's own length is, the opposite
 * line, -a*x - b*y <= -d - 1. No way to meet the list meets that line exactly if each
 * meets the shown one. The opposite line's steps have the numbers 2*UTVPI_MOST_LINES and
 * the next; no other number beyond the list names a step. So a showing is one for every
 * longer list, too.
 *
 * The line may say what follows from many lines: its bound d may be as large as
 * UTVPI_MOST_SHOWN_BOUND(n). So whatever is learned of a list is shown, and by one call:
 * a greatest value b of x as x <= b, a least one as -x <= -b, that x = y as x - y <= 0 and
 * -x + y <= 0, that x = -y as x + y <= 0 and -x - y <= 0, and each of the four numbers of
 * utvpi_implied_pair as its sum. With d one less no such line is shown. */

/* Does every way to meet the list meet this line, too? 0 for a yes: then the showing is
 * written, and the identifiers of its steps, as utvpi_decide writes a refutation, for the
 * list against the line; with at most 4*n steps, or with one of kind 3. The identifier of
 * a step of the opposite line is the line's own. A list that can't be met shows every
 * line. UTVPI_NO where some way to meet the list breaks the line: then both are left as
 * they were.
 *
 * Lengths are in numbers. The pointers are as for utvpi_decide, and so are the rooms,
 * UTVPI_REFUTATION_ROOM(n), UTVPI_IDENTIFIERS_ROOM(n) and UTVPI_WORK_ROOM(n); the work
 * area is 0 after a yes and after a no. On a refusal every buffer is left as it was.
 *
 * It is refused, in this order: as utvpi_decide refuses the list; by the rules of a line,
 * with the number of lines in the list as the place, and UTVPI_MOST_SHOWN_BOUND(n) for
 * its bound; as UTVPI_SHORT_OUTPUT, place UTVPI_OUTPUT_REFUTATION and then
 * UTVPI_OUTPUT_IDENTIFIERS; as UTVPI_SHORT_WORK_AREA. */
int64_t utvpi_show_line(uint64_t n, const int32_t *list, size_t list_len, utvpi_line line,
                        uint32_t *refutation, size_t refutation_len,
                        uint32_t *identifiers, size_t identifiers_len,
                        int64_t *work, size_t work_len);

/* Do these numbers show that every way to meet the list meets the line? It only reads, as
 * the two checks do: lengths are in bytes, at any alignment. The line has UTVPI_LINE_BYTES
 * bytes. Of a no, k is the index of the number where the showing breaks, as of
 * utvpi_check_refutation for the list against the line.
 *
 * It is refused, in this order: as the checks refuse the list; as
 * UTVPI_BROKEN_LIST_LENGTH, where the line has other than UTVPI_LINE_BYTES bytes, and by
 * the rules of a line, both with the number of lines in the list as the place, and
 * UTVPI_MOST_SHOWN_BOUND(n) for its bound; as UTVPI_LONG_REFUTATION. */
int64_t utvpi_check_shown(uint64_t n, const uint8_t *list, size_t list_len,
                          const uint8_t *line, size_t line_len,
                          const uint8_t *showing, size_t showing_len);

/* ALTERNATIVES. A tree says which lines of a list are to be met: all of some, and any of
 * others. It is a row of unsigned 32-bit numbers, two for each node, in reading order: a
 * node, then its children from the first, each with all that is below it.
 *
 *     UTVPI_ALL_OF, a count       so many children, of which all are to hold: lines and
 *                                 any-of nodes
 *     UTVPI_ANY_OF, a count       so many children, of which one is to hold: lines and
 *                                 all-of nodes
 *     UTVPI_LEAF, a line number   this line of the list
 *
 * The first node is the root, an all-of at depth 1; each child is one deeper, lines too,
 * and no node is deeper than UTVPI_MOST_DEPTH. A count may be 0: an all-of without
 * children holds, and an any-of without any does not. For "line 0, and line 1 or both
 * line 2 and line 3" the numbers are
 *
 *     1 2   3 0   2 2   3 1   1 2   3 2   3 3
 *
 * A CHOICE takes one child of each any-of that it comes to, and picks the lines that it
 * comes to so. A line has one choice, an any-of has as many as its children together, and
 * an all-of the product of its children's. No node has more than UTVPI_MOST_CHOICES. The
 * choices of the root are numbered from 0: in an any-of those of earlier children come
 * first, and in an all-of the last child changes fastest. In the example choice 0 picks
 * the lines 0 and 1, and choice 1 the lines 0, 2 and 3.
 *
 * A line that is picked twice counts once. The lines that a choice picks keep their order
 * and their numbers: its refutation takes steps of these lines alone, and
 * utvpi_check_refutation accepts it against the whole list. */
#define UTVPI_ALL_OF 1
#define UTVPI_ANY_OF 2
#define UTVPI_LEAF 3

/* The greatest depth of a node, and the most choices of one. */
#define UTVPI_MOST_DEPTH 8
#define UTVPI_MOST_CHOICES 256

/* What both calls return. The result is 0 for a yes, UTVPI_NO for a no, and -1 where there
 * is no answer: then refusal is one of the numbers below, and place what the table says,
 * for 40 to 42 an index into the tree, which may be large. Else these two are 0. choice is
 * the number of the choice that was found or asked for; it is 0 on a refusal, and where
 * none was found. UTVPI_IS_YES, UTVPI_IS_NO and UTVPI_IS_REFUSAL take the result; a
 * refusal's number and place are not part of it. */
typedef struct utvpi_choice {
    int64_t result;
    uint64_t refusal, place, choice;
} utvpi_choice;

/* Is there a choice of this tree whose lines can be met? On a yes, choice is the number of
 * the first such choice, and the model is written, as utvpi_decide would write it for the
 * lines that the choice picks. On a no none can be met, and the model is left as it was.
 *
 * Lengths are in numbers. The list and the tree are only read; the pointers are as for
 * utvpi_decide, and so are the rooms of the model and of the work area, which is all zeros
 * after a yes and after a no. Each choice is decided until one can be met, so that a call
 * may take UTVPI_MOST_CHOICES times as long as deciding.
 *
 * It is refused, in this order: as utvpi_decide refuses the list; as UTVPI_BROKEN_TREE or
 * UTVPI_TREE_TOO_DEEP, at the lowest index at fault, of both at the same one as
 * UTVPI_TREE_TOO_DEEP; as UTVPI_TOO_MANY_CHOICES; as UTVPI_SHORT_OUTPUT, place
 * UTVPI_OUTPUT_MODEL; as UTVPI_SHORT_WORK_AREA. A refusal leaves both buffers as they
 * were. */
utvpi_choice utvpi_tree_first(uint64_t n, const int32_t *list, size_t list_len,
                              const uint32_t *tree, size_t tree_len,
                              int32_t *model, size_t model_len, int64_t *work, size_t work_len);

/* Can the lines of this choice be met? The answer, and what is left in the six buffers, is
 * as utvpi_decide has it for the lines that the choice picks, with the numbers that they
 * have in the whole list.
 *
 * It is refused, in this order: as by utvpi_tree_first up to UTVPI_TOO_MANY_CHOICES; as
 * UTVPI_NO_SUCH_CHOICE; as UTVPI_SHORT_OUTPUT and as UTVPI_SHORT_WORK_AREA, as by
 * utvpi_decide. So a caller who asks for 0, 1 and on until UTVPI_NO_SUCH_CHOICE has seen
 * all choices. */
utvpi_choice utvpi_tree_decide(uint64_t n, const int32_t *list, size_t list_len,
                               const uint32_t *tree, size_t tree_len, uint64_t choice,
                               int32_t *model, size_t model_len,
                               int64_t *bounds, size_t bounds_len,
                               uint32_t *groups, size_t groups_len,
                               uint32_t *refutation, size_t refutation_len,
                               uint32_t *identifiers, size_t identifiers_len,
                               int64_t *work, size_t work_len);

/* A MODEL IN SECONDS. A model counts ticks, of one clock or of several. A count is an
 * int64_t, and may be larger than a value of a model, which is an int32_t. Each count is
 * written as seconds, a double: the count made a double, which is exact, as no count is
 * beyond UTVPI_MOST_COUNT, and then one multiplication or one division by the rule of
 * IEEE 754, as the clock's form says:
 *
 *     UTVPI_SECONDS_PER_TICK    count * rate    rate is how many seconds a tick lasts
 *     UTVPI_TICKS_PER_SECOND    count / rate    rate is how many ticks a second has
 *
 * So each value is the exact one, rounded once, to the nearest double, of two to the even
 * one. Choose the form whose rate a double holds exactly: it does so with 100000 ticks per
 * second, and not with 0.00001 seconds per tick. Of one clock, a smaller count never has more seconds than a
 * larger one: no effect is written before its cause. Too large a product or quotient is
 * written as an infinity, which is an answer; 0 ticks are 0.0.
 *
 * The seconds are written to the front of the buffer, one for each count; what lies beyond
 * them is left as it was. The buffer may overlap nothing else that is handed over. Where
 * refusal is 0 they were written, and place is 0; a refusal leaves the buffer as it was,
 * and gives one of UTVPI_BAD_CLOCK to UTVPI_BAD_TABLE. Lengths are in numbers. */
#define UTVPI_SECONDS_PER_TICK 0
#define UTVPI_TICKS_PER_SECOND 1

/* The greatest count, 2 to the power of 53; the least is its opposite. */
#define UTVPI_MOST_COUNT 9007199254740992

/* The most recorders of a table. */
#define UTVPI_MOST_RECORDERS 16

typedef struct utvpi_seconds {
    uint64_t refusal, place;
} utvpi_seconds;

/* Writes counts of one clock in seconds. It is refused, in this order: as UTVPI_BAD_CLOCK,
 * place 0; as UTVPI_BAD_COUNT, at the lowest index of such a count; as
 * UTVPI_SHORT_SECONDS. */
utvpi_seconds utvpi_model_seconds(uint32_t form, double rate,
                                  const int64_t *counts, size_t counts_len,
                                  double *seconds, size_t seconds_len);

/* Writes the counts of events in seconds, each by the clock of its recorder: recorder r has
 * the form forms[r] and the rate rates[r], and the event with counts[i] is one of recorder
 * recorders[i]. It is refused, in this order: as UTVPI_BAD_TABLE; as UTVPI_BAD_CLOCK, at
 * the lowest such recorder, whether an event names it or not; as UTVPI_BAD_RECORDER, at
 * the lowest event that names none; as UTVPI_BAD_COUNT, at the lowest index; as
 * UTVPI_SHORT_SECONDS. */
utvpi_seconds utvpi_events_seconds(const uint32_t *forms, size_t forms_len,
                                   const double *rates, size_t rates_len,
                                   const uint32_t *recorders, size_t recorders_len,
                                   const int64_t *counts, size_t counts_len,
                                   double *seconds, size_t seconds_len);

/* A FILE for a list is records, each a two-byte length of its body, a two-byte
 * kind and the body, all with the lowest byte first: one of kind 1 and length
 * UTVPI_VARIABLES_BYTES, which is n; then the lines, in order; then one of kind 3 and
 * length 0; then nothing. A line whose identifier is not 0 is of kind 4 and length
 * UTVPI_LINE_BYTES, its signed 32-bit numbers; one whose identifier is 0 is of kind 2
 * and length UTVPI_BARE_LINE_BYTES, the numbers but the identifier. Each valid list
 * has exactly one file. */

/* The kinds. */
#define UTVPI_KIND_VARIABLES 1
#define UTVPI_KIND_LINE 2
#define UTVPI_KIND_END 3
#define UTVPI_KIND_IDENTIFIED_LINE 4

/* The bytes of a record before its body, of the body that is n, and of that of a line
 * whose identifier is 0; the bytes before the first line's record, and the most of a
 * line's record. */
#define UTVPI_RECORD_HEAD 4
#define UTVPI_VARIABLES_BYTES 4
#define UTVPI_BARE_LINE_BYTES ((size_t)4 * (UTVPI_LINE_NUMBERS - 1))
#define UTVPI_BEFORE_LINES ((size_t)UTVPI_RECORD_HEAD + UTVPI_VARIABLES_BYTES)
#define UTVPI_LINE_RECORD ((size_t)UTVPI_RECORD_HEAD + UTVPI_LINE_BYTES)

/* The most bytes of the file of a list with so many lines: so many it has where no
 * identifier is 0. */
#define UTVPI_FILE_SIZE(lines) \
    (UTVPI_BEFORE_LINES + UTVPI_LINE_RECORD * (size_t)(lines) + UTVPI_RECORD_HEAD)

/* Reading writes the list's numbers to the front of the buffer: UTVPI_LINE_NUMBERS
 * for each line. On a refusal the buffer is left as it was; else what lies beyond
 * the lines is. On a refusal n and lines are 0, else refusal and place are.
 * Besides the refusals of a list, with their places, which come last, it gives those
 * from UTVPI_RECORD_CUT to UTVPI_RECORD_NO_IDENTIFIER: see enum utvpi_refusal.
 *
 * Where refusal is 0, the list was read. */
typedef struct utvpi_file_read {
    uint64_t refusal, place, n, lines;
} utvpi_file_read;

utvpi_file_read utvpi_read_list(const uint8_t *bytes, size_t bytes_len,
                                int32_t *numbers, size_t numbers_len);

/* Writing writes the file to the front of the buffer. It refuses what the list's
 * own refusals refuse, then gives UTVPI_NO_ROOM where the buffer is shorter than the
 * file; a refusal leaves the buffer as it was, and bytes is 0. Where refusal is 0,
 * the file was written and has so many bytes; what lies beyond it is left as it
 * was. */
typedef struct utvpi_file_written {
    uint64_t refusal, place, bytes;
} utvpi_file_written;

utvpi_file_written utvpi_write_list(uint64_t n, const int32_t *list, size_t list_len,
                                    uint8_t *out, size_t out_len);

/* A no, as a result: a line's or a place's number is added. That a list can't be met,
 * where it is asked what it implies: every no is below it. And what a refusal's number
 * counts: every place in a result is below it. */
#define UTVPI_NO 1000000
#define UTVPI_UNSOLVABLE 2000000
#define UTVPI_REFUSAL_UNIT 100000

/* What a result says, and its parts. Each takes a result as its argument. */
#define UTVPI_IS_YES(result) ((result) == 0)
#define UTVPI_IS_NO(result) ((result) / UTVPI_NO == 1)
#define UTVPI_IS_UNSOLVABLE(result) ((result) == UTVPI_UNSOLVABLE)
#define UTVPI_IS_REFUSAL(result) ((result) < 0)

/* Of a no on a model: the first line that it does not meet. Of a no on a
 * refutation: the index of the number where it breaks. Of any other no, both are 0 and
 * say nothing. */
#define UTVPI_NO_LINE(result) ((int)((result) - UTVPI_NO))
#define UTVPI_NO_PLACE(result) ((int)((result) - UTVPI_NO))

/* Of a refusal: its number, and its place. */
#define UTVPI_REFUSAL_NUMBER(result) ((int)(-(result) / UTVPI_REFUSAL_UNIT))
#define UTVPI_REFUSAL_PLACE(result) ((int)(-(result) % UTVPI_REFUSAL_UNIT))

/* The refusals. Where several apply, the one given is the first of: 1, 2, 3; then line
 * by line from the first, in each line 4, 5, 12, 6, 13; then 7 and 8 for deciding, 60, 7
 * and 8 for deciding differences, 9 and 10 for a model, 11 for a refutation; 5 for x, 5
 * for y and 8 for what two variables imply; 4, 5, 12, 6, 13 of the line, 7 and 8 for a
 * line that may be implied or is to be shown; 2 and then 4, 5, 12, 6, 13 of the line, and
 * 11, for a showing. Starting a session gives 1, then 7; adding a line 7 for the state,
 * 30, 3, then for the new line 4, 5, 12, 6, 13, then 7 for the other buffers and 8;
 * withdrawing one 7, then 31; asking a session 7 for the state, then 5 for x and 5 for y,
 * or 4, 5, 12, 6, 13 of the line. The place of a line that is handed over alone is the
 * number of lines in the list, or in the session. A tree gives those of the list, then
 * 41 or 42 at the lowest index, at the same one 42, then 40, then 43 where a choice is
 * asked for by its number, then 7 and 8. Seconds of one clock give 50, 51, 52; of a
 * table of recorders 54, 50, 53, 51, 52.
 */
enum utvpi_refusal {
    /* n is above UTVPI_MOST_VARIABLES: use fewer variables. */
    UTVPI_TOO_MANY_VARIABLES = 1,

    /* The list's numbers are no multiple of UTVPI_LINE_NUMBERS, or its bytes no
     * multiple of UTVPI_LINE_BYTES: look for a cut or added part, or for numbers that
     * are not four bytes each. It catches a length in lines where one in numbers is asked
     * for, unless the lines are a multiple of UTVPI_LINE_NUMBERS. It can't catch a length
     * in bytes where one in numbers is asked for: that is a multiple, too, and the call
     * reads beyond the list. In bytes hand over UTVPI_LINE_BYTES times the lines, in
     * numbers UTVPI_LINE_NUMBERS times. Of the line of utvpi_check_shown, which has to
     * have UTVPI_LINE_BYTES bytes, the place is the number of lines in the list. */
    UTVPI_BROKEN_LIST_LENGTH = 2,

    /* The list has more than UTVPI_MOST_LINES lines: leave out lines that add
     * nothing. */
    UTVPI_TOO_MANY_LINES = 3,

    /* A coefficient of the line at this place is not -1, 0 or 1: correct it, or
     * write the line in another way. */
    UTVPI_BAD_COEFFICIENT = 4,

    /* The line at this place names a variable below 0 or not below n, or has a
     * variable number other than 0 beside the coefficient 0: correct it. Or, where it is
     * asked what two variables imply and no line is at fault, x (place 0) or y (place 1)
     * is not below n: correct that. */
    UTVPI_BAD_VARIABLE = 5,

    /* The bound d of the line at this place is below -UTVPI_MOST_BOUND or above
     * UTVPI_MOST_BOUND, 1,000,000: choose a coarser unit, or an origin nearer to the
     * values. Of a line that is shown, beyond UTVPI_MOST_SHOWN_BOUND(n): a list that
     * can be met implies a line with the greatest such bound or none, so ask for that. */
    UTVPI_BAD_BOUND = 6,

    /* A buffer for output is too short: lend a longer one. The place is the
     * first that is short, one of enum utvpi_output. Or the numbers lent as the state of
     * a session are none: hand over a state that one of the calls left. Only deciding,
     * sessions, a line that may be implied, one that is to be shown and trees give
     * this. */
    UTVPI_SHORT_OUTPUT = 7,

    /* The work area is too short: lend one of UTVPI_WORK_ROOM(n) numbers, or, to decide
     * differences, of UTVPI_DIFFERENCES_WORK_ROOM(n). Only deciding gives this, adding a
     * line to a session, what a list implies, showing a line, and trees. */
    UTVPI_SHORT_WORK_AREA = 8,

    /* The model is not exactly 8*n bytes: give one value for each variable. */
    UTVPI_BAD_MODEL_LENGTH = 9,

    /* The model's value at this place, the first such, is below -UTVPI_MOST_VALUE or
     * above UTVPI_MOST_VALUE, 1,000,000,000,000: choose a nearer one. */
    UTVPI_BAD_MODEL_VALUE = 10,

    /* The refutation has more than UTVPI_MOST_REFUTATION numbers, of four bytes
     * each: look for a shorter one. A list that no whole numbers meet always has
     * one of at most 4*n + 4 numbers. */
    UTVPI_LONG_REFUTATION = 11,

    /* The first coefficient of the line at this place is 0 and the second is not:
     * write the second term, with its variable, in the first place, and 0 and 0 in
     * the second. */
    UTVPI_MISPLACED_COEFFICIENT = 12,

    /* The identifier of the line at this place is below 0 or above
     * UTVPI_MOST_IDENTIFIER: give the message's own, which has at most 29 bits, or 0
     * where there is none. */
    UTVPI_BAD_IDENTIFIER = 13,

    /* The file ends before this record does, or before the record of kind 3 that
     * ends a list: look for a missing end. Of this and those up to 26 the place is a
     * byte offset, that of the record. Only reading a file gives them. */
    UTVPI_RECORD_CUT = 20,

    /* The record's kind is not 1, 2, 3 or 4: look for a damaged part. */
    UTVPI_RECORD_UNKNOWN = 21,

    /* The record's length is not that of its kind: look for a damaged part. */
    UTVPI_RECORD_LENGTH = 22,

    /* The record is out of place, as kind 1 stands first and only there: look for
     * records left out or added. */
    UTVPI_RECORD_MISPLACED = 23,

    /* Bytes follow the record of kind 3; the place is that of the first of them:
     * cut the file off there. */
    UTVPI_RECORD_AFTER_END = 24,

    /* The buffer has no room: lend a longer one. Of reading, for the line whose
     * record begins at this byte offset; of writing, for the file, and the place
     * is 0. Only these two give it. */
    UTVPI_NO_ROOM = 25,

    /* The record is a line of kind 4, and its identifier is 0: write it as kind 2,
     * without the identifier. It goes after 23 and before 25. */
    UTVPI_RECORD_NO_IDENTIFIER = 26,

    /* The last line that was added to the session made a no: withdraw it, and add this
     * one then. The place is 0. Only adding a line to a session gives this. */
    UTVPI_AFTER_NO = 30,

    /* The session has no line to withdraw: there is nothing to do. The place is 0. Only
     * withdrawing gives this. */
    UTVPI_NO_LINES = 31,

    /* The node at this place, the lowest such index into the tree, has more than
     * UTVPI_MOST_CHOICES choices: leave out alternatives, or decide parts of the tree one
     * by one. Only trees give this and those up to 43. */
    UTVPI_TOO_MANY_CHOICES = 40,

    /* The numbers are no tree. At this place, an index, which may be the length, they end
     * before the tree does; or a node is of no kind, of one that can't stand there (the
     * first is no all-of, an all-of in an all-of, an any-of in an any-of), or a line that
     * is not in the list, where the place is that of the line's number; or numbers follow
     * the tree: correct what stands there, or a count before it. */
    UTVPI_BROKEN_TREE = 41,

    /* The node at this place, an index, is deeper than UTVPI_MOST_DEPTH: write the tree
     * with fewer levels. */
    UTVPI_TREE_TOO_DEEP = 42,

    /* The tree has no choice with this number: ask for one from 0 to one below the number
     * of its choices, of which there may be none. The place is 0. */
    UTVPI_NO_SUCH_CHOICE = 43,

    /* The clock's form is not UTVPI_SECONDS_PER_TICK or UTVPI_TICKS_PER_SECOND, or its
     * rate is not a finite number above 0: correct it. The place is the recorder, or 0
     * where there is one clock. Only seconds give this and those up to 54. */
    UTVPI_BAD_CLOCK = 50,

    /* The count at this place, the first such, is below -UTVPI_MOST_COUNT or above
     * UTVPI_MOST_COUNT, so that a double need not hold it: choose an origin nearer to the
     * values. */
    UTVPI_BAD_COUNT = 51,

    /* The buffer for the seconds is shorter than the counts are many: lend a longer one.
     * The place is 0. */
    UTVPI_SHORT_SECONDS = 52,

    /* The event at this place, the first such, names a recorder that the table has not:
     * correct it, or add the recorder. */
    UTVPI_BAD_RECORDER = 53,

    /* The table has more than UTVPI_MOST_RECORDERS recorders, not a rate for each form, or
     * not a recorder for each count: correct the lengths, or write the events in parts,
     * each with the recorders that it needs. The place is 0. */
    UTVPI_BAD_TABLE = 54,

    /* The line at this place, the first such, is no difference: its coefficients are not
     * one 1 and one -1. Leave it out, or hand the list to utvpi_decide, which takes all
     * lines. Only utvpi_decide_differences gives this. */
    UTVPI_NOT_DIFFERENCE = 60
};

/* The places of UTVPI_SHORT_OUTPUT. */
enum utvpi_output {
    UTVPI_OUTPUT_MODEL = 1,
    UTVPI_OUTPUT_BOUNDS = 2,
    UTVPI_OUTPUT_GROUPS = 3,
    UTVPI_OUTPUT_REFUTATION = 4,
    UTVPI_OUTPUT_IDENTIFIERS = 5,
    UTVPI_OUTPUT_STATE = 6
};

/* A refusal in words, with the number of enum utvpi_refusal, in English: what is wrong, a
 * colon, and what to do about it, without a capital and without a full stop. Of a number
 * that is none, 0 too, it says so. The text is a constant: it lasts, and is not to be
 * freed. It is not part of what is proved. */
const char *utvpi_refusal_text(int number);

#ifdef __cplusplus
}
#endif

#endif
