/* Pictures of answers as SVG: what the timeline of a yes and the ring of a no share, and
 * the file that they go to. A picture needs nothing but itself: no font that is not there
 * has to be, no script, no other file. */
#include "list.h"

#include <errno.h>
#include <string.h>

/* Writes a text, as XML has it. What is no printable character is a question mark. */
void svg_escaped(FILE *to, struct text text)
{
    while (text.length > 0) {
        size_t length = character_length(text);
        char c = text.at[0];
        if (length == 0) {
            fputc(c == '\t' ? ' ' : '?', to);
        } else if (c == '&' || c == '<' || c == '>' || c == '"') {
            fputs(c == '&' ? "&amp;" : c == '<' ? "&lt;" : c == '>' ? "&gt;" : "&quot;", to);
        } else {
            fwrite(text.at, 1, length, to);
        }
        text.at += length > 0 ? length : 1;
        text.length -= length > 0 ? length : 1;
    }
}

/* How wide a text is, about: all letters of the font are of one width. */
double svg_width(struct text text)
{
    return SVG_LETTER * (double)text.length;
}

/* Begins a picture of this size. */
void svg_begin(FILE *to, double width, double height, const char *title)
{
    fprintf(to,
            "<svg xmlns=\"http://www.w3.org/2000/svg\" width=\"%.0f\" height=\"%.0f\""
            " viewBox=\"0 0 %.0f %.0f\" role=\"img\">\n<title>%s</title>\n",
            width, height, width, height, title);
    fputs("<style>\n"
          "text { font: 12px 'DejaVu Sans Mono', Menlo, Consolas, monospace; fill: #1b2733; }\n"
          ".head { font-weight: bold; font-size: 14px; }\n"
          ".small { fill: #5b6b7a; }\n"
          ".false { font-weight: bold; font-size: 22px; fill: #a3261b; }\n"
          ".grid { stroke: #dde4ea; }\n"
          ".band { fill: #f4f7f9; }\n"
          ".group { fill: none; stroke: #7d5ba6; stroke-width: 2; }\n"
          ".bar { fill: #a9cbe8; stroke: #4c7fab; }\n"
          ".arrow { fill: #4c7fab; }\n"
          ".beyond { fill: #ffffff; stroke: #4c7fab; }\n"
          ".mark { fill: #123456; stroke: #ffffff; }\n"
          ".ring { fill: none; stroke: #a3261b; stroke-width: 2; }\n"
          ".tip { fill: #a3261b; }\n"
          ".stop { fill: #ffffff; stroke: #1b2733; stroke-width: 1.5; }\n"
          "</style>\n",
          to);
    fprintf(to, "<rect width=\"%.0f\" height=\"%.0f\" fill=\"#ffffff\"/>\n", width, height);
}

/* Writes a text at a place, of a class, and where of it that place is: start, middle or
 * end. */
void svg_text(FILE *to, double x, double y, const char *kind, const char *anchor,
              struct text text)
{
    fprintf(to, "<text x=\"%.1f\" y=\"%.1f\" class=\"%s\" text-anchor=\"%s\">", x, y, kind, anchor);
    svg_escaped(to, text);
    fputs("</text>\n", to);
}

void svg_end(FILE *to)
{
    fputs("</svg>\n", to);
}

/* Draws the last answer, a yes, or a no with its argument. */
static void draw(FILE *to, const struct list *list, int status, const struct argument *argument)
{
    if (status == STATUS_YES) {
        draw_timeline(to, list, last_yes());
    } else {
        draw_ring(to, list, argument);
    }
}

/* Says that a picture could not be written, and why. */
static int not_drawn(const char *picture, int why)
{
    wrong_in(picture, nowhere, nowhere.rule, strerror(why), "choose another place for the picture");
    return STATUS_BAD;
}

/* Decides the list, and draws the answer to a file, which may be there before, or to
 * standard output. Gives back a status. */
int answer_drawn(struct list *list, const char *picture)
{
    static struct argument argument;
    int status = answer(list, UNPRINTED);
    if (status != STATUS_YES && status != STATUS_NO) {
        return status;
    }
    if (status == STATUS_NO && !take_argument(list, last_refutation(), &argument)) {
        return disagree_on_argument();
    }
    if (is_standard_input(picture)) {
        draw(stdout, list, status, &argument);
        return status;
    }
    FILE *to = fopen(picture, "wb");
    if (to == NULL) {
        return not_drawn(picture, errno);
    }
    draw(to, list, status, &argument);
    bool out = fflush(to) == 0 && !ferror(to);
    int why = errno;
    if (fclose(to) != 0 || !out) {
        return not_drawn(picture, out ? errno : why);
    }
    return status;
}
