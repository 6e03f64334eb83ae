/* Shows a tree of height 3 at a step, for those who learn the rules: the path to the step's leaf, its witnesses, what a table at that
 * step still holds, and the climb to the root.
 *     show_tree [STEP]           on the terminal; STEP is 0 to 7, and 5 where it is left out
 *     show_tree --svg [STEP]     the same as a picture
 * Ends with 0 if the climb ends at the root, with 1 if not, and with 2 if it was not asked rightly. */
#define _POSIX_C_SOURCE 1
#include <string.h>
#include <unistd.h>

#include "lesson/lesson.h"

/* A step, or LEAVES for a word that is none. */
static unsigned step_of(const char *word)
{
    return strlen(word) == 1 && word[0] >= '0' && word[0] < '0' + LEAVES ? (unsigned)(word[0] - '0') : LEAVES;
}

int main(int argc, char **argv)
{
    static struct lesson lesson;
    int svg = argc > 1 && strcmp(argv[1], "--svg") == 0;
    unsigned step = argc - svg == 1 ? 5 : argc - svg == 2 ? step_of(argv[1 + svg]) : LEAVES;
    if (step == LEAVES) {
        fprintf(stderr, "usage: show_tree [--svg] [STEP], a step from 0 to %d\n", LEAVES - 1);
        return 2;
    }
    if (!lesson_learn(&lesson, step)) {
        fprintf(stderr, "show_tree: the climb does not end at the root\n");
        return 1;
    }
    if (svg)
        show_svg(&lesson, stdout);
    else
        show_text(&lesson, stdout, isatty(STDOUT_FILENO));
    return fflush(stdout) != 0;
}
