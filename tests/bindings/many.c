/* SPDX-License-Identifier: MIT OR Apache-2.0 */
/* The examples in C, many runs in one process, so that a memory checker is started once: it follows a process into its children.
 *
 *     many    each line of standard input is a run, OUTPUT WORD ARGUMENT..: the example named WORD in a child, its standard output in the file OUTPUT, its
 *             standard error in OUTPUT.said; printed is OUTPUT and the child's exit code, 255 where a signal ended it
 *
 * Each example is compiled with its main named after it. */
#define _POSIX_C_SOURCE 200809L
#include <fcntl.h>
#include <stdio.h>
#include <stdlib.h>
#include <string.h>
#include <sys/wait.h>
#include <unistd.h>

enum { MOST = 16, SIGNALLED = 255 };

int resolve_main(int, char **), member_main(int, char **), betti_main(int, char **), minimal_main(int, char **), bidegrees_main(int, char **),
    hilbert_main(int, char **), complete_main(int, char **);

static const struct {
    const char *word;
    int (*run)(int, char **);
} examples[] = {
    {"resolve", resolve_main}, {"member", member_main}, {"betti", betti_main}, {"minimal", minimal_main}, {"bidegrees", bidegrees_main},
    {"hilbert", hilbert_main}, {"complete", complete_main},
};

static void wrong(const char *what)
{
    fprintf(stderr, "many: %s\n", what);
    exit(99);
}

static void into(int descriptor, const char *path, const char *behind)
{
    char name[4096];
    int file;
    snprintf(name, sizeof name, "%s%s", path, behind);
    file = open(name, O_WRONLY | O_CREAT | O_TRUNC, 0666);
    if (file < 0 || dup2(file, descriptor) < 0)
        wrong(name);
    close(file);
}

int main(void)
{
    /* all before the first child: a child that ends would set back what is read of a file that it shares */
    static char lines[65536];
    char *rest = lines;
    if (fread(lines, 1, sizeof lines - 1, stdin) == sizeof lines - 1)
        wrong("too many lines");
    while (*rest) {
        char *word[MOST + 1], *line = rest;
        int words = 0, status;
        pid_t child;
        rest += strcspn(rest, "\n");
        if (*rest)
            *rest++ = '\0';
        for (char *next = strtok(line, " "); next; next = strtok(NULL, " ")) {
            if (words == MOST)
                wrong("a line with too many words");
            word[words++] = next;
        }
        word[words] = NULL;
        if (words < 2)
            wrong("a line with too few words");
        child = fork();
        if (child < 0)
            wrong("no child");
        if (child == 0) {
            into(STDOUT_FILENO, word[0], "");
            into(STDERR_FILENO, word[0], ".said");
            for (size_t i = 0; i < sizeof examples / sizeof *examples; i++)
                if (strcmp(examples[i].word, word[1]) == 0)
                    exit(examples[i].run(words - 1, word + 1));
            wrong("no such example");
        }
        if (waitpid(child, &status, 0) != child)
            wrong("no status");
        printf("%s %d\n", word[0], WIFEXITED(status) ? WEXITSTATUS(status) : SIGNALLED);
        fflush(stdout);
    }
    return 0;
}
