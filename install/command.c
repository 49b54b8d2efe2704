/* SPDX-License-Identifier: MIT OR Apache-2.0
 *
 * The installed command, for a plain answer: tagetessash WORD [FILE], where the word has a program. It gives the program the bytes of the file, keeps what it
 * prints, and writes that out where it is whole. Everything else the script `command` beside the programs does or says: other words, a file that is not there,
 * a refusal, a program that fails. It gets the bytes that were read and printed as descriptors 3 and 4. So there is one text of every message, and a plain
 * answer takes no shell, no temporary file and no more than one process beside the program's.
 *
 * words.h, which the Makefile takes from the script, has for each word how the last line of an answer begins and the program. LIBEXEC is the folder of script
 * and programs as seen from the folder of this file, so that an installation may be moved; LIBEXECDIR where it was meant to stand. */
#define _GNU_SOURCE
#include <errno.h>
#include <fcntl.h>
#include <limits.h>
#include <signal.h>
#include <stdio.h>
#include <stdlib.h>
#include <string.h>
#include <sys/mman.h>
#include <sys/stat.h>
#include <sys/wait.h>
#include <unistd.h>

/* A program reads 294,927 bytes at the most. */
#define MOST_BYTES ((size_t)1 << 20)
#ifndef PATIENCE_SECONDS
#define PATIENCE_SECONDS 5
#endif
/* as a shell has it, of a process that this signal ended */
#define ENDED_BY 128
#define NO_MEMBER 6
/* descriptors that the script gets, and one above all that it uses */
#define INPUT_AT 3
#define OUTPUT_AT 4
#define FREE_FROM 10

struct word {
    const char *name, *last, *program;
};
static const struct word words[] = {
#include "words.h"
};

static char folder[PATH_MAX];
static volatile pid_t child;
static volatile sig_atomic_t impatient;

/* where script and programs are */
static void find_folder(void)
{
    char here[PATH_MAX];
    ssize_t length = readlink("/proc/self/exe", here, sizeof here - 1);
    if (length > 0) {
        here[length] = 0;
        /* for the script, where it calls the command in turn */
        setenv("TAGETESSASH_SELF", here, 1);
        *strrchr(here, '/') = 0;
        if (snprintf(folder, sizeof folder, "%s/%s", here, LIBEXEC) < (int)sizeof folder && access(folder, X_OK) == 0)
            return;
    }
    snprintf(folder, sizeof folder, "%s", LIBEXECDIR);
}

/* Goes on as the script; as if called with these words. */
static void script(char *const arguments[])
{
    char path[PATH_MAX + 16];
    snprintf(path, sizeof path, "%s/command", folder);
    execv(path, arguments);
    fprintf(stderr, "tagetessash: %s can not be started: %s\n", path, strerror(errno));
    _exit(2);
}

/* A file of its own without a name, above the descriptors that anybody uses; what is there of it is written or read from its start. */
static int unnamed(void)
{
    int made = memfd_create("tagetessash", 0), high;
    if (made < 0)
        return -1;
    high = fcntl(made, F_DUPFD_CLOEXEC, FREE_FROM);
    close(made);
    return high;
}

/* Whether all of it was written. */
static int put(int to, const char *bytes, size_t length)
{
    while (length != 0) {
        ssize_t done = write(to, bytes, length);
        if (done < 0 && errno == EINTR)
            continue;
        if (done <= 0)
            return 0;
        bytes += done;
        length -= (size_t)done;
    }
    return 1;
}

/* Whether its bytes, as many as a program may want, stand in the other one now. */
static int copied(int from, int to)
{
    static char bytes[1 << 16];
    size_t all = 0;
    while (all < MOST_BYTES) {
        ssize_t got = read(from, bytes, sizeof bytes);
        if (got < 0 && errno == EINTR)
            continue;
        if (got == 0)
            break;
        if (got < 0 || !put(to, bytes, (size_t)got))
            return 0;
        all += (size_t)got;
    }
    return lseek(to, 0, SEEK_SET) == 0;
}

static void stopped(int number)
{
    if (child > 0)
        kill(child, SIGTERM);
    _exit(ENDED_BY + number);
}

static void awaited(int number)
{
    (void)number;
    impatient = 1;
}

/* What is ignored stays so: nohup ignores HUP. */
static void hear(int number, void (*handler)(int))
{
    struct sigaction action;
    if (sigaction(number, NULL, &action) != 0 || action.sa_handler == SIG_IGN)
        return;
    memset(&action, 0, sizeof action);
    action.sa_handler = handler;
    sigaction(number, &action, NULL);
}

/* The status of the program with this input and output, as a shell tells it; -1 where there is no process for it. */
static int run(const char *program, int input, int output)
{
    char path[PATH_MAX + 64];
    sigset_t all, before;
    int status;
    snprintf(path, sizeof path, "%s/%s", folder, program);
    /* a signal that comes before the child is known would not reach it */
    sigfillset(&all);
    sigprocmask(SIG_BLOCK, &all, &before);
    child = fork();
    if (child == 0) {
        sigprocmask(SIG_SETMASK, &before, NULL);
        if (dup2(input, STDIN_FILENO) >= 0 && dup2(output, STDOUT_FILENO) >= 0)
            execl(path, program, (char *)NULL);
        _exit(127);
    }
    sigprocmask(SIG_SETMASK, &before, NULL);
    if (child < 0)
        return -1;
    if (isatty(STDERR_FILENO)) {
        hear(SIGALRM, awaited);
        alarm(PATIENCE_SECONDS);
    }
    while (waitpid(child, &status, 0) < 0) {
        if (errno != EINTR)
            return -1;
        if (impatient) {
            char *told[] = {"tagetessash", "--patience", NULL};
            impatient = 0;
            if (fork() == 0)
                script(told);
        }
    }
    alarm(0);
    child = 0;
    return WIFEXITED(status) ? WEXITSTATUS(status) : ENDED_BY + WTERMSIG(status);
}

/* Where the last of these bytes are a line that begins so, where it begins. Its byte 10 ends what is compared. */
static const char *last_line(const char *bytes, size_t length, const char *begin)
{
    const char *line;
    if (length == 0 || bytes[length - 1] != '\n')
        return NULL;
    line = memrchr(bytes, '\n', length - 1);
    line = line == NULL ? bytes : line + 1;
    return strncmp(line, begin, strlen(begin)) == 0 ? line : NULL;
}

/* Writes the answer and ends; returns where there is none to be had this way. */
static void answer(const struct word *word, const char *file)
{
    int standard = file == NULL || strcmp(file, "-") == 0, input, output, status;
    int from;
    struct stat kind;
    char number[16];
    char *judged[] = {"tagetessash", "--answered", (char *)word->name, standard ? "standard input" : (char *)file, number, NULL};
    hear(SIGHUP, stopped);
    hear(SIGINT, stopped);
    hear(SIGTERM, stopped);
    signal(SIGCHLD, SIG_DFL); /* ignored, a child leaves no status */
    from = standard ? STDIN_FILENO : open(file, O_RDONLY | O_CLOEXEC);
    if (from < 0 || fstat(from, &kind) != 0 || S_ISDIR(kind.st_mode))
        return;
    input = unnamed();
    output = unnamed();
    if (input < 0 || output < 0)
        return;
    if (!copied(from, input))
        return;
    status = run(word->program, input, output);
    if (status < 0 || fstat(output, &kind) != 0)
        return;
    if (status == 0 && kind.st_size > 0) {
        size_t length = (size_t)kind.st_size;
        const char *bytes = mmap(NULL, length, PROT_READ, MAP_SHARED, output, 0);
        const char *line = bytes == MAP_FAILED ? NULL : last_line(bytes, length, word->last);
        if (line != NULL) {
            struct sigaction pipe;
            int ends = sigaction(SIGPIPE, NULL, &pipe) == 0 && pipe.sa_handler != SIG_IGN;
            signal(SIGPIPE, SIG_IGN);
            if (put(STDOUT_FILENO, bytes, length))
                _exit(strcmp(word->name, "member") == 0 && strncmp(line, "M,0\n", 4) == 0 ? NO_MEMBER : 0);
            /* whoever read it had enough, as head has */
            if (errno == EPIPE && ends)
                _exit(ENDED_BY + SIGPIPE);
            if (ends)
                signal(SIGPIPE, SIG_DFL);
            judged[1] = "--unwritten";
            judged[3] = NULL;
            script(judged);
        }
    }
    snprintf(number, sizeof number, "%d", status);
    if (lseek(input, 0, SEEK_SET) == 0 && lseek(output, 0, SEEK_SET) == 0 && dup2(input, INPUT_AT) >= 0 && dup2(output, OUTPUT_AT) >= 0)
        script(judged);
}

int main(int count, char **arguments)
{
    size_t i;
    find_folder();
    if (count == 2 || (count == 3 && (arguments[2][0] != '-' || arguments[2][1] == 0)))
        for (i = 0; i < sizeof words / sizeof *words; i++)
            if (strcmp(words[i].name, arguments[1]) == 0)
                answer(&words[i], count == 3 ? arguments[2] : NULL);
    script(arguments);
}
