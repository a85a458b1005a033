/* Runs a program at a pseudo-terminal, for the tests: types the lines of standard input,
 * each once the program asks for one, and then the end of the input; prints what a
 * terminal shows. Ends with the program's exit status, or with 125 where there is no
 * pseudo-terminal. */
#define _XOPEN_SOURCE 600
#include <fcntl.h>
#include <stdio.h>
#include <stdlib.h>
#include <string.h>
#include <sys/wait.h>
#include <unistd.h>

#define NO_TERMINAL 125

/* The longest line that is typed, the longest prompt, and how many seconds all may
 * take. */
#define MOST_TYPED 1024
#define MOST_PROMPT 20
#define MOST_SECONDS 20

/* Runs the program at the terminal with this name. */
static void run_at(const char *name, char **arguments)
{
    int terminal = setsid() < 0 ? -1 : open(name, O_RDWR);
    if (terminal < 0) {
        _exit(NO_TERMINAL);
    }
    for (int at = 0; at < 3; at++) {
        dup2(terminal, at);
    }
    execv(arguments[0], arguments);
    _exit(NO_TERMINAL);
}

/* Whether a line is all of a prompt. */
static int is_prompt(const char *line)
{
    size_t digits = strspn(line, "0123456789");
    return digits > 0 && strcmp(line + digits, "> ") == 0;
}

/* Shows what the program prints, up to a prompt. Gives back 0 where it ends before. */
static int show_to_prompt(int terminal)
{
    char shown, line[MOST_PROMPT + 1] = "";
    size_t length = 0;
    while (read(terminal, &shown, 1) == 1) {
        if (shown == '\r') {
            continue;
        }
        putchar(shown);
        if (shown == '\n') {
            length = 0;
        } else if (length < MOST_PROMPT) {
            line[length] = shown;
            line[++length] = '\0';
            if (is_prompt(line)) {
                return 1;
            }
        }
    }
    return 0;
}

/* Types characters, which the terminal shows too. */
static void type(int terminal, const char *typed, size_t length)
{
    if (write(terminal, typed, length) != (ssize_t)length) {
        exit(NO_TERMINAL);
    }
}

int main(int argc, char **argv)
{
    char typed[MOST_TYPED];
    int status, terminal = posix_openpt(O_RDWR | O_NOCTTY);
    if (argc < 2 || terminal < 0 || grantpt(terminal) != 0 || unlockpt(terminal) != 0) {
        return NO_TERMINAL;
    }
    alarm(MOST_SECONDS);
    const char *name = ptsname(terminal);
    pid_t program = fork();
    if (program == 0) {
        close(terminal);
        run_at(name, argv + 1);
    }
    while (show_to_prompt(terminal)) {
        if (fgets(typed, sizeof typed, stdin) != NULL) {
            type(terminal, typed, strlen(typed));
        } else {
            type(terminal, "\x04", 1);
        }
    }
    if (program < 0 || waitpid(program, &status, 0) != program || !WIFEXITED(status)) {
        return NO_TERMINAL;
    }
    return WEXITSTATUS(status);
}
