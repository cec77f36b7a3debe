/* gateway_secret LISTING AUTHORIZATION USERS..: how many instructions the gateway takes to find the user of that header's value, for each file of users;
 * one number a line. A child does it, step by step under ptrace, so the number is exact, and every child is a copy of one process: what is the same
 * in all files takes the same number.
 * Exit status: 0 counted, 1 not so, 3 no stepping allowed here. */
#define _GNU_SOURCE
#include <signal.h>
#include <stdio.h>
#include <sys/ptrace.h>
#include <sys/wait.h>
#include <unistd.h>
#include "../gateway/gateway.h"

static int look_up(const char *listing, const char *authorization, const char *users) {
    if (!rules_start(listing) || !users_read(users)) return 1;
    if (ptrace(PTRACE_TRACEME, 0, NULL, NULL)) return 3;
    raise(SIGUSR1);
    const struct user *found = users_find(authorization);
    raise(SIGUSR1);
    return found ? 1 : 0; /* every file has another password: a match is a mistake */
}

static int is_stopped_by(int status, int signal) {
    return WIFSTOPPED(status) && WSTOPSIG(status) == signal;
}

/* The steps between the child's two signals; its exit status where it doesn't get that far. */
static int count(pid_t child, unsigned long *steps) {
    int status;
    waitpid(child, &status, 0);
    if (!is_stopped_by(status, SIGUSR1)) return WIFEXITED(status) ? WEXITSTATUS(status) : 1;
    do {
        if (ptrace(PTRACE_SINGLESTEP, child, NULL, NULL)) return 3;
        waitpid(child, &status, 0);
        ++*steps;
    } while (is_stopped_by(status, SIGTRAP));
    if (!is_stopped_by(status, SIGUSR1)) return 1;
    ptrace(PTRACE_CONT, child, NULL, NULL);
    waitpid(child, &status, 0);
    return WIFEXITED(status) ? WEXITSTATUS(status) : 1;
}

int main(int argc, char **argv) {
    for (int i = 3; i < argc; i++) {
        unsigned long steps = 0;
        pid_t child = fork();
        if (child < 0) return 1;
        if (!child) _exit(look_up(argv[1], argv[2], argv[i]));
        int status = count(child, &steps);
        if (status) return status;
        printf("%lu\n", steps);
    }
    return argc < 4;
}
