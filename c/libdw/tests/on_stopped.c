/* Runs a command on a process that has stopped at SIGILL, or at a SIGSEGV that it doesn't handle, and that nothing
 * traces any more.
 *
 *     on_stopped [--core FILE] [COMMAND..] -- PROGRAM WORD..
 *
 * A word PID of the command stands for the process's id. With --core the process ends by a signal then, and its core
 * dump becomes FILE. */
#define _GNU_SOURCE
#include <glob.h>
#include <signal.h>
#include <stdio.h>
#include <stdlib.h>
#include <string.h>
#include <sys/prctl.h>
#include <sys/ptrace.h>
#include <sys/resource.h>
#include <sys/wait.h>
#include <unistd.h>

static void be_traced(char **words)
{
    struct rlimit limit;
    prctl(PR_SET_PDEATHSIG, SIGKILL);
    getrlimit(RLIMIT_CORE, &limit);
    limit.rlim_cur = limit.rlim_max;
    setrlimit(RLIMIT_CORE, &limit);
    ptrace(PTRACE_TRACEME, 0, NULL, NULL);
    if (freopen("/dev/null", "w", stdout) && freopen("/dev/null", "w", stderr))
        execv(words[0], words);
    _exit(127);
}

static int handles(pid_t process, int number)
{
    char line[256];
    unsigned long handled = 0;
    FILE *file;
    snprintf(line, sizeof line, "/proc/%ld/status", (long)process);
    file = fopen(line, "r");
    while (file && fgets(line, sizeof line, file) && sscanf(line, "SigCgt: %lx", &handled) != 1)
        ;
    if (file)
        fclose(file);
    return handled >> (number - 1) & 1;
}

static int stops(pid_t process)
{
    int status, number = 0;
    waitpid(process, &status, 0);
    while (number != SIGILL && (number != SIGSEGV || handles(process, SIGSEGV))) {
        ptrace(PTRACE_CONT, process, NULL, number);
        if (waitpid(process, &status, 0) < 0 || !WIFSTOPPED(status))
            return 0;
        number = WSTOPSIG(status);
    }
    ptrace(PTRACE_DETACH, process, NULL, SIGSTOP);
    return waitpid(process, &status, WUNTRACED) == process && WIFSTOPPED(status);
}

/* Ends a process by a signal that no runtime handles. Returns 1 if there is no core dump then. */
static int dump(pid_t process, const char *path)
{
    glob_t found;
    int fails;
    kill(process, SIGSYS);
    kill(process, SIGCONT);
    waitpid(process, NULL, 0);
    fails = glob("core*", 0, NULL, &found) || rename(found.gl_pathv[0], path);
    globfree(&found);
    if (fails)
        fprintf(stderr, "the kernel writes no core dump here\n");
    return fails;
}

static int run(char **words, pid_t process)
{
    char id[16], **word;
    pid_t command;
    int status;
    snprintf(id, sizeof id, "%ld", (long)process);
    for (word = words; *word; word++)
        if (!strcmp(*word, "PID"))
            *word = id;
    command = fork();
    if (!command) {
        /* a sanitizer of leaks can't trace a process that it is to read itself */
        setenv("ASAN_OPTIONS", "detect_leaks=0", 1);
        execvp(words[0], words);
        _exit(127);
    }
    waitpid(command, &status, 0);
    return WIFEXITED(status) ? WEXITSTATUS(status) : 1;
}

int main(int argc, char **argv)
{
    const int dumps = argc > 2 && !strcmp(argv[1], "--core");
    char **command = argv + (dumps ? 3 : 1), **program = command;
    pid_t process;
    int status = 0;
    while (*program && strcmp(*program, "--"))
        program++;
    if (!*program || !program[1])
        return 2;
    *program++ = NULL;
    process = fork();
    if (!process)
        be_traced(program);
    if (!stops(process)) {
        fprintf(stderr, "%s hasn't stopped\n", program[0]);
        return 1;
    }
    if (*command)
        status = run(command, process);
    if (dumps)
        return dump(process, argv[2]) || status;
    kill(process, SIGKILL);
    return status;
}
