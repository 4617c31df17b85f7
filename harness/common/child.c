#include "child.h"

#include "bytes.h"
#include "say.h"

#include <errno.h>
#include <fcntl.h>
#include <signal.h>
#include <string.h>
#include <sys/socket.h>
#include <sys/wait.h>
#include <time.h>
#include <unistd.h>

/* As many bytes as a pipe may hold. Where the system allows less, it stays as it is. */
enum { PIPE_BYTES = 1 << 20 };

void make_pipe(int ends[2]) {
    if (pipe2(ends, O_CLOEXEC)) give_up_by_errno("pipe");
    fcntl(ends[0], F_SETPIPE_SZ, PIPE_BYTES);
}

static void make_socket(int ends[2]) {
    if (socketpair(AF_UNIX, SOCK_STREAM | SOCK_CLOEXEC, 0, ends)) give_up_by_errno("socketpair");
}

/* Puts an end of a pipe in the place of standard input or output. */
static int put_in_place(int end, int place) {
    if (end < 0) return 0;
    if (end == place) return fcntl(end, F_SETFD, 0);
    return dup2(end, place) < 0 ? -1 : 0;
}

/* The rest of a process that was just made: it becomes the program, or says through `told` why it
 * can't. */
static _Noreturn void become(const char *program, char *const words[], int input, int output, int told, bool apart) {
    if (apart) setpgid(0, 0);
    sigset_t none;
    sigemptyset(&none);
    sigprocmask(SIG_SETMASK, &none, NULL);
    signal(SIGPIPE, SIG_DFL);
    if (!put_in_place(input, STDIN_FILENO) && !put_in_place(output, STDOUT_FILENO)) execvp(program, words);
    int why = errno;
    write_all(told, &why, sizeof why);
    _exit(127);
}

struct child start_child(const char *program, char *const words[], int pipes) {
    int to[2] = {-1, -1}, from[2] = {-1, -1}, told[2], why;
    if (pipes & CHILD_READS) make_pipe(to);
    if (pipes & CHILD_WRITES) (pipes & CHILD_BY_SOCKET ? make_socket : make_pipe)(from);
    make_pipe(told);
    pid_t pid = fork();
    if (pid < 0) give_up_by_errno(program);
    if (pid == 0) become(program, words, to[0], from[1], told[1], pipes & CHILD_APART);
    if (to[0] >= 0) close(to[0]);
    if (from[1] >= 0) close(from[1]);
    close(told[1]);
    if (read_all(told[0], &why, sizeof why) == sizeof why) give_up(program, strerror(why));
    close(told[0]);
    return (struct child){pid, to[1], from[0]};
}

void end_input(struct child *child) {
    if (child->to >= 0) close(child->to);
    child->to = -1;
}

int wait_for(struct child *child) {
    int status;
    end_input(child);
    while (waitpid(child->pid, &status, 0) < 0)
        if (errno != EINTR) return -1;
    if (child->from >= 0) close(child->from);
    child->from = -1;
    return WIFEXITED(status) ? WEXITSTATUS(status) : -1;
}

struct child start_command(const char *command, int pipes) {
    char shell[] = "sh", option[] = "-c", text[8192];
    if (strlen(command) >= sizeof text) give_up("a command", strerror(E2BIG));
    memcpy(text, command, strlen(command) + 1);
    return start_child("/bin/sh", (char *[]){shell, option, text, NULL}, pipes);
}

int run_command(const char *command, const void *bytes, size_t length) {
    struct child child = start_command(command, bytes ? CHILD_READS : 0);
    int failed = bytes && write_all(child.to, bytes, length);
    return wait_for(&child) || failed;
}

bool has_ended(struct child *child, int *status) {
    int how;
    if (waitpid(child->pid, &how, WNOHANG) != child->pid) return false;
    *status = WIFEXITED(how) ? WEXITSTATUS(how) : -1;
    return true;
}

void end_group(struct child *child) {
    const int signals[] = {0, SIGTERM, SIGKILL};
    bool ended = false;
    int status;
    end_input(child);
    for (size_t at = 0; !ended && at < sizeof signals / sizeof *signals; at++) {
        if (signals[at]) kill(-child->pid, signals[at]);
        for (int look = 0; !ended && look < 200; look++) {
            ended = has_ended(child, &status);
            if (!ended) nanosleep(&(struct timespec){0, 10000000}, NULL);
        }
    }
    kill(-child->pid, SIGKILL); /* (what the shell has left) */
    if (child->from >= 0) close(child->from);
    child->from = -1;
}
