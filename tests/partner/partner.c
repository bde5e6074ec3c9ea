// The journal program as a partner that is asked and answers, and what it does where a read or a write fails.
//
//     partner PLACER JOURNAL ANSWERS
//
// JOURNAL is a stored journal without damage, ANSWERS what the program writes for it.
#define _GNU_SOURCE
#include <errno.h>
#include <fcntl.h>
#include <poll.h>
#include <signal.h>
#include <stdio.h>
#include <stdlib.h>
#include <string.h>
#include <sys/ioctl.h>
#include <sys/mman.h>
#include <sys/prctl.h>
#include <sys/socket.h>
#include <sys/time.h>
#include <sys/wait.h>
#include <unistd.h>

enum { RECORD = 32, ANSWER = 12, MOST = 1 << 20, PATIENCE = 10000 };

typedef unsigned char byte;

static const char *placer;
static byte journal[MOST], answers[MOST];
static size_t opening, records;
static const byte damaged[ANSWER] = {0x4E, 0x41, 0xFF, 13, 0xFF, 0, 0, 0, 0xFF, 0xFF, 0xFF, 0xFF};
static const char *shown = "start";

static void need(int holds, const char *what)
{
    if (!holds) {
        fprintf(stderr, "partner: %s: %s\n", shown, what);
        exit(1);
    }
}

// ---- the program, started on two descriptors

struct run {
    pid_t pid;
    int said;
};

struct ends {
    int ours, its;
};

static struct ends input(void)
{
    int p[2];
    need(pipe2(p, O_CLOEXEC) == 0, "pipe");
    return (struct ends){.ours = p[1], .its = p[0]};
}

static struct ends output(void)
{
    int p[2];
    need(pipe2(p, O_CLOEXEC) == 0, "pipe");
    return (struct ends){.ours = p[0], .its = p[1]};
}

// A socket on which the program's reads and writes wait for a time at most, and then fail. On such a socket Linux interrupts a call also
// in a program without signal handlers, when it is stopped and goes on (signal(7)).
static struct ends limited(int milliseconds)
{
    int s[2], small = 1;
    struct timeval t = {milliseconds / 1000, milliseconds % 1000 * 1000};
    need(socketpair(AF_UNIX, SOCK_STREAM | SOCK_CLOEXEC, 0, s) == 0, "socketpair");
    need(setsockopt(s[1], SOL_SOCKET, SO_RCVTIMEO, &t, sizeof t) == 0, "SO_RCVTIMEO");
    need(setsockopt(s[1], SOL_SOCKET, SO_SNDTIMEO, &t, sizeof t) == 0, "SO_SNDTIMEO");
    need(setsockopt(s[1], SOL_SOCKET, SO_SNDBUF, &small, sizeof small) == 0, "SO_SNDBUF");
    return (struct ends){.ours = s[0], .its = s[1]};
}

// Starts the program. Its two descriptors are closed here.
static struct run start(int in, int out, void (*on_closed_output)(int))
{
    int said[2];
    need(pipe2(said, O_CLOEXEC) == 0, "pipe");
    pid_t pid = fork();
    need(pid >= 0, "fork");
    if (pid == 0) {
        prctl(PR_SET_PDEATHSIG, SIGKILL);
        signal(SIGPIPE, on_closed_output);
        if (dup2(in, 0) == 0 && dup2(out, 1) == 1 && dup2(said[1], 2) == 2)
            execl(placer, placer, (char *)NULL);
        _exit(127);
    }
    close(in);
    close(out);
    close(said[1]);
    return (struct run){pid, said[0]};
}

static void give(int fd, const byte *bytes, size_t n)
{
    need(write(fd, bytes, n) == (ssize_t)n, "the input was not taken");
}

// As many bytes as arrive, n at most. It is a fault if they do not come in time.
static size_t take(int fd, byte *bytes, size_t n)
{
    size_t got = 0;
    while (got < n) {
        struct pollfd p = {fd, POLLIN, 0};
        need(poll(&p, 1, PATIENCE) == 1, "no answer: the program waits for more");
        ssize_t k = read(fd, bytes + got, n - got);
        need(k >= 0, "read");
        if (k == 0)
            break;
        got += (size_t)k;
    }
    return got;
}

static void answered(int fd, const byte *answer)
{
    byte got[ANSWER];
    need(take(fd, got, ANSWER) == ANSWER, "the output ends before the answer");
    need(memcmp(got, answer, ANSWER) == 0, "another answer");
}

static void no_more(int fd)
{
    byte got[1];
    need(take(fd, got, 1) == 0, "a byte too much on standard output");
    close(fd);
}

// Waits until the program has read all of the input so far.
static void drained(int fd)
{
    int left = 1;
    for (int i = 0; i < PATIENCE && left > 0; i++) {
        need(ioctl(fd, FIONREAD, &left) == 0, "FIONREAD");
        usleep(left > 0 ? 1000 : 0);
    }
    need(left == 0, "the input is not read");
}

// The run is over: its status as wait(2) gives it. It said just that on standard error.
static int ended(struct run r, const char *text)
{
    char said[1000];
    size_t n = take(r.said, (byte *)said, sizeof said - 1);
    said[n] = 0;
    close(r.said);
    int status;
    need(waitpid(r.pid, &status, 0) == r.pid, "wait");
    if (strcmp(said, text) != 0)
        fprintf(stderr, "partner: it said \"%s\"\n", said);
    need(strcmp(said, text) == 0, "another text on standard error");
    return status;
}

// Stops the program in a call that waits, and lets it go on.
static void interrupt(pid_t pid)
{
    char path[64], line[512], state = 0;
    snprintf(path, sizeof path, "/proc/%d/stat", (int)pid);
    for (int i = 0; i < PATIENCE && state != 'S'; i++) {
        usleep(1000);
        int fd = open(path, O_RDONLY | O_CLOEXEC);
        ssize_t n = read(fd, line, sizeof line - 1);
        close(fd);
        line[n > 0 ? n : 0] = 0;
        char *after_name = strrchr(line, ')');
        state = after_name ? after_name[2] : 0;
    }
    need(state == 'S', "the program does not wait");
    int status;
    kill(pid, SIGSTOP);
    need(waitpid(pid, &status, WUNTRACED) == pid && WIFSTOPPED(status), "stop");
    kill(pid, SIGCONT);
}

static const byte *record(size_t k)
{
    return journal + opening + RECORD * k;
}

// ---- what is shown

// The machine record byte by byte; then a record at a time, every second one in two halves, and its answer before the next is sent; at
// last half a record.
static void asked_and_answered(void)
{
    struct ends in = input(), out = output();
    struct run r = start(in.its, out.its, SIG_DFL);
    for (size_t i = 0; i < opening; i++) {
        give(in.ours, journal + i, 1);
        drained(in.ours);
    }
    for (size_t k = 0; k < records; k++) {
        size_t first = k % 2 ? RECORD / 2 : RECORD;
        give(in.ours, record(k), first);
        if (first < RECORD) {
            drained(in.ours);
            give(in.ours, record(k) + first, RECORD - first);
        }
        answered(out.ours, answers + ANSWER * k);
    }
    give(in.ours, record(0), RECORD / 2);
    close(in.ours);
    answered(out.ours, damaged);
    no_more(out.ours);
    need(ended(r, "") == 0, "status");
}

// The whole journal, cut anywhere, each piece read before the next is sent.
static void cut_anywhere(void)
{
    struct ends in = input(), out = output();
    struct run r = start(in.its, out.its, SIG_DFL);
    size_t size = opening + RECORD * records, piece = 1;
    for (size_t at = 0; at < size; at += piece) {
        piece = (piece * 37 + 11) % 97 + 1;
        if (piece > size - at)
            piece = size - at;
        give(in.ours, journal + at, piece);
        drained(in.ours);
    }
    close(in.ours);
    for (size_t k = 0; k < records; k++)
        answered(out.ours, answers + ANSWER * k);
    no_more(out.ours);
    need(ended(r, "") == 0, "status");
}

static void full_disk(void)
{
    struct ends in = input();
    struct run r = start(in.its, open("/dev/full", O_WRONLY | O_CLOEXEC), SIG_DFL);
    give(in.ours, journal, opening + RECORD);
    need(WIFEXITED(ended(r, "placer: standard output: No space left on device\n")), "end");
    close(in.ours);
}

// The output is closed after the first answer. The write fails, whether or not the program's host has it ignore SIGPIPE: it does so itself.
static void closed_output(void (*on_closed_output)(int))
{
    struct ends in = input(), out = output();
    struct run r = start(in.its, out.its, on_closed_output);
    give(in.ours, journal, opening + RECORD);
    answered(out.ours, answers);
    close(out.ours);
    give(in.ours, record(1), RECORD);
    need(WIFEXITED(ended(r, "placer: standard output: Broken pipe\n")), "end");
    close(in.ours);
}

// A directory cannot be read.
static void failed_first_read(void)
{
    struct ends out = output();
    struct run r = start(open("/", O_RDONLY | O_DIRECTORY | O_CLOEXEC), out.its, SIG_DFL);
    need(WIFEXITED(ended(r, "placer: standard input: Is a directory\n")), "end");
    no_more(out.ours);
}

// A read fails in the middle of a record, the machine record or the second one after it: what came before is answered, and nothing else.
static void failed_later_read(size_t given)
{
    struct ends in = limited(100), out = output();
    give(in.ours, journal, given);
    struct run r = start(in.its, out.its, SIG_DFL);
    if (given > opening)
        answered(out.ours, answers);
    need(WIFEXITED(ended(r, "placer: standard input: Resource temporarily unavailable\n")), "end");
    no_more(out.ours);
    close(in.ours);
}

// That the system interrupts a read here at all, and so that the next two show something.
static void system_interrupts(void)
{
    struct ends in = limited(PATIENCE);
    pid_t pid = fork();
    if (pid == 0) {
        byte b;
        prctl(PR_SET_PDEATHSIG, SIGKILL);
        _exit(read(in.its, &b, 1) < 0 && errno == EINTR ? 0 : 1);
    }
    interrupt(pid);
    give(in.ours, journal, 1);
    int status;
    need(waitpid(pid, &status, 0) == pid && status == 0, "this system interrupts no read here");
    close(in.ours);
    close(in.its);
}

static void interrupted_read(void)
{
    struct ends in = limited(PATIENCE), out = output();
    struct run r = start(in.its, out.its, SIG_DFL);
    give(in.ours, journal, opening / 2);
    interrupt(r.pid);
    give(in.ours, journal + opening / 2, opening - opening / 2 + RECORD);
    answered(out.ours, answers);
    interrupt(r.pid);
    give(in.ours, record(1), RECORD / 2);
    interrupt(r.pid);
    interrupt(r.pid);
    give(in.ours, record(1) + RECORD / 2, RECORD / 2);
    answered(out.ours, answers + ANSWER);
    close(in.ours);
    no_more(out.ours);
    need(ended(r, "") == 0, "status");
}

// Many records, whose answers are taken only after the program was interrupted in its writes; against the same run into a file.
static void interrupted_write(void)
{
    static byte expected[MOST], got[MOST];
    int in = memfd_create("journal", MFD_CLOEXEC), file = memfd_create("answers", MFD_CLOEXEC);
    give(in, journal, opening);
    for (int i = 0; i < 50; i++)
        give(in, record(0), RECORD * records);
    lseek(in, 0, SEEK_SET);
    need(ended(start(dup(in), dup(file), SIG_DFL), "") == 0, "status");
    lseek(file, 0, SEEK_SET);
    size_t size = take(file, expected, MOST);
    need(size == ANSWER * 50 * records, "not all is answered in a file");
    struct ends out = limited(PATIENCE);
    lseek(in, 0, SEEK_SET);
    struct run r = start(in, out.its, SIG_DFL);
    for (int i = 0; i < 4; i++)
        interrupt(r.pid);
    need(take(out.ours, got, size) == size, "the output ends before the last answer");
    need(memcmp(got, expected, size) == 0, "another answer");
    no_more(out.ours);
    need(ended(r, "") == 0, "status");
    close(file);
}

static size_t stored(const char *path, byte *bytes)
{
    int fd = open(path, O_RDONLY | O_CLOEXEC);
    need(fd >= 0, path);
    size_t n = take(fd, bytes, MOST);
    close(fd);
    return n;
}

int main(int count, char **words)
{
    need(count == 4, "usage: partner PLACER JOURNAL ANSWERS");
    placer = words[1];
    signal(SIGPIPE, SIG_IGN);
    size_t size = stored(words[2], journal);
    records = stored(words[3], answers) / ANSWER;
    opening = size - RECORD * records;
    shown = "a record at a time", asked_and_answered();
    shown = "cut anywhere", cut_anywhere();
    shown = "full disk", full_disk();
    shown = "closed output", closed_output(SIG_DFL);
    shown = "closed output, SIGPIPE ignored", closed_output(SIG_IGN);
    shown = "failed read", failed_first_read();
    shown = "failed read in the machine record", failed_later_read(opening / 2);
    shown = "failed read in a record", failed_later_read(opening + RECORD + RECORD / 2);
    shown = "the system's interrupts", system_interrupts();
    shown = "interrupted read", interrupted_read();
    shown = "interrupted write", interrupted_write();
    printf("partner: asked and answered %zu times; failed and interrupted calls are as they should be\n", records);
    return 0;
}
