/* Runs a program whose reads or writes fail or are cut short:
 *     launch reset FILE PROGRAM...           standard input gives the bytes of FILE, and then a read fails
 *     launch pieces COUNT FILE PROGRAM...    standard input is a pipe that gives COUNT bytes of FILE at a read
 *     launch limit COUNT PROGRAM...          a file that is written holds COUNT bytes: the write that reaches them is cut short, the
 *                                            next fails
 * Exit status 2 if that can't be set up, else the program's. */
#define _GNU_SOURCE
#include <fcntl.h>
#include <signal.h>
#include <stdio.h>
#include <stdlib.h>
#include <string.h>
#include <sys/resource.h>
#include <sys/socket.h>
#include <unistd.h>

static char bytes[1 << 17];

static void fail(const char *what)
{
    perror(what);
    exit(2);
}

static size_t read_file(const char *name)
{
    FILE *file = fopen(name, "rb");
    if (file == NULL) {
        fail(name);
    }
    size_t count = fread(bytes, 1, sizeof bytes, file);
    if (ferror(file) || fclose(file) != 0) {
        fail(name);
    }
    return count;
}

/* Writes the bytes, so many at a call. */
static void write_pieces(int to, size_t count, size_t size)
{
    for (size_t at = 0; at < count; at += size) {
        size_t piece = count - at < size ? count - at : size;
        if (write(to, bytes + at, piece) != (ssize_t)piece) {
            fail("write");
        }
    }
}

static void become_input(int from)
{
    if (dup2(from, STDIN_FILENO) < 0 || close(from) < 0) {
        fail("dup2");
    }
}

/* A socket whose other side is closed while a byte waits there that it never read: what it wrote is read, then comes ECONNRESET. */
static void reset_after(size_t count)
{
    int ends[2];
    if (socketpair(AF_UNIX, SOCK_STREAM, 0, ends) < 0 || write(ends[0], "", 1) != 1) {
        fail("socketpair");
    }
    write_pieces(ends[1], count, count);
    close(ends[1]);
    become_input(ends[0]);
}

/* A pipe of packets: a read gives what one write put there, and no more. */
static void give_pieces(size_t count, size_t size)
{
    int ends[2];
    if (pipe2(ends, O_DIRECT) < 0) {
        fail("pipe2");
    }
    pid_t child = fork();
    if (child < 0) {
        fail("fork");
    }
    if (child == 0) {
        close(ends[0]);
        write_pieces(ends[1], count, size);
        exit(0);
    }
    close(ends[1]);
    become_input(ends[0]);
}

static void limit_output(size_t count)
{
    struct rlimit limit = {count, count};
    if (signal(SIGXFSZ, SIG_IGN) == SIG_ERR || setrlimit(RLIMIT_FSIZE, &limit) < 0) {
        fail("setrlimit");
    }
}

int main(int count, char **words)
{
    char **program = words + 3;
    if (count > 3 && strcmp(words[1], "reset") == 0) {
        reset_after(read_file(words[2]));
    } else if (count > 4 && strcmp(words[1], "pieces") == 0) {
        give_pieces(read_file(words[3]), strtoul(words[2], NULL, 10));
        program = words + 4;
    } else if (count > 3 && strcmp(words[1], "limit") == 0) {
        limit_output(strtoul(words[2], NULL, 10));
    } else {
        fputs("usage: launch reset|pieces|limit ...\n", stderr);
        return 2;
    }
    execvp(program[0], program);
    fail(program[0]);
}
