/* pieces N COMMAND..: runs COMMAND with this program's standard input, which COMMAND reads in pieces of N
   bytes: each piece is a packet of a socket, and a read takes one packet. Ends as COMMAND does. */
#include <stdio.h>
#include <stdlib.h>
#include <sys/socket.h>
#include <sys/wait.h>
#include <unistd.h>

int main(int argc, char **argv) {
    size_t size = argc < 3 ? 0 : strtoul(argv[1], NULL, 10);
    if (size == 0) {
        fprintf(stderr, "usage: pieces N COMMAND..\n");
        return 2;
    }
    int ends[2];
    if (socketpair(AF_UNIX, SOCK_SEQPACKET, 0, ends) != 0) {
        perror("pieces: socketpair");
        return 2;
    }
    pid_t child = fork();
    if (child < 0) {
        perror("pieces: fork");
        return 2;
    }
    if (child == 0) {
        close(ends[0]);
        dup2(ends[1], STDIN_FILENO);
        close(ends[1]);
        execvp(argv[2], argv + 2);
        perror("pieces: COMMAND");
        _exit(127);
    }
    close(ends[1]);
    char *piece = malloc(size);
    size_t got;
    while (piece != NULL && (got = fread(piece, 1, size, stdin)) > 0) {
        if (send(ends[0], piece, got, MSG_NOSIGNAL) != (ssize_t)got) {
            perror("pieces: send");
            return 2;
        }
    }
    close(ends[0]);
    int status;
    if (piece == NULL || waitpid(child, &status, 0) != child) return 2;
    return WIFEXITED(status) ? WEXITSTATUS(status) : 128 + WTERMSIG(status);
}
