/* Plays a script to a gateway that stands between two sockets, as the client and as the server.
 *
 *     play SCRIPT COMMAND..     the command has the client at descriptor 3, the server at 4
 *
 * A line of the script is one of
 *
 *     C HEX            the client sends these bytes, in one write, and they come out at the server
 *     C HEX | HEX      the same; what stands behind | is read too, and does not come out
 *     C end            the client sends no more
 *     C close          the client neither sends nor takes any more
 *     stop             the gateway is stopped, so that what is sent now is there before it looks
 *     go               it goes on; what is to come out is waited for here
 *     > TEXT           a line that the gateway prints
 *
 * or the same with S, what the server sends; empty lines and those behind # are passed over. Behind
 * the last line the gateway has to end by itself, and nothing more to have come out at either side.
 * What it prints goes to standard output, and a last line with its status; the lines behind > are
 * for whoever compares. The status is 1 where other bytes came out, or none until the deadline.
 */
#define _POSIX_C_SOURCE 200809L

#include <fcntl.h>
#include <linux/sockios.h>
#include <sched.h>
#include <signal.h>
#include <stdbool.h>
#include <stdio.h>
#include <stdlib.h>
#include <string.h>
#include <sys/ioctl.h>
#include <sys/socket.h>
#include <sys/wait.h>
#include <unistd.h>

enum { DEADLINE = 30, LINE = 4096 };

/* A side's end of its socket, and the bytes that are to come out there. */
struct side {
    int socket;
    size_t owed;
    unsigned char bytes[LINE];
};

static pid_t gateway;
static const char *script;
static int line_number;

/* Ends the gateway too: it may be stopped, and would stay. */
static void fail(const char *why)
{
    fprintf(stderr, "%s:%d: %s\n", script, line_number, why);
    kill(gateway, SIGKILL);
    exit(1);
}

static void too_late(int signal)
{
    const char why[] = "play: the deadline is over\n";
    (void)signal;
    (void)!write(2, why, sizeof why - 1);
    kill(gateway, SIGKILL);
    _exit(1);
}

/* The bytes that hex digits say up to the end of the text, spaces aside; how many they are. */
static size_t from_hex(unsigned char *bytes, const char *hex)
{
    size_t n = 0;
    unsigned byte;
    int used;
    while (sscanf(hex, "%2x%n", &byte, &used) == 1) {
        bytes[n++] = (unsigned char)byte;
        hex += used;
    }
    if (hex[strspn(hex, " \n")] != '\0') {
        fail("neither hex digits nor a command");
    }
    return n;
}

/* Waits until the gateway has read what a side sent, and what is owed to the side has come out. */
static void settle(struct side *s)
{
    unsigned char come[LINE];
    size_t n = 0;
    int unread = 1;
    while (unread > 0 && ioctl(s->socket, SIOCOUTQ, &unread) == 0) {
        sched_yield();
    }
    while (n < s->owed) {
        ssize_t got = read(s->socket, come + n, s->owed - n);
        if (got <= 0) {
            fail("the gateway has ended");
        }
        n += (size_t)got;
    }
    if (memcmp(come, s->bytes, n) != 0) {
        fail("other bytes came out");
    }
    s->owed = 0;
}

static void stop(void)
{
    int status;
    kill(gateway, SIGSTOP);
    if (waitpid(gateway, &status, WUNTRACED) != gateway || !WIFSTOPPED(status)) {
        fail("the gateway has ended");
    }
}

/* One side sends what a line says. */
static void send_line(struct side *from, struct side *to, char *line)
{
    unsigned char bytes[LINE];
    size_t forwarded, size;
    char *rest = strchr(line, '|');
    if (strcmp(line, " end\n") == 0) {
        shutdown(from->socket, SHUT_WR);
        return;
    }
    if (strcmp(line, " close\n") == 0) {
        close(from->socket);
        from->socket = -1;
        return;
    }
    if (rest != NULL) {
        *rest = '\0';
    }
    forwarded = from_hex(bytes, line);
    size = forwarded + (rest != NULL ? from_hex(bytes + forwarded, rest + 1) : 0);
    if (write(from->socket, bytes, size) != (ssize_t)size) {
        fail("the gateway has ended");
    }
    memcpy(to->bytes + to->owed, bytes, forwarded);
    to->owed += forwarded;
}

static void play(FILE *lines, struct side *client, struct side *server)
{
    char line[LINE];
    bool stopped = false;
    for (line_number = 1; fgets(line, sizeof line, lines) != NULL; line_number++) {
        if (line[0] == 'C') {
            send_line(client, server, line + 1);
        } else if (line[0] == 'S') {
            send_line(server, client, line + 1);
        } else if (strcmp(line, "stop\n") == 0) {
            stop();
            stopped = true;
        } else if (strcmp(line, "go\n") == 0) {
            kill(gateway, SIGCONT);
            stopped = false;
        } else if (strchr("#>\n", line[0]) == NULL) {
            fail("no such command");
        }
        if (!stopped) {
            settle(client);
            settle(server);
        }
    }
}

/* Starts the command with these as its descriptors 3 and 4, and no other end of either. */
static void start(char **command, const int client[2], const int server[2])
{
    gateway = fork();
    if (gateway == 0) {
        /* above 4 first: either may have the number that the other is to get */
        int c = fcntl(client[1], F_DUPFD, 5), s = fcntl(server[1], F_DUPFD, 5);
        dup2(c, 3);
        dup2(s, 4);
        for (int i = 5; i < 64; i++) {
            close(i);
        }
        execvp(command[0], command);
        perror(command[0]);
        _exit(127);
    }
    close(client[1]);
    close(server[1]);
}

int main(int argc, char **argv)
{
    static struct side client, server;
    int c[2], s[2], status;
    char more;
    FILE *lines = argc > 2 ? fopen(argv[1], "r") : NULL;
    script = argv[1];
    if (lines == NULL || socketpair(AF_UNIX, SOCK_STREAM, 0, c) == -1 ||
        socketpair(AF_UNIX, SOCK_STREAM, 0, s) == -1) {
        perror("play SCRIPT COMMAND..");
        return 1;
    }
    signal(SIGPIPE, SIG_IGN);
    signal(SIGALRM, too_late);
    start(argv + 2, c, s);
    alarm(DEADLINE);
    client.socket = c[0];
    server.socket = s[0];
    play(lines, &client, &server);
    if (waitpid(gateway, &status, 0) != gateway || !WIFEXITED(status)) {
        fail("the gateway was ended by a signal");
    }
    if (read(client.socket, &more, 1) > 0 || read(server.socket, &more, 1) > 0) {
        fail("more bytes came out");
    }
    printf("status %d\n", WEXITSTATUS(status));
    return fclose(lines);
}
