/* One connection over TCP, to a local socket or over a program's own streams, with limits of time. Used by: session.c; the other files for
   times, pauses and texts. Its pauses and limits are the same in each client: change them together, with a case in clients/cases. */
#define _POSIX_C_SOURCE 200809L
#include "parts.h"
#include <errno.h>
#include <fcntl.h>
#include <netdb.h>
#include <netinet/in.h>
#include <netinet/tcp.h>
#include <poll.h>
#include <stdarg.h>
#include <stdio.h>
#include <string.h>
#include <sys/socket.h>
#include <sys/un.h>
#include <time.h>
#include <unistd.h>

int64_t mdx_now(void) {
    struct timespec now;
    clock_gettime(CLOCK_MONOTONIC, &now);
    return (int64_t)now.tv_sec * 1000000 + now.tv_nsec / 1000;
}

void mdx_say(mondlexi_client *client, const char *format, ...) {
    va_list values;
    va_start(values, format);
    vsnprintf(client->text, sizeof client->text, format, values);
    va_end(values);
}

/* Lets about so many microseconds pass, partly at random, and doubles the pause. 0, at once, if the end has come. */
int mdx_pause(mondlexi_client *client, int64_t *pause, int64_t end) {
    int64_t left = end - mdx_now();
    if (left <= 0) {
        return 0;
    }
    client->dice ^= client->dice << 13;
    client->dice ^= client->dice >> 7;
    client->dice ^= client->dice << 17;
    int64_t half = *pause / 2, length = half + (int64_t)(client->dice % (uint64_t)(half + 1));
    length = length < left ? length : left;
    struct timespec time = {length / 1000000, length % 1000000 * 1000};
    nanosleep(&time, NULL);
    *pause = 2 * *pause < LONGEST_PAUSE ? 2 * *pause : LONGEST_PAUSE;
    return 1;
}

/* Waits until the connection can be read or written: 1. 0 if the end came before, with `is_late` set, or poll failed. */
static int wait_for(mondlexi_client *client, int fd, short what, int64_t end) {
    for (;;) {
        int64_t left = end - mdx_now();
        struct pollfd one = {fd, what, 0};
        int ready = poll(&one, 1, left <= 0 ? 0 : left > 1000000000 ? 1000000 : (int)(left / 1000) + 1);
        if (ready > 0) {
            return 1;
        }
        if (ready < 0 && errno != EINTR) {
            mdx_say(client, "poll: %s", strerror(errno));
            return 0;
        }
        if (ready == 0 && left <= 0) {
            client->is_late = 1;
            mdx_say(client, "timed out");
            return 0;
        }
    }
}

static int is_same_end(int fd) {
    struct sockaddr_storage own = {0}, other = {0};
    socklen_t own_size = sizeof own, other_size = sizeof other;
    return !getsockname(fd, (struct sockaddr *)&own, &own_size) && !getpeername(fd, (struct sockaddr *)&other, &other_size) &&
           own_size == other_size && !memcmp(&own, &other, own_size);
}

/* Why a connection that was begun has failed: 0 if it hasn't. */
static int failure_of(mondlexi_client *client, int fd, int error, int64_t end) {
    socklen_t size = sizeof error;
    if (error == EINPROGRESS || error == EINTR) {
        error = 0;
        if (!wait_for(client, fd, POLLOUT, end)) {
            return ETIMEDOUT;
        }
        if (getsockopt(fd, SOL_SOCKET, SO_ERROR, &error, &size)) {
            return errno;
        }
    }
    return error;
}

/* A connection to an address; -1 if there is none. */
static int connect_at(mondlexi_client *client, const struct addrinfo *at, int64_t end, int *is_full) {
    int on = 1, fd = socket(at->ai_family, SOCK_STREAM | SOCK_CLOEXEC | SOCK_NONBLOCK, 0);
    if (fd < 0) {
        mdx_say(client, "socket: %s", strerror(errno));
        return -1;
    }
    int error = failure_of(client, fd, connect(fd, at->ai_addr, at->ai_addrlen) ? errno : 0, end);
    /* The system may connect a socket to itself if nobody listens at a port of this machine. */
    if (!error && is_same_end(fd)) {
        error = ECONNREFUSED;
    }
    if (!error) {
        setsockopt(fd, IPPROTO_TCP, TCP_NODELAY, &on, sizeof on);
        return fd;
    }
    *is_full = error == ECONNRESET;
    mdx_say(client, "connecting to %s port %s: %s", client->host, client->port, strerror(error));
    close(fd);
    return -1;
}

static int connect_over_tcp(mondlexi_client *client, int64_t end, int *is_full) {
    struct addrinfo wanted = {.ai_family = AF_UNSPEC, .ai_socktype = SOCK_STREAM}, *all = NULL;
    int error = getaddrinfo(client->host, client->port, &wanted, &all);
    if (error) {
        mdx_say(client, "%s: %s", client->host, gai_strerror(error));
        return -1;
    }
    int fd = -1;
    for (const struct addrinfo *at = all; at && fd < 0; at = at->ai_next) {
        fd = connect_at(client, at, end, is_full);
    }
    freeaddrinfo(all);
    return fd;
}

/* A connection to a local socket. While as many wait there as the system lets wait, it tries again. */
static int connect_at_path(mondlexi_client *client, int64_t end) {
    struct sockaddr_un at = {.sun_family = AF_UNIX};
    memcpy(at.sun_path, client->path, strlen(client->path));
    int64_t pause = FIRST_PAUSE;
    for (;;) {
        int fd = socket(AF_UNIX, SOCK_STREAM | SOCK_CLOEXEC | SOCK_NONBLOCK, 0);
        if (fd >= 0 && !connect(fd, (const struct sockaddr *)&at, sizeof at)) {
            return fd;
        }
        int error = errno;
        if (fd >= 0) {
            close(fd);
        }
        mdx_say(client, "connecting to %s: %s", client->path, strerror(error));
        if (error != EINTR && (error != EAGAIN || !mdx_pause(client, &pause, end))) {
            return -1;
        }
    }
}

/* How many bytes a system call sent or received, 1 or more; what has to be waited for; or that the connection has ended. */
static int code_of(mondlexi_client *client, ssize_t count, int wait) {
    if (count > 0) {
        return (int)count;
    }
    if (count < 0 && (errno == EAGAIN || errno == EWOULDBLOCK || errno == EINTR)) {
        return wait;
    }
    mdx_say(client, "%s", count ? strerror(errno) : "the server closed the connection");
    return MONDLEXI_ENDED;
}

/* Waits for what a call has answered: 1. 0 if the connection has ended, or the time is over. */
static int wait_as_told(mondlexi_client *client, int code, int64_t end) {
    if (code != MONDLEXI_WAIT_TO_READ && code != MONDLEXI_WAIT_TO_WRITE) {
        if (client->stream) {
            mdx_say(client, "the stream has ended");
        }
        return 0;
    }
    if (mdx_now() >= end) {
        client->is_late = 1;
        mdx_say(client, "timed out");
        return 0;
    }
    return wait_for(client, client->fd, code == MONDLEXI_WAIT_TO_READ ? POLLIN : POLLOUT, end);
}

/* Begins a stream over the connection, and waits until it is ready. */
static int greet(mondlexi_client *client, int64_t end) {
    const mondlexi_streams *streams = client->options.streams;
    client->stream = streams->begin(streams->context, client->fd);
    if (!client->stream) {
        mdx_say(client, "the stream can't begin");
        return 0;
    }
    for (;;) {
        int code = streams->greet(client->stream);
        if (code >= 0) {
            return 1;
        }
        if (!wait_as_told(client, code, end)) {
            return 0;
        }
    }
}

/* `is_full`: whether the server reset the connection while it was made. */
int mdx_connect(mondlexi_client *client, int64_t end, int *is_full) {
    mdx_drop(client);
    *is_full = 0;
    client->fd = client->host[0] ? connect_over_tcp(client, end, is_full) : connect_at_path(client, end);
    if (client->fd >= 0 && client->options.streams && !greet(client, end)) {
        mdx_drop(client);
    }
    *is_full = *is_full && !client->options.streams;
    return client->fd >= 0;
}

static int send_some(mondlexi_client *client, const char *bytes, size_t count) {
    if (client->stream) {
        return client->options.streams->send(client->stream, bytes, (int)count);
    }
    return code_of(client, send(client->fd, bytes, count, MSG_NOSIGNAL), MONDLEXI_WAIT_TO_WRITE);
}

int mdx_send(mondlexi_client *client, const char *bytes, size_t count, int64_t end) {
    while (count) {
        int sent = send_some(client, bytes, count);
        if (sent > 0) {
            bytes += sent;
            count -= (size_t)sent;
        } else if (!wait_as_told(client, sent, end)) {
            return 0;
        }
    }
    return 1;
}

static int receive_some(mondlexi_client *client, char *bytes, size_t room) {
    if (client->stream) {
        return client->options.streams->receive(client->stream, bytes, (int)room);
    }
    return code_of(client, recv(client->fd, bytes, room, 0), MONDLEXI_WAIT_TO_READ);
}

/* Takes more of what the server has sent. The buffer must have room. */
int mdx_receive(mondlexi_client *client, int64_t end) {
    for (;;) {
        int came = receive_some(client, client->in + client->end, sizeof client->in - client->end);
        if (came > 0) {
            client->end += (size_t)came;
            client->is_silent = 0;
            return 1;
        }
        if (!wait_as_told(client, came, end)) {
            return 0;
        }
    }
}

/* Says QUIT, ends the writing side, and reads to the end; of a stream it reads what comes first. */
void mdx_goodbye(mondlexi_client *client, int64_t end) {
    if (!mdx_send(client, "QUIT\n", 5, end) || (!client->stream && shutdown(client->fd, SHUT_WR))) {
        return;
    }
    do {
        client->begin = client->end = 0;
    } while (mdx_receive(client, end) && !client->stream);
}

void mdx_drop(mondlexi_client *client) {
    if (client->stream) {
        client->options.streams->end(client->stream);
    }
    if (client->fd >= 0) {
        close(client->fd);
    }
    client->stream = NULL;
    client->fd = -1;
    client->begin = client->end = 0;
    client->is_silent = 1;
    client->is_late = 0;
}
