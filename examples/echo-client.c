/* README: asks the service `echo` through a Majordomo 0.1 broker, over a REQ socket of libzmq; a lost answer is asked for again.
 *
 *     cc -o echo-client echo-client.c -lzmq
 *     ./echo-client [tcp://127.0.0.1:5555 [COUNT]]
 */
#include <stdio.h>
#include <stdlib.h>
#include <string.h>
#include <zmq.h>

enum { TRIES = 3, WAIT = 2500 }; /* the wait is in milliseconds */

static void *connected(void *context, const char *address) {
    void *client = zmq_socket(context, ZMQ_REQ);
    int linger = 0;
    zmq_setsockopt(client, ZMQ_LINGER, &linger, sizeof linger);
    zmq_connect(client, address);
    return client;
}

/* Receives one frame as a text, cut to the size of `text`; 0 where it is the message's last. */
static int receive(void *client, char *text, size_t size) {
    int more = 0, got = zmq_recv(client, text, size - 1, 0);
    size_t length = sizeof more;
    text[got < 0 ? 0 : (size_t)got < size ? (size_t)got : size - 1] = '\0';
    zmq_getsockopt(client, ZMQ_RCVMORE, &more, &length);
    return more;
}

int main(int count_of_words, char **words) {
    const char *address = count_of_words > 1 ? words[1] : "tcp://127.0.0.1:5555";
    int count = count_of_words > 2 ? atoi(words[2]) : 3;
    void *context = zmq_ctx_new();
    void *client = connected(context, address);
    int status = 0;
    for (int number = 1; number <= count && status == 0; number++) {
        char body[32], frame[256];
        snprintf(body, sizeof body, "Hello %d", number);
        status = 1;
        for (int turn = 0; turn < TRIES && status == 1; turn++) {
            zmq_send(client, "MDPC01", 6, ZMQ_SNDMORE); /* the REQ socket puts the empty frame in front */
            zmq_send(client, "echo", 4, ZMQ_SNDMORE);
            zmq_send(client, body, strlen(body), 0);
            zmq_pollitem_t item = {client, 0, ZMQ_POLLIN, 0};
            if (zmq_poll(&item, 1, WAIT) > 0) {
                int more = receive(client, frame, sizeof frame); /* MDPC01 */
                if (more)
                    more = receive(client, frame, sizeof frame); /* the service */
                printf("reply");
                while (more) {
                    more = receive(client, frame, sizeof frame);
                    printf(" %s", frame);
                }
                printf("\n");
                fflush(stdout);
                status = 0;
            } else { /* a REQ socket that waits for a reply can't ask again */
                zmq_close(client);
                client = connected(context, address);
            }
        }
    }
    if (status)
        printf("no answer\n");
    zmq_close(client);
    zmq_ctx_term(context);
    return status;
}
