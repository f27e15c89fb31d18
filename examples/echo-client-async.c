/* README: asks the service `echo` many times at once through a Majordomo 0.1 broker, over a DEALER socket of libzmq.
 *
 *     cc -o echo-client-async echo-client-async.c -lzmq
 *     ./echo-client-async [tcp://127.0.0.1:5555 [COUNT]]
 */
#include <stdio.h>
#include <stdlib.h>
#include <string.h>
#include <zmq.h>

enum { WAIT = 5000 }; /* milliseconds */

int main(int count_of_words, char **words) {
    const char *address = count_of_words > 1 ? words[1] : "tcp://127.0.0.1:5555";
    int count = count_of_words > 2 ? atoi(words[2]) : 100;
    void *context = zmq_ctx_new();
    void *client = zmq_socket(context, ZMQ_DEALER);
    int linger = 0, answered = 0;
    zmq_setsockopt(client, ZMQ_LINGER, &linger, sizeof linger);
    zmq_connect(client, address);
    for (int number = 0; number < count; number++) {
        char body[32];
        snprintf(body, sizeof body, "Hello %d", number);
        zmq_send(client, "", 0, ZMQ_SNDMORE); /* a DEALER socket puts nothing in front */
        zmq_send(client, "MDPC01", 6, ZMQ_SNDMORE);
        zmq_send(client, "echo", 4, ZMQ_SNDMORE);
        zmq_send(client, body, strlen(body), 0);
    }
    while (answered < count) {
        zmq_pollitem_t item = {client, 0, ZMQ_POLLIN, 0};
        if (zmq_poll(&item, 1, WAIT) <= 0)
            break;
        int more = 1;
        size_t length = sizeof more;
        while (more) {
            char frame[256];
            if (zmq_recv(client, frame, sizeof frame, 0) < 0)
                break;
            zmq_getsockopt(client, ZMQ_RCVMORE, &more, &length);
        }
        answered++;
    }
    printf("%d replies\n", answered);
    zmq_close(client);
    zmq_ctx_term(context);
    return answered == count ? 0 : 1;
}
