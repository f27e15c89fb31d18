/* README: a Majordomo 0.1 worker for the service `echo`, over a DEALER socket of libzmq: READY, heartbeats, and a new connection
 * where the broker is silent or says DISCONNECT. It ends behind COUNT answers, or never.
 *
 *     cc -o echo-worker echo-worker.c -lzmq
 *     ./echo-worker [tcp://127.0.0.1:5555 [COUNT]]
 */
#include <stdio.h>
#include <stdlib.h>
#include <string.h>
#include <time.h>
#include <zmq.h>

enum { INTERVAL = 2500, LIVENESS = 3 }; /* milliseconds between heartbeats, and how many may be missing */
enum { FRAMES = 260 };                  /* the broker's longest message has fewer */
enum { READY = 1, REQUEST = 2, REPLY = 3, HEARTBEAT = 4, DISCONNECT = 5 };

static long now(void) {
    struct timespec moment;
    clock_gettime(CLOCK_MONOTONIC, &moment);
    return moment.tv_sec * 1000 + moment.tv_nsec / 1000000;
}

/* The front of a command: the empty frame, the header and the command's byte. */
static void send_front(void *worker, char command, int more) {
    zmq_send(worker, "", 0, ZMQ_SNDMORE);
    zmq_send(worker, "MDPW01", 6, ZMQ_SNDMORE);
    zmq_send(worker, &command, 1, more ? ZMQ_SNDMORE : 0);
}

static void *connected(void *context, const char *address) {
    void *worker = zmq_socket(context, ZMQ_DEALER);
    int linger = 1000;
    zmq_setsockopt(worker, ZMQ_LINGER, &linger, sizeof linger);
    zmq_connect(worker, address);
    send_front(worker, READY, 1);
    zmq_send(worker, "echo", 4, 0);
    return worker;
}

/* Receives one message; gives the number of its frames. */
static int receive(void *worker, zmq_msg_t *frames) {
    int count = 0, more = 1;
    while (more && count < FRAMES) {
        zmq_msg_init(&frames[count]);
        zmq_msg_recv(&frames[count], worker, 0);
        more = zmq_msg_more(&frames[count]);
        count++;
    }
    return count;
}

/* Replies with the REQUEST's address and body. */
static void answer(void *worker, zmq_msg_t *frames, int count) {
    send_front(worker, REPLY, 1);
    for (int place = 3; place < count; place++)
        zmq_send(worker, zmq_msg_data(&frames[place]), zmq_msg_size(&frames[place]), place + 1 < count ? ZMQ_SNDMORE : 0);
}

int main(int count_of_words, char **words) {
    const char *address = count_of_words > 1 ? words[1] : "tcp://127.0.0.1:5555";
    int wanted = count_of_words > 2 ? atoi(words[2]) : 0, served = 0;
    void *context = zmq_ctx_new();
    void *worker = connected(context, address);
    long heard = now(), beat = now() + INTERVAL;
    while (wanted == 0 || served < wanted) {
        zmq_pollitem_t item = {worker, 0, ZMQ_POLLIN, 0};
        long wait = beat - now();
        int command = 0;
        if (zmq_poll(&item, 1, wait > 0 ? wait : 0) > 0) {
            zmq_msg_t frames[FRAMES];
            int count = receive(worker, frames);
            heard = now();
            if (count > 2 && zmq_msg_size(&frames[2]) == 1)
                command = *(char *)zmq_msg_data(&frames[2]);
            if (command == REQUEST && count > 4) {
                answer(worker, frames, count);
                served++;
            }
            for (int place = 0; place < count; place++)
                zmq_msg_close(&frames[place]);
        }
        if (command == DISCONNECT || now() > heard + INTERVAL * LIVENESS) {
            zmq_close(worker);
            worker = connected(context, address);
            heard = now();
            beat = now() + INTERVAL;
        } else if (now() >= beat) {
            send_front(worker, HEARTBEAT, 0);
            beat = now() + INTERVAL;
        }
    }
    send_front(worker, DISCONNECT, 0);
    zmq_close(worker);
    zmq_ctx_term(context);
    printf("served %d\n", served);
    return 0;
}
