/* A ring of 4,096 words between two threads, published and released in batches of 64: the same
   work as the proved queue does, by hand in C11 atomics. The indices are sequentially consistent;
   SLOT is the order of the slots. The only argument is the number of words. */
#include <pthread.h>
#include <stdatomic.h>
#include <stdint.h>
#include <stdio.h>
#include <stdlib.h>
#include <time.h>

#ifndef SLOT
#define SLOT memory_order_seq_cst
#endif

enum { CAPACITY = 4096, BATCH = 64 };

static _Atomic uint64_t tail, head;
static _Atomic uint64_t ring[CAPACITY];
static uint64_t count;

static const uint64_t kind_and_site = ((uint64_t)2 << 60) | ((uint64_t)1 << 44);
static const uint64_t value_bits = ((uint64_t)1 << 44) - 1;

static void *send_all(void *unused)
{
    uint64_t published = 0, released = 0;
    (void)unused;
    for (uint64_t sent = 0; sent < count;) {
        while (sent - released == CAPACITY) {
            atomic_store(&tail, 2 * sent);
            published = sent;
            released = atomic_load(&head) / 2;
        }
        atomic_store_explicit(&ring[sent % CAPACITY], kind_and_site | sent, SLOT);
        sent++;
        if (sent - published >= BATCH) {
            atomic_store(&tail, 2 * sent);
            published = sent;
        }
    }
    atomic_store(&tail, 2 * count + 1);
    return NULL;
}

static void *receive_all(void *in_order)
{
    uint64_t released = 0, published = 0;
    for (uint64_t received = 0; received < count;) {
        while (received == published) {
            atomic_store(&head, 2 * received);
            released = received;
            published = atomic_load(&tail) / 2;
        }
        uint64_t word = atomic_load_explicit(&ring[received % CAPACITY], SLOT);
        if ((word & value_bits) != received)
            *(int *)in_order = 0;
        received++;
        if (received - released >= BATCH) {
            atomic_store(&head, 2 * received);
            released = received;
        }
    }
    return NULL;
}

int main(int argc, char **argv)
{
    struct timespec start, end;
    pthread_t sender, receiver;
    int in_order = 1;
    count = argc > 1 ? strtoull(argv[1], NULL, 10) : 100000;
    clock_gettime(CLOCK_MONOTONIC, &start);
    if (pthread_create(&sender, NULL, send_all, NULL) ||
        pthread_create(&receiver, NULL, receive_all, &in_order))
        return 1;
    pthread_join(sender, NULL);
    pthread_join(receiver, NULL);
    clock_gettime(CLOCK_MONOTONIC, &end);
    double seconds = (end.tv_sec - start.tv_sec) + (end.tv_nsec - start.tv_nsec) / 1e9;
    printf("%.0f words a second%s\n", count / seconds, in_order ? "" : ", out of order");
    return !in_order;
}
