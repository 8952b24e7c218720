#!/usr/bin/env python3
"""Times the messages of a pipeline beside a ring of pointers in C.

    tools/bench_pipe.py [--count N] [--runs N] [--senders K,..] [--balloc PROGRAM]

Run it when pipes, shelves or the rounds of `pipe` have changed, for the figures of docs/PERFORMANCE.md. Each of K senders
sends N messages (count, at most 100,000) of three words to one receiver, which folds the words of each sender and frees the
block:

    pipe      `balloc pipe K N START`
    ring      the same in C: a block of malloc a message, and a bounded ring of pointers with room for 8 of
              each sender (C11 atomics, acquire and release), over each allocator of the machine; the threads
              live until all is sent
    rounds    the same ring over glibc, but in rounds as those of `pipe`: in each of them a thread is started
              for each sender, which sends 8 messages, and is joined, and the receiver receives beside them
    threads   the threads of these rounds alone, with nothing sent

All of them print the same text, but `threads`; a run stops where one prints another. A figure is what a
message takes, all senders together.
"""
import argparse
import sys
import tempfile

import timed

START = "7"
SPOKEN_OF = ["pipe", "glibc", "rounds"]

RING = r"""
#include <inttypes.h>
#include <pthread.h>
#include <sched.h>
#include <stdatomic.h>
#include <stdio.h>
#include <stdlib.h>
#include <string.h>

enum { PER_ROUND = 8, MOST_SENDERS = 4 };

typedef struct {
    uint64_t sender, word[3];
} message;

/* A slot's stamp is its ticket while it is empty, and one more while it is full. */
typedef struct {
    _Atomic uint64_t stamp;
    message *held;
} slot;

static struct {
    _Alignas(128) _Atomic uint64_t tail;
    _Alignas(128) uint64_t head;
    _Alignas(128) uint64_t room;
    slot slots[PER_ROUND * MOST_SENDERS];
} ring;

static uint64_t senders, messages, start;
static int no_messages;

static int push(message *m)
{
    uint64_t ticket = atomic_load_explicit(&ring.tail, memory_order_relaxed);
    for (;;) {
        slot *s = &ring.slots[ticket % ring.room];
        uint64_t stamp = atomic_load_explicit(&s->stamp, memory_order_acquire);
        if (stamp == ticket) {
            if (atomic_compare_exchange_weak_explicit(&ring.tail, &ticket, ticket + 1, memory_order_relaxed, memory_order_relaxed)) {
                s->held = m;
                atomic_store_explicit(&s->stamp, ticket + 1, memory_order_release);
                return 1;
            }
        } else if (stamp < ticket) {
            return 0;
        } else {
            ticket = atomic_load_explicit(&ring.tail, memory_order_relaxed);
        }
    }
}

static message *pop(void)
{
    slot *s = &ring.slots[ring.head % ring.room];
    if (atomic_load_explicit(&s->stamp, memory_order_acquire) != ring.head + 1)
        return NULL;
    message *m = s->held;
    atomic_store_explicit(&s->stamp, ring.head + ring.room, memory_order_release);
    ring.head++;
    return m;
}

typedef struct {
    _Alignas(128) uint64_t number, sent, until;
    pthread_t thread;
} sender;

static sender all[MOST_SENDERS];
static uint64_t taken, fold[MOST_SENDERS];

static void *send_until(void *of)
{
    sender *s = of;
    if (no_messages)
        return of;
    for (; s->sent < s->until; s->sent++) {
        message *m;
        while (!(m = malloc(sizeof *m)))
            sched_yield();
        m->sender = s->number;
        for (uint64_t i = 0; i < 3; i++)
            m->word[i] = start + 1000 * s->number + s->sent + i;
        while (!push(m))
            sched_yield();
    }
    return of;
}

static int receive(void)
{
    message *m = pop();
    if (!m)
        return 0;
    for (int i = 0; i < 3; i++)
        fold[m->sender] = fold[m->sender] * 31 + m->word[i];
    free(m);
    taken++;
    return 1;
}

static void begin(uint64_t until)
{
    for (uint64_t k = 0; k < senders; k++) {
        all[k].until = until;
        if (pthread_create(&all[k].thread, NULL, send_until, &all[k]))
            exit(6);
    }
}

static void join(void)
{
    for (uint64_t k = 0; k < senders; k++)
        pthread_join(all[k].thread, NULL);
}

int main(int words, char **word)
{
    if (words != 5)
        return 2;
    senders = strtoull(word[2], NULL, 10);
    messages = strtoull(word[3], NULL, 10);
    start = strtoull(word[4], NULL, 10);
    if (senders < 1 || senders > MOST_SENDERS)
        return 2;
    no_messages = !strcmp(word[1], "threads");
    ring.room = PER_ROUND * senders;
    for (uint64_t i = 0; i < ring.room; i++)
        ring.slots[i].stamp = i;
    for (uint64_t k = 0; k < senders; k++)
        all[k].number = k;
    if (!strcmp(word[1], "ring")) {
        begin(messages);
        while (taken < senders * messages)
            if (!receive())
                sched_yield();
        join();
    } else {
        for (uint64_t sent = 0; sent < messages; sent += PER_ROUND) {
            begin(sent + PER_ROUND < messages ? sent + PER_ROUND : messages);
            while (receive()) {
            }
            join();
        }
        while (receive()) {
        }
    }
    printf("pipe %" PRIu64 " %" PRIu64 " %" PRIu64 "\n", senders, messages, start);
    for (uint64_t k = 0; k < senders; k++)
        printf("sender %" PRIu64 " sent %" PRIu64 " fold %" PRIu64 "\n", k, all[k].sent, fold[k]);
    printf("live 0 words 0\n");
    return 0;
}
"""


def programs_of(balloc, ring, senders):
    """What is timed, by its name."""
    def in_c(mode, library):
        return lambda count: ([ring, mode, str(senders), str(count), START], library)

    programs = {}
    if balloc:
        programs["pipe"] = lambda count: ([balloc, "pipe", str(senders), str(count), START], None)
    for name, library in timed.allocators().items():
        programs[name] = in_c("ring", library)
    programs["rounds"] = in_c("rounds", None)
    programs["threads"] = in_c("threads", None)
    return programs


def main():
    parser = argparse.ArgumentParser(description=__doc__.split("\n")[0])
    parser.add_argument("--count", type=int, default=100_000)
    parser.add_argument("--runs", type=int, default=7)
    parser.add_argument("--senders", type=timed.numbers, default=[1, 2, 4])
    parser.add_argument("--balloc", help="the program balloc, where it lies elsewhere; - leaves it out")
    said = parser.parse_args()
    balloc = None if said.balloc == "-" else said.balloc or timed.program_of("balloc", ["pipe", "1", "1", "1"])
    print(timed.heading(said))
    with tempfile.TemporaryDirectory() as folder:
        ring = timed.compiled(RING, "ring", folder)
        for senders in said.senders:
            programs = programs_of(balloc, ring, senders)
            taken, last = timed.figures(programs, said.count, said.runs)
            texts = {name: run.text for name, run in last.items() if name != "threads"}
            if len(set(texts.values())) != 1:
                sys.exit(f"not all print the same with {senders} senders: {texts}")
            if senders == said.senders[0]:
                print(timed.table_head(["senders", *programs, *(f"{name}, messages a second" for name in programs if name in SPOKEN_OF)]))
            a_message = {name: figure.of_each(senders) for name, figure in taken.items()}
            a_second = [f"{1e9 / a_message[name].clock:,.0f}" for name in programs if name in SPOKEN_OF]
            print(timed.row([senders, *a_message.values(), *a_second]), flush=True)


if __name__ == "__main__":
    main()
