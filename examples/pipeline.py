#!/usr/bin/env python3
"""Thirty-six threads in four stages pass texts on by queues, as a server does that reads, changes and answers.

A thread makes a new text of each that it gets, so it frees what another thread made. With PYTHONMALLOC=malloc each text
is a block of malloc. The word behind the name is the number of texts.
"""
import queue
import random
import sys
import threading

STAGES, THREADS, UNDER_WAY = 4, 9, 36


def work(inbox, outbox):
    """Passes on each text, one letter longer. The empty one is the end."""
    while text := inbox.get():
        outbox.put(text + "x")


def main(texts):
    """Keeps UNDER_WAY texts under way."""
    numbers = random.Random(1)
    queues = [queue.Queue() for _ in range(STAGES + 1)]
    for inbox, outbox in zip(queues, queues[1:]):
        for _ in range(THREADS):
            threading.Thread(target=work, args=(inbox, outbox)).start()
    letters = 0
    for number in range(texts + UNDER_WAY):
        if number < texts:
            queues[0].put("a" * numbers.randrange(40_000, 120_000))
        if number >= UNDER_WAY:
            letters += len(queues[-1].get())
    for inbox in queues[:-1]:
        for _ in range(THREADS):
            inbox.put("")
    print(f"{texts} texts, {letters} letters")


main(int(sys.argv[1]))
