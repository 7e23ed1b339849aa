#!/usr/bin/env python3
"""transfer.py FOLDER: two processes pass money to each other, and each records its stream in FOLDER.

`left` sends 30 to `right`, which sends 10 back. Each takes the money off its account when it sends it, so that it is
on no account while the message is on its way."""
import multiprocessing
import os
import sys

from recorder import Recorder


def left(channel, path):
    recorder, money = Recorder("left", path), 100
    money -= 30
    channel.send((recorder.send(money=money), 30))
    message, amount = channel.recv()
    money += amount
    recorder.receive(message, money=money)
    recorder.end()


def right(channel, path):
    recorder, money = Recorder("right", path), 0
    message, amount = channel.recv()
    money += amount
    recorder.receive(message, money=money)
    money -= 10
    channel.send((recorder.send(money=money), 10))
    recorder.event()  # something that changes no variable
    recorder.end()


if __name__ == "__main__":
    folder = sys.argv[1]
    ends = multiprocessing.Pipe()
    workers = [multiprocessing.Process(target=run, args=(end, os.path.join(folder, f"{run.__name__}.stream")))
               for run, end in zip((left, right), ends)]
    for worker in workers:
        worker.start()
    for worker in workers:
        worker.join()
