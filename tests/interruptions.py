"""Reads of a program's input that a signal interrupts."""
import os
import signal
import socket
import struct
import time

TIMES = 4
SECONDS = 0.05


def interruptible():
    """Returns our end and a program's end of its input. A stop interrupts a read of the latter that waits: on Linux, it
    interrupts a read of a socket only if that has a time-out."""
    ours, theirs = socket.socketpair()
    theirs.setsockopt(socket.SOL_SOCKET, socket.SO_RCVTIMEO, struct.pack('@ll', 60, 0))
    return ours, theirs


def interrupt(run):
    """Stops and continues a program several times while it waits for input."""
    for _ in range(TIMES):
        time.sleep(SECONDS)
        run.send_signal(signal.SIGSTOP)
        os.waitpid(run.pid, os.WUNTRACED)
        run.send_signal(signal.SIGCONT)
    time.sleep(SECONDS)


def send_interrupted(run, ours, data):
    """Sends the input of a program and ends it, with interruptions after the first bytes."""
    ours.sendall(data[:9])
    interrupt(run)
    ours.sendall(data[9:])
    ours.shutdown(socket.SHUT_WR)
