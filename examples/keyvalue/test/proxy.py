"""Links that lose and repeat frames: usage: proxy.py HOST FROM:TO.. LOSE REPEAT

Each datagram for port FROM goes on to port TO. LOSE and REPEAT are per mille. A frame that is repeated comes again
within half a second, so behind later ones. At the end of standard input it writes how many frames came, were lost and
were repeated.
"""
import heapq
import random
import select
import socket
import sys
import time

LATEST = 0.5  # seconds


def main(host, *words):
    *routes, lose, repeat = words
    out, ways, waiting = socket.socket(socket.AF_INET, socket.SOCK_DGRAM), {}, []
    for route in routes:
        came, _, to = route.partition(":")
        listening = socket.socket(socket.AF_INET, socket.SOCK_DGRAM)
        listening.bind((host, int(came)))
        listening.setblocking(False)
        ways[listening] = (host, int(to))
    frames = lost = repeated = 0
    while True:
        left = waiting[0][0] - time.monotonic() if waiting else 60.0
        ready, _, _ = select.select([sys.stdin, *ways], [], [], max(0.0, left))
        for it in ready:
            if it is sys.stdin:
                print(frames, lost, repeated)
                return
            frame, to = it.recv(2048), ways[it]
            draw, frames = random.randrange(1000), frames + 1
            if draw < int(lose):
                lost += 1
                continue
            out.sendto(frame, to)
            if draw >= 1000 - int(repeat):
                repeated += 1
                heapq.heappush(waiting, (time.monotonic() + random.uniform(0, LATEST), frames, frame, to))
        while waiting and waiting[0][0] <= time.monotonic():
            out.sendto(*heapq.heappop(waiting)[2:])


if __name__ == "__main__":
    main(*sys.argv[1:])
