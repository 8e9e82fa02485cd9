#!/usr/bin/env python3
"""Echoes UDP and TCP on port 7 of each address: tests/kernel/echo_server.py ADDRESS..

A UDP packet to port 9 is answered with the address that it came from, and a connection to port 9 too. Prints "ready".
"""
import select
import socket
import sys
import threading

ECHO, TELL = 7, 9


def echo(sock):
    while data := sock.recv(1 << 16):
        sock.sendall(data)
    sock.close()


def tell(sock):
    sock.sendall(repr(sock.getpeername()[:2]).encode())
    sock.close()


def answer(sock, port):
    data, place = sock.recvfrom(1 << 16)
    sock.sendto(data if port == ECHO else repr(place[:2]).encode(), place)


def accept(server, port):
    serve = echo if port == ECHO else tell
    threading.Thread(target=serve, args=(server.accept()[0],), daemon=True).start()


def main(addresses):
    files = {}
    for addr in addresses:
        family = socket.AF_INET6 if ":" in addr else socket.AF_INET
        for port in (ECHO, TELL):
            files[socket.create_server((addr, port), family=family, backlog=64)] = accept, port
            sock = socket.socket(family, socket.SOCK_DGRAM)
            sock.setsockopt(socket.SOL_SOCKET, socket.SO_RCVBUF, 1 << 24)
            sock.bind((addr, port))
            files[sock] = answer, port
    print("ready", flush=True)
    while True:
        for file in select.select(list(files), [], [])[0]:
            take, port = files[file]
            take(file, port)


if __name__ == "__main__":
    main(sys.argv[1:])
