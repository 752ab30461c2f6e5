#!/usr/bin/env python3
"""A service that greets, and its client: greet.py PORT listens, greet.py ADDRESS PORT connects and prints what it is told."""
import socket
import sys

if len(sys.argv) == 2:
    with socket.create_server(("", int(sys.argv[1]))) as server:
        print("listening", flush=True)
        while True:
            connection, client = server.accept()
            with connection:
                connection.sendall(f"hello from booth to {client[0]}\n".encode())
else:
    with socket.create_connection((sys.argv[1], int(sys.argv[2])), timeout=5) as connection:
        print(connection.makefile().read(), end="")
