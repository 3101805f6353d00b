"""Stands for a mail server, on a machine of a test: takes a letter, and writes into a file what its
client sent.

  mail_server.py FILE
"""
import socket
import sys


def main(path):
    with socket.create_server(("127.0.0.1", 25)) as listener, open(path, "wb") as file:
        client, _ = listener.accept()
        with client, client.makefile("rb") as stream:
            client.sendall(b"220 mail.example.org\r\n")
            is_letter = False
            for line in stream:
                file.write(line)
                file.flush()
                is_letter = line == b"DATA\r\n" or is_letter and line != b".\r\n"
                if line == b"DATA\r\n":
                    client.sendall(b"354 the letter\r\n")
                elif not is_letter:
                    client.sendall(b"250 mail.example.org\r\n")


if __name__ == "__main__":
    main(sys.argv[1])
