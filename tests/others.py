#!/usr/bin/env python3
"""What other servers answer to the rows of asgi_hostile_tests: nginx, Apache httpd and uvicorn (with h11), as Debian has them.

Usage: others.py. Prints a table: for each row its name, the statuses that its expected answer has, and those of each server, in
order. `200 200` to a row that ends with `/evil`: that request is answered as one of its own. `-` is no answer, `..` a connection
that is left open, `cut` a response that ends early, and `(a text)` what is no response of HTTP/1.1. Apache's 404 is of a path that
has no file. Then it prints the table of docs/HOSTILE.md: of each file how many rows it has, and for each server how many of
those that are refused here it serves, and in how many of these it also answers `/evil`.
It is no part of the gate: these servers change, and no expected value is taken from them. It installs what is missing by
apt-get. nginx answers by `return 200`, Apache by a file, and uvicorn by an application that reads the whole body; the first two
discard bodies.
"""

import ast
import os
import re
import socket
import subprocess
import tempfile
from concurrent.futures import ThreadPoolExecutor

import packages
from servers import free_port, listens, wait_for

TOP = os.path.dirname(os.path.dirname(os.path.realpath(__file__)))
PACKAGES = {"nginx": "nginx-light", "apache2": "apache2", "uvicorn": "uvicorn"}
FILES = ["lengths", "lines", "chunks", "others", "targets"]
# How long a server is waited for that says nothing and does not close.
SILENCE = 0.7
LITERAL = r'b"(?:[^"\\]|\\.)*"'
# The texts that rows name and that stand elsewhere.
KNOWN = {"POST": b"POST / HTTP/1.1\r\nHost: a\r\n", "END": b"\r\n"}
APP = """
async def app(scope, receive, send):
    if scope["type"] != "http":
        return
    while (await receive()).get("more_body"):
        pass
    path = scope["path"].encode()
    await send({"type": "http.response.start", "status": 200, "headers": [(b"content-length", b"%d" % len(path))]})
    await send({"type": "http.response.body", "body": path})
"""
NGINX = "daemon off;pid {0}/pid;error_log {0}/errors;events{{}}http{{access_log off;client_body_temp_path {0}/b;proxy_temp_path {0}/p;"
NGINX += "fastcgi_temp_path {0}/f;uwsgi_temp_path {0}/u;scgi_temp_path {0}/s;server{{listen 127.0.0.1:{1};location /{{return 200 x;}}}}}}"
APACHE = """ServerRoot {0}
PidFile {0}/pid
ServerName a
Listen 127.0.0.1:{1}
LoadModule mpm_event_module /usr/lib/apache2/modules/mod_mpm_event.so
LoadModule authz_core_module /usr/lib/apache2/modules/mod_authz_core.so
LoadModule dir_module /usr/lib/apache2/modules/mod_dir.so
ErrorLog {0}/errors
DocumentRoot {0}/files
DirectoryIndex index
"""


def texts_in(source):
    """The constants of a file that are bytes, by name."""
    found = re.findall(rf"const (\w+): &\[u8\] =\s*({LITERAL});", source)
    return {name: ast.literal_eval(text) for name, text in found}


def rows_of(file):
    """The rows of a file of tests: the name, the bytes, and the statuses of the expected answer."""
    folder = f"{TOP}/crates/asgi_hostile_tests/src"
    with open(f"{folder}/{file}.rt", encoding="utf-8") as it:
        source = it.read()
    with open(f"{folder}/rows.rt", encoding="utf-8") as it:
        shared = it.read()
    texts = {**KNOWN, **texts_in(shared), **texts_in(source)}
    row = rf'\(\s*"((?:[^"\\]|\\.)*)",\s*&\[((?:\s*(?:{LITERAL}|\w+),?)*)\s*\],\s*(\w+|\()'
    for name, parts, answer in re.findall(row, re.sub(r"^\s*//.*$", "", source, flags=re.M)):
        given = [ast.literal_eval(it) if it[0] == "b" and '"' in it else texts[it] for it in re.findall(rf"{LITERAL}|\w+", parts)]
        yield name, b"".join(given), ANSWERS[answer]


ANSWERS = {"BAD": "400", "UNKNOWN": "501", "ONE": "200", "ONE_AND_BAD": "200 400", "TWO": "200 200", "OPEN": "-", "BROKEN": "200", "(": "200 200"}
ANSWERS |= {"AB": "200 200", "EMPTY": "200 200", "FAULTY": "400", "TOO_MUCH": "413", "AB_FAULTY": "200 cut", "CRLF_FAULTY": "200 cut", "TWO_ENDS": "200 400"}


class Server:
    """A server in a folder of its own."""

    def __init__(self, room, name):
        self.port, self.folder = free_port(), f"{room}/{name}"
        os.makedirs(f"{self.folder}/files")
        os.chmod(room, 0o755)
        for file, text in (("files/index", "x"), ("files/evil", "y"), ("app.py", APP), ("nginx", NGINX), ("apache2", APACHE)):
            with open(f"{self.folder}/{file}", "w", encoding="utf-8") as it:
                it.write(text.format(self.folder, self.port) if file == name else text)
        words = {"nginx": ["nginx", "-c", f"{self.folder}/nginx"], "apache2": ["apache2", "-f", f"{self.folder}/apache2", "-DFOREGROUND"]}
        words["uvicorn"] = ["uvicorn", "--http", "h11", "--port", str(self.port), "--log-level", "critical", "app:app"]
        how = {"cwd": self.folder, "stdin": subprocess.DEVNULL, "stdout": subprocess.DEVNULL, "stderr": subprocess.DEVNULL}
        self.ran = subprocess.Popen(words[name], **how)
        wait_for(lambda: listens(self.port), f"{name} does not listen")

    def ask(self, given):
        """What is answered to these bytes, and whether the connection was closed then."""
        answer = b""
        try:
            with socket.create_connection(("127.0.0.1", self.port), timeout=SILENCE) as line:
                line.sendall(given)
                while piece := line.recv(1 << 16):
                    answer += piece
        except TimeoutError:
            return answer, False
        except OSError:
            pass
        return answer, True


def statuses(answer, closed):
    """The statuses of an answer, in order."""
    found, text = [], answer
    while head := re.match(rb"HTTP/1\.[01] (\d\d\d).*?\r\n\r\n", text, re.DOTALL):
        fields, text = head[0].lower(), text[head.end() :]
        found.append(head[1].decode())
        length = re.search(rb"\r\ncontent-length: *(\d+)\r\n", fields)
        if length:
            text = text[int(length[1]) :]
        elif b"\r\ntransfer-encoding: chunked" in fields:
            text = text.partition(b"\r\n0\r\n\r\n")[2] if not text.startswith(b"0\r\n\r\n") else text[5:]
        elif found[-1] != "100":
            text = b""
    found += ["(a text)"] if text else []
    return " ".join(found or ["-"]) + ("" if closed or found else " ..")


def is_served(answer):
    """Whether the first request was answered by its content, in HTTP/1.1 or not."""
    return answer.startswith(("200", "(a text)"))


def sums(rows, answers, at):
    """Of the rows that are refused here, how many the server at this place serves, and in how many of these `/evil` too."""
    served = [got[at] for (_, _, wanted), got in zip(rows, answers) if wanted[0] in "45" and is_served(got[at])]
    return f"{len(served)}, {sum(it.startswith('200 200') for it in served)}"


def main():
    packages.install(lambda: packages.of(PACKAGES))
    with tempfile.TemporaryDirectory() as room, ThreadPoolExecutor(8) as pool:
        found, told = [], []
        try:
            for name in PACKAGES:
                found.append(Server(room, name))
            print("| row | here |", " | ".join(PACKAGES), "|")
            print("|---" * (2 + len(found)) + "|")
            for file in FILES:
                rows = list(rows_of(file))
                answers = list(pool.map(lambda row: [statuses(*it.ask(row[1])) for it in found], rows))
                print(f"| **{file}.rt** |" + " |" * (1 + len(found)))
                for (name, _, wanted), got in zip(rows, answers):
                    print(f"| {name} | {wanted} | {' | '.join(got)} |")
                told.append(f"| `{file}.rt` | {len(rows)} | {' | '.join(sums(rows, answers, at) for at in range(len(found)))} |")
            print("", "| file | rows | " + " | ".join(PACKAGES) + " |", "|---" * (2 + len(found)) + "|", *told, sep="\n")
        finally:
            for it in found:
                it.ran.terminate()
                it.ran.wait(10)


if __name__ == "__main__":
    main()
