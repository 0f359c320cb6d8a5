#!/usr/bin/python3
"""Writes the descriptions of the demo's trees, `demo/*.tree`, or with `--check` says which of them differ.

The runtime has one program, `say`, which prints its first argument and ends. It needs no library: its 35 bytes of code call
Linux on x86-64 themselves. The application is a text that begins with `#!/usr/bin/say`, so Linux gives `say` the rest of that
line. Both start in a sandbox that has the runtime and nothing else.
"""

import os
import struct
import sys

DEMO = os.path.join(os.path.dirname(os.path.abspath(__file__)), "..", "demo")
# What each instruction is, and its bytes.
SAY = [
    ("mov rsi, [rsp + 16]", "48 8b 74 24 10"),
    ("xor edx, edx", "31 d2"),
    ("next: cmp byte [rsi + rdx], 1", "80 3c 16 01"),
    ("inc edx", "ff c2"),
    ("jnc next", "73 f8"),
    ("mov byte [rsi + rdx - 1], 10", "c6 44 16 ff 0a"),
    ("push 1; pop rdi; push 1; pop rax", "6a 01 5f 6a 01 58"),
    ("syscall, which is write", "0f 05"),
    ("push 60; pop rax; xor edi, edi", "6a 3c 58 31 ff"),
    ("syscall, which is exit", "0f 05"),
]
PLATFORM = """\
[Runtime]
name=org.example.Platform
runtime=org.example.Platform/x86_64/1
sdk=org.example.Platform/x86_64/1
"""
HELLO = """\
[Application]
name=org.example.Hello
runtime=org.example.Platform/x86_64/1
command=hello

[Context]
shared=network;
sockets=wayland;
"""


def program(code):
    """A program of one segment: the headers of ELF for 64 bits, then the code."""
    place, headers = 0x400000, 64 + 56
    start = struct.pack("<16sHHIQQQIHHHHHH", b"\x7fELF\x02\x01\x01", 2, 62, 1, place + headers, 64, 0, 0, 64, 56, 1, 64, 0, 0)
    size = headers + len(code)
    return start + struct.pack("<IIQQQQQQ", 1, 5, 0, place, place, size, size, 4096) + code


def description(time, subject, files):
    """A description with these files: path, permission bits and bytes of each."""
    lines = [f"timestamp {time}", f"subject {subject}"]
    lines += [f"file {path} {bits} {content.hex()}" for path, bits, content in files]
    return "".join(line + "\n" for line in lines)


def hello(time, version, greeting):
    text = f"#!/usr/bin/say {greeting}\n"
    return description(
        time,
        f"Hello {version}",
        [("metadata", "644", HELLO.encode()), ("files/bin/hello", "755", text.encode())],
    )


def trees():
    say = program(b"".join(bytes.fromhex(code) for _, code in SAY))
    platform = [("metadata", "644", PLATFORM.encode()), ("files/bin/say", "755", say)]
    return {
        "platform.tree": description(1793491200, "Platform 1", platform),
        "hello.tree": hello(1793577600, "1.0", "Hello"),
        "hello-1.1.tree": hello(1793664000, "1.1", "Hello again"),
    }


def main():
    differ = 0
    for name, text in trees().items():
        path = os.path.join(DEMO, name)
        if sys.argv[1:] == ["--check"]:
            with open(path, encoding="ascii") as file:
                same = file.read() == text
            differ += not same
            print(f"{name}: {'as written' if same else 'differs'}")
        else:
            with open(path, "w", encoding="ascii") as file:
                file.write(text)
    return int(differ > 0)


if __name__ == "__main__":
    sys.exit(main())
