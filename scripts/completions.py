#!/usr/bin/python3
"""Tries the completions of `scripts/manual.py` in bash, fish and zsh: `completions.py PROGRAM`.

It needs these three shells. PROGRAM, a built fpk, installs the demo in a folder of its own and pins a runtime. Then each shell
is asked what completes the lines below, and answers have to be those that stand beside them. The status is 0 where all did.
"""

import os
import shutil
import subprocess
import sys
import tempfile

SCRIPTS = os.path.dirname(os.path.abspath(__file__))
HELLO, PLATFORM, PINNED = "app/org.example.Hello/x86_64/1", "runtime/org.example.Platform/x86_64/1", "runtime/org.x.Platform/*/*"
LINES = {
    "fpk ins": ["install"],
    "fpk --v": ["--version"],
    "fpk install ": ["hub"],
    "fpk install hub a": [HELLO],
    "fpk export ": ["hub"],
    "fpk update ": [HELLO, PLATFORM],
    "fpk uninstall -": ["--unused"],
    "fpk rollback r": [PLATFORM],
    "fpk launch ": [HELLO],
    f"fpk launch {HELLO} --com": ["--command="],
    "fpk override --sha": ["--share="],
    "fpk override --com": [],
    "fpk override --share=network o": ["org.example.Hello"],
    "fpk override --reset ": ["org.example.Hello"],
    "fpk filter --fr": [f"--from={HELLO}"],
    "fpk filter --from=": [f"--from={HELLO}"],
    "fpk filter --system ": [f"--from={HELLO}"],
    "fpk filter --talk=org.x --ta": ["--talk="],
    "fpk list ": ["--exports", "--pins", "--remotes"],
    "fpk remote-delete ": ["hub"],
    "fpk remote-add lab ": [],
    "fpk pin r": [PLATFORM],
    "fpk unpin ": [PINNED],
    "fpk exercise ": [],
    "fpk show value ": [],
}
# Each shell has the line as its first argument. Outside of a completion bash has no compopt, and zsh no compadd.
BASH = """
. ./fpk.bash; compopt() { :; }; COMP_LINE=$1 COMP_POINT=${#1}; _fpk
for found in "${COMPREPLY[@]}"; do printf '%s\\n' "$found"; done
"""
ZSH = """
compadd() { while [[ $1 != -- ]]; do shift; done; shift; print -rl -- "$@"; }
words=("${(@s: :)1}"); CURRENT=$#words; word=$words[CURRENT]; . ./_fpk | while read -r found; do
    [[ $found = "$word"* ]] && print -r -- "$found"; done; true
"""
FISH = "source ./fpk.fish; complete -C $argv[1]"
SHELLS = {
    "bash": ["bash", "--norc", "-c", BASH, "bash"],
    "zsh": ["zsh", "-f", "-c", ZSH, "zsh"],
    "fish": ["fish", "--no-config", "-c", FISH],
}


def answers(shell, line, folder, environment):
    """What the shell answers for a line, each a whole word, in their order."""
    run = subprocess.run([*SHELLS[shell], line], cwd=folder, env=environment, capture_output=True, text=True, check=False)
    found = [it.split("\t")[0] for it in run.stdout.splitlines() if it]
    if shell == "bash":
        before = line.split(" ")[-1].rpartition("=")
        found = ["".join(before[:2]) + it for it in found]
    return sorted(found), run.stderr


def main():
    if len(sys.argv) != 2:
        sys.exit(__doc__)
    amiss = 0
    with tempfile.TemporaryDirectory() as folder:
        program = shutil.copy(sys.argv[1], f"{folder}/fpk")
        environment = {"PATH": f"{folder}:{os.environ['PATH']}", "HOME": folder, "FPK": program, "FPK_INSTALLATION": f"{folder}/here"}
        quiet = {"env": environment, "check": True, "stdout": subprocess.DEVNULL}
        subprocess.run(["sh", f"{SCRIPTS}/../demo/start.sh"], **quiet)
        subprocess.run([program, "pin", PINNED], **quiet)
        subprocess.run([sys.executable, f"{SCRIPTS}/manual.py", program, folder], **quiet)
        for shell in SHELLS:
            for line, expected in LINES.items():
                found, said = answers(shell, line, folder, environment)
                if found != sorted(expected) or said:
                    amiss += 1
                    print(f"{shell}: {line!r}: {found}, and not {sorted(expected)}", *[f"    {it}" for it in said.splitlines()], sep="\n")
    print(f"{len(LINES)} lines were completed by {', '.join(SHELLS)}; {amiss} amiss")
    return int(amiss > 0)


if __name__ == "__main__":
    sys.exit(main())
