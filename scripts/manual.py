#!/usr/bin/python3
"""Writes the man page and the completions of fpk: `manual.py PROGRAM FOLDER`.

The commands, their words and options are those that `PROGRAM --help` shows; the statuses, the refusals and the files of an
installation are the tables of docs/GUIDE.md. FOLDER gets `fpk.1`, `fpk.bash`, `_fpk` (of zsh) and `fpk.fish`. The date on the
page is that of SOURCE_DATE_EPOCH, where it is set.
"""

import os
import re
import subprocess
import sys
import time

TOP = os.path.join(os.path.dirname(os.path.abspath(__file__)), "..")
# What the help says of itself, and the page otherwise.
OTHERWISE = {"This": "Help and version", "prints this": "prints every command"}
ROW = re.compile(r" *fpk ((?:-|[a-z])\S*(?: \S+)*?)  +(\S.*)$")


class Help:
    """What the help shows: its sections of forms, and what it says of their words."""

    def __init__(self, text):
        self.sections, self.words, self.notes = [("", [])], [], []
        for line in text.splitlines()[1:]:
            row = ROW.match(line)
            if row:
                self.sections[-1][1].append((row[1], row[2]))
            elif re.match(r"[A-Z][^.]*:$", line):
                self.sections.append((line[:-1], []))
            elif self.is_word(line):
                self.words.append(line.split(None, 1))
            elif self.words and line.startswith("  "):
                self.words[-1][1] += " " + line.strip()
            else:
                self.notes.append(line)
        self.sections = [it for it in self.sections if it[1]]
        self.options, self.rules = self.named(text)

    @staticmethod
    def is_word(line):
        return re.match(r"  [A-Z]+ {2,}\S", line) is not None

    def forms(self):
        """All forms. A word that may be left out has no brackets, and one that may come again stands once."""
        forms = [re.sub(r"[][]", "", form) for _, rows in self.sections for form, _ in rows]
        return [re.sub(r"\b([A-Z]+) \1\.\.", r"\1..", form) for form in forms]

    @staticmethod
    def named(text):
        """The options of a launch and an override, and the rules of the filter: those that the help names after its forms."""
        said = " ".join(line for line in text.splitlines() if not ROW.match(line))
        before, _, after = re.split(r"(A RULE is|\bRULE  )", said, maxsplit=1)
        return [list(dict.fromkeys(re.findall(r"--[a-z-]+=", it))) for it in (before, after)]

    def paragraphs(self):
        """What the help says at its end, a text for each paragraph."""
        return [" ".join(it.split()) for it in "\n".join(self.notes).split("\n\n") if it.strip()]

    def said_of(self, word):
        """The paragraph with this word."""
        return next(it for it in self.paragraphs() if word in it)


def table(guide, heading):
    """The rows of the first table from this heading of the guide on, the table's own heading left out."""
    rows = []
    for line in guide[guide.index(heading) :].splitlines():
        if line.startswith("| "):
            rows.append([cell.strip().replace("`", "") for cell in line.strip("|").split("|")])
        elif rows and not line.startswith("|"):
            return rows[1:]
    return rows[1:]


def roff(text):
    """A text as groff reads it."""
    text = text.replace("\\", "\\e").replace("-", "\\-")
    return "\\&" + text if text[:1] in (".", "'") else text


def entry(tag, text):
    """A tag with a paragraph of its own."""
    return [".TP", f".B {roff(tag)}", roff(text) if text else "\\&"]


def page(help_, guide, version):
    day = time.strftime("%Y-%m-%d", time.gmtime(int(os.environ.get("SOURCE_DATE_EPOCH", time.time()))))
    lines = [f'.TH FPK 1 {day} "{version}" "User commands"', ".nh", ".ad l", ".SH NAME"]
    lines += ["fpk \\- install applications of Flatpak from OSTree repositories"]
    lines += [".SH SYNOPSIS", ".B fpk", ".I COMMAND", ".RI [ WORD .. ]", ".SH DESCRIPTION"]
    lines += ["fpk keeps an installation of applications and runtimes. They come from folders that are OSTree repositories"]
    lines += ["of the mode", ".BR bare\\-user\\-only ,", "and their files are hard links of one store. A line is printed only"]
    lines += ["once the change stands on the disk. There are no signatures: use repositories of those whom you trust."]
    lines += [".SH COMMANDS"]
    for title, rows in help_.sections:
        lines += [f".SS {roff(OTHERWISE.get(title, title))}"] if title else []
        lines += [line for form, does in rows for line in entry(form, OTHERWISE.get(does, does))]
    if help_.words:
        lines += [".SH WORDS"] + [line for word, text in help_.words for line in entry(word, text)]
    folder = help_.said_of("FPK_INSTALLATION")
    lines += [".SH NOTES"] + [line for text in help_.paragraphs() if text != folder for line in (".PP", roff(text))]
    lines += [".SH EXIT STATUS"] + [line for row in table(guide, "| Status |") for line in entry(*row[:2])]
    lines += [".SH DIAGNOSTICS"]
    lines += [line for row in table(guide, "| Line | What it means |") for line in entry(row[0], f"{row[1]}. What helps: {row[2]}.")]
    lines += [".SH ENVIRONMENT"] + entry("FPK_INSTALLATION", folder)
    lines += [".SH FILES", "Below the folder of an installation:"]
    lines += [line for row in table(guide, "## Layout of an installation") for line in entry(*row[:2])]
    lines += [".SH SEE ALSO", ".BR ostree (1),", ".BR flatpak (1),", ".BR bwrap (1),", ".BR xdg\\-dbus\\-proxy (1)"]
    return "".join(line + "\n" for line in lines)


BASH = r"""# Completions of fpk for bash.
_fpk_at() {
    case $1 in
        install:REF) fpk list --remotes 2>/dev/null | sed -n "s|^$2 file://||p" | while IFS= read -r folder; do
                (cd "$folder/refs/heads" 2>/dev/null && find . -type f | sed -nE 's#^\./((app|runtime)/[A-Za-z0-9._/-]+)$#\1#p'); done ;;
        unpin:PATTERN) fpk list --pins 2>/dev/null ;;
        *:REF | *:PATTERN) fpk list 2>/dev/null | cut -d' ' -f1 ;;
        *:APP) fpk list 2>/dev/null | cut -d' ' -f1 | grep '^app/' ;;
        *:ID) fpk list 2>/dev/null | cut -d' ' -f1 | sed -n 's|^app/\([^/]*\)/.*|\1|p' ;;
        *:NAME | *:REMOTE) fpk list --remotes 2>/dev/null | cut -d' ' -f1 ;;
        *:--from=APP) fpk list 2>/dev/null | cut -d' ' -f1 | sed -n 's|^app/|--from=app/|p' ;;
        launch:OPTION..) printf '%s\n' @OPTIONS@ ;;
        *:OPTION..) printf '%s\n' @OPTIONS@ | grep -v '^--command=' ;;
        *:RULE..) printf '%s\n' @RULES@ ;;
        *:[a-z-]*) printf '%s\n' "${1#*:}" ;;
    esac
}

_fpk_after() {
    local form word
    while IFS= read -r form; do
        local first=${form%% *} repeats= fits=yes
        set -f; set -- $form; set +f
        for word in "${given[@]}"; do
            [[ $1 == *.. && $word != --*=* ]] && shift
            case $1 in
                *..) ;;
                --from=APP) [[ $word == --from=* ]] && shift || fits= ;;
                [A-Z]*) [[ $word != --* ]] && shift || fits= ;;
                *) [[ -n $1 && $word == "$1" ]] && shift || fits= ;;
            esac
            [[ $fits ]] || break
        done
        [[ $fits && $1 ]] && _fpk_at "$first:$1" "${given[1]}"
        [[ $fits && $1 == *.. && $2 ]] && _fpk_at "$first:$2"
    done <<'FORMS'
@FORMS@
FORMS
}

_fpk() {
    local given line=${COMP_LINE:0:COMP_POINT} word found
    read -ra given <<<"$line"
    [[ $line == *[[:blank:]] ]] && word= || { word=${given[-1]}; unset 'given[-1]'; }
    given=("${given[@]:1}")
    COMPREPLY=()
    while IFS= read -r found; do
        [[ $found == "$word"* ]] && COMPREPLY+=("$found")
    done < <(_fpk_after | sort -u)
    [[ ${#COMPREPLY[@]} == 1 && ${COMPREPLY[0]} == *= ]] && compopt -o nospace
    # Bash has cut the word at its last = or :, so what stands before goes.
    [[ $word == *[=:]* ]] && COMPREPLY=("${COMPREPLY[@]#"${word%"${word##*[=:]}"}"}")
    return 0
}
complete -F _fpk fpk
"""

ZSH = r"""#compdef fpk
# Completions of fpk for zsh: those of bash, asked for the words before the cursor.
@SHARED@
_fpk() {
    local -a given found
    given=("${(@)words[2,CURRENT-1]}")
    found=(${(f)"$(emulate ksh; _fpk_after | sort -u)"})
    compadd -S '' -- ${(M)found:#*=}
    compadd -- ${found:#*=}
}
_fpk "$@"
"""

FISH = r"""# Completions of fpk for fish.
function __fpk_installed
    fpk list 2>/dev/null | string split -f1 ' '
end

function __fpk_remotes
    fpk list --remotes 2>/dev/null | string split -f1 ' '
end

function __fpk_offered
    for row in (fpk list --remotes 2>/dev/null)
        set -l parts (string split -m1 ' ' $row)
        set -l heads (string replace 'file://' '' $parts[2])/refs/heads/
        test $parts[1] = $argv[1]; and find $heads -type f 2>/dev/null | string replace $heads ''
    end
end

function __fpk_at
    switch $argv[1]
        case install:REF
            __fpk_offered $argv[2]
        case unpin:PATTERN
            fpk list --pins 2>/dev/null
        case '*:REF' '*:PATTERN'
            __fpk_installed
        case '*:APP'
            __fpk_installed | string match 'app/*'
        case '*:ID'
            __fpk_installed | string match -rg '^app/([^/]*)/'
        case '*:NAME' '*:REMOTE'
            __fpk_remotes
        case '*:--from=APP'
            __fpk_installed | string match 'app/*' | string replace -r -- '^' '--from='
        case launch:OPTION..
            printf '%s\n' @OPTIONS@
        case '*:OPTION..'
            printf '%s\n' @OPTIONS@ | string match -v -- '--command=*'
        case '*:RULE..'
            printf '%s\n' @RULES@
        case '*'
            string match -rg '^[^:]*:([a-z-].*)' -- $argv[1]
    end
end

function __fpk_after
    set -l given (commandline -opc)[2..]
    for form in @FISHFORMS@
        set -l places (string split ' ' -- $form)
        set -l first $places[1]
        set -l fits yes
        for word in $given
            if string match -q '*..' -- "$places[1]"; and not string match -q -- '--*=*' $word
                set -e places[1]
            end
            if string match -q '*..' -- "$places[1]"
                continue
            else if test "$places[1]" = --from=APP; and string match -q -- '--from=*' $word
                set -e places[1]
            else if string match -qr '^[A-Z]' -- "$places[1]"; and not string match -q -- '--*' $word
                set -e places[1]
            else if test -n "$places[1]" -a "$places[1]" = "$word"
                set -e places[1]
            else
                set fits no
                break
            end
        end
        test $fits = yes; or continue
        set -q places[1]; and __fpk_at $first:$places[1] $given[2]
        string match -q '*..' -- "$places[1]"; and set -q places[2]; and __fpk_at $first:$places[2]
    end
end

complete -c fpk -f -a '(__fpk_after)'
"""


def filled(text, help_):
    """A completion with the words of the help."""
    values = {"OPTIONS": " ".join(help_.options), "RULES": " ".join(help_.rules), "FORMS": "\n".join(help_.forms())}
    values["FISHFORMS"] = " ".join(f"'{form}'" for form in help_.forms())
    for name, value in values.items():
        text = text.replace(f"@{name}@", value)
    return text


def main():
    program, folder = sys.argv[1:]
    ask = lambda word: subprocess.run([program, word], capture_output=True, check=True, text=True).stdout
    help_, version = Help(ask("--help")), ask("--version").strip()
    with open(os.path.join(TOP, "docs", "GUIDE.md"), encoding="utf-8") as file:
        guide = file.read()
    zsh = ZSH.replace("@SHARED@", BASH[BASH.index("_fpk_at") : BASH.index("_fpk() {")])
    texts = {"fpk.1": page(help_, guide, version), "fpk.bash": filled(BASH, help_), "_fpk": filled(zsh, help_)}
    texts["fpk.fish"] = filled(FISH, help_)
    for name, text in texts.items():
        with open(os.path.join(folder, name), "w", encoding="utf-8") as file:
            file.write(text)


if __name__ == "__main__":
    main()
