#!/usr/bin/env python3
"""Compares a commit that ost_commit builds, and the store that it is exported into, with those of the real `ostree` command.

    scripts/ostree_commits.py [FPK]

With FPK, the program that was built, `export` makes a remote of a description of 2,000 files and links. Without it, a program that
stands below exports the same commit into a store on a real folder, over a copy of the repository, which takes some minutes. Then
`ostree` has to find no fault in the store, to list and to check out what the tree has, to bring the commit into another repository,
and to give the same digest to a commit of the same tree, subject and time. With FPK, a runtime is installed from a remote that was
made, too; a description of 40,000 names is taken, with the time and the memory that this takes, and one of 40,001 names refused at
its last line. It needs Debian's package ostree. Modes are within 0755 here: `ostree commit` into a repository of the mode
bare-user-only takes the group's right to write away, where our rows keep it.
"""
import os
import pathlib
import shlex
import shutil
import subprocess
import sys
import tempfile
import time

TOP = pathlib.Path(__file__).resolve().parent.parent
REF = "app/org.example.App/x86_64/stable"
SUBJECT = "two thousand names"
TIME = 1700000000
METADATA = b"[Application]\nname=org.example.App\n"
MODES = (0o644, 0o755, 0o400, 0o744)

PROGRAM = r"""
#![tactic(auto)]
use fp_base::{Blob, Text};
use fp_host::Path;
use fp_name::RefName;
use fp_realhost::{Access, HostDir};
use ost_commit::{BuildError, TreeRow, commit_tree};
use ost_export::export;
use std::alloc::Global;
use std::process::ExitCode;

fn main(rt: HostRuntime) -> ExitCode {
    let alloc = rt.alloc();
    let Ok(rows) = rows(alloc) else { return ExitCode::from(1); };
    let Ok(name) = RefName::parse(alloc, b"@REF@") else { return ExitCode::from(2); };
    let Ok(built) = commit_tree(&rt, alloc, &rows, &name, "@SUBJECT@", @TIME@) else { return ExitCode::from(3); };
    let Ok(mut host) = HostDir::new(&rt, &rt, alloc, "@FOLDER@", Access::Change) else { return ExitCode::from(4); };
    let Ok(root) = Path::root(alloc).child("remote") else { return ExitCode::from(5); };
    match export(alloc, &mut host, &root, &built, &name) { Ok(()) => ExitCode::from(0), Err(_) => ExitCode::from(6) }
}

fn rows(alloc: Global) -> Result<Vec<TreeRow>, BuildError> {
    let metadata = Blob::from_slice(alloc, b"[Application]\nname=org.example.App\n")?;
    let mut rows = vec![in alloc; TreeRow::File { path: path(alloc, "metadata")?, mode: 0o644, bytes: metadata }, TreeRow::Dir(path(alloc, "files/none/within")?)]?;
    for i in 0usize..2000 { rows.push(row(alloc, i)?)?; }
    Ok(rows)
}

fn row(alloc: Global, i: usize) -> Result<TreeRow, BuildError> {
    let outer = i % 7;
    let inner = i % 13;
    if i % 10 == 9 {
        let text = format!(in alloc; "files/d{outer}/s-{inner}/link{i}")?;
        return Ok(TreeRow::Link { path: path(alloc, &text)?, target: Text::from_string(format!(in alloc; "../t/\u{e9} {i}")?) });
    }
    let text = format!(in alloc; "files/d{outer}/s-{inner}/f\u{fc}{i}")?;
    let mut bytes = Vec::new(alloc);
    for k in 0..(i % 300) { bytes.push(((i / 3 + k) % 251) as u8)?; }
    let mode = match i % 4 { 0 => 0o644, 1 => 0o755, 2 => 0o400, _ => 0o744 };
    Ok(TreeRow::File { path: path(alloc, &text)?, mode, bytes: Blob::from_vec(bytes) })
}

fn path(alloc: Global, text: &str) -> Result<Path, BuildError> {
    match Path::parse(alloc, text) { Ok(path) => Ok(path), Err(_) => Err(BuildError::NoMemory) }
}
"""


def names_of_tree():
    """The path, the mode and the bytes of each file, and the path and the text of each link."""
    yield "metadata", 0o644, METADATA
    for i in range(2000):
        folder = f"files/d{i % 7}/s-{i % 13}"
        if i % 10 == 9:
            yield f"{folder}/link{i}", None, f"../t/\u00e9 {i}"
        else:
            yield f"{folder}/f\u00fc{i}", MODES[i % 4], bytes((i // 3 + k) % 251 for k in range(i % 300))


def description():
    """The tree as a description."""
    lines = [f"timestamp {TIME}", f"subject {SUBJECT}", "dir files/none/within"]
    for path, mode, content in names_of_tree():
        if mode is None:
            lines.append(f"link {path} {content}")
        else:
            lines.append(f"file {path} {mode:03o} {content.hex() or '-'}")
    return lines


def fpk(program, folder, words, lines=()):
    """What fpk prints over the installation in the folder, its status, the seconds and the most memory in MiB."""
    given = folder.parent / "given"
    given.write_text("".join(line + "\n" for line in lines))
    printed = folder.parent / "printed"
    begun = time.monotonic()
    with open(given) as stdin, open(printed, "w") as stdout:
        child = subprocess.Popen([*program, *words], stdin=stdin, stdout=stdout, env={**os.environ, "FPK_INSTALLATION": str(folder)})
        _, status, used = os.wait4(child.pid, 0)
    return printed.read_text(), os.waitstatus_to_exitcode(status), time.monotonic() - begun, used.ru_maxrss / 1024


def export_store(work, program):
    """The store that `export` makes, and the digest that it prints."""
    printed, status, seconds, most = fpk(program, work / "installation", ["export", "lab", REF], description())
    print(f"    2,000 files and links: {seconds:.1f} s, at most {most:.0f} MiB")
    if status != 0 or not printed.startswith("commit "):
        sys.exit(f"export ended with {status}: {printed}")
    return work / "installation" / "made" / "lab", printed.split()[1]


def write_store(work):
    """The store that ost_export writes."""
    copy = work / "copy"
    shutil.copytree(TOP / "crates", copy / "crates", ignore=shutil.ignore_patterns("out"))
    crates = (TOP / "crates.txt").read_text()
    (copy / "crates.txt").write_text(crates + "made_store: fp_base fp_host fp_name fp_realhost ost_commit ost_export\n")
    shutil.copy(TOP / "HANDLES", copy / "HANDLES")
    subprocess.run(["git", "init", "-q"], cwd=copy, check=True)
    program = copy / "crates" / "made_store"
    (program / "src").mkdir(parents=True)
    text = PROGRAM
    for name, value in (("REF", REF), ("SUBJECT", SUBJECT), ("TIME", str(TIME)), ("FOLDER", str(work / "made"))):
        text = text.replace(f"@{name}@", value)
    (program / "src" / "main.rt").write_text(text)
    tried = subprocess.run(["rt", "try", "--seconds", "600"], cwd=program, capture_output=True, text=True)
    if "status=0" not in tried.stdout + tried.stderr:
        sys.exit("the program failed:\n" + tried.stdout + tried.stderr)
    return work / "made" / "remote"


def write_tree(root):
    """The same tree as files."""

    def put(path, mode, content):
        path.parent.mkdir(parents=True, exist_ok=True)
        path.write_bytes(content)
        path.chmod(mode)

    (root / "files" / "none" / "within").mkdir(parents=True)
    for path, mode, content in names_of_tree():
        if mode is None:
            (root / path).parent.mkdir(parents=True, exist_ok=True)
            os.symlink(content, root / path)
        else:
            put(root / path, mode, content)
    for folder, _, _ in os.walk(root):
        os.chmod(folder, 0o755)


def ostree(repo, *words):
    """What `ostree` prints, over this repository."""
    done = subprocess.run(["ostree", f"--repo={repo}", *words], capture_output=True, text=True, check=True)
    return done.stdout.strip()


def installs(work, program):
    """Whether a runtime is installed from a remote that was made."""
    name = "runtime/org.example.Platform/x86_64/1"
    folder = work / "installation"
    metadata = b"[Runtime]\nname=org.example.Platform\n".hex()
    lines = ["timestamp 1", "subject a runtime", f"file metadata 644 {metadata}", "file files/lib 755 00ff"]
    made, status, _, _ = fpk(program, folder, ["export", "lab", name], lines)
    added, _, _, _ = fpk(program, folder, ["remote-add", "lab", f"file://{folder}/made/lab"])
    installed, last, _, _ = fpk(program, folder, ["install", "lab", name])
    digest = made.split()[-1]
    file = folder / name / digest / "files" / "lib"
    good = (status, last) == (0, 0) and added == "remote added lab\n" and installed == f"installed {name} {digest}\n"
    return good and file.read_bytes() == b"\x00\xff" and file.stat().st_mode & 0o7777 == 0o755


def is_limited(work, program):
    """Whether 40,000 names are taken, and no more."""
    heading = ["timestamp 0", "subject many"]
    names = [f"file d{i % 200}/f{i} 644 {i:08x}" for i in range(39_800)]
    printed, status, seconds, most = fpk(program, work / "many", ["export", "lab", REF], heading + names)
    print(f"    39,800 files in 200 folders: {seconds:.1f} s, at most {most:.0f} MiB")
    refused, last, _, _ = fpk(program, work / "more", ["export", "lab", REF], heading + names + ["dir x"])
    return status == 0 and printed.startswith("commit ") and (refused, last) == ("error: record 39803\n", 1) and not (work / "more").exists()


def compare(work, made, printed):
    tree = work / "tree"
    write_tree(tree)
    real = work / "real"
    ostree(real, "init", "--mode=bare-user-only")
    digest = ostree(real, "commit", "--no-xattrs", "--owner-uid=0", "--owner-gid=0", f"--branch={REF}",
                    f"--subject={SUBJECT}", f"--timestamp=@{TIME}", str(tree))
    ostree(made, "fsck")
    listed = ostree(made, "ls", "-R", "-C", REF) == ostree(real, "ls", "-R", "-C", REF)
    ostree(made, "checkout", "-U", REF, str(work / "out"))
    same = subprocess.run(["diff", "-r", "--no-dereference", str(tree), str(work / "out")]).returncode == 0
    other = work / "other"
    ostree(other, "init", "--mode=bare-user-only")
    ostree(other, "pull-local", str(made), REF)
    pulled = ostree(other, "rev-parse", REF)
    offered = (made / "refs" / "heads" / REF).read_text().strip()
    objects = [{p.relative_to(repo) for p in (repo / "objects").glob("*/*")} for repo in (made, real)]
    results = {
        "the digest is the one that ostree gives": offered == digest == (printed or digest),
        "the list of names, modes and digests is the same": listed,
        "what is checked out is the tree": same,
        "another repository takes the commit": pulled == offered,
        "the objects have the same names": objects[0] == objects[1],
    }
    return results


def main():
    with tempfile.TemporaryDirectory() as folder:
        work = pathlib.Path(folder)
        if len(sys.argv) > 1:
            program = shlex.split(sys.argv[1])
            results = compare(work, *export_store(work, program))
            results["a runtime is installed from a remote that was made"] = installs(work, program)
            results["40,000 names are taken, and no more"] = is_limited(work, program)
        else:
            results = compare(work, write_store(work), None)
    for what, holds in results.items():
        print("yes" if holds else "NO ", what)
    sys.exit(0 if all(results.values()) else 1)


if __name__ == "__main__":
    main()
