#!/usr/bin/env python3
"""./x package [--built] [--out FOLDER]: proves and builds the program, and makes its packages in dist/, or FOLDER.
./x package --look: makes them twice, compares the bytes, and installs, uses and removes them in empty folders.

It writes possibly_VERSION_ARCH.deb for Debian and what comes from it, possibly-VERSION-linux-ARCH.tar.gz with an
install.sh that needs no root, PROOF, which says of what commit and by which kit the program was proved, and SHA256SUMS.
With --built the program that stands in crates/monitor/out is taken as it is. The name `monitor` is taken in Debian, so
the package is called `possibly`; the command is `monitor`, with `possibly` as a second name. The bytes depend on the
program and on the files of the commit alone; times in them are SOURCE_DATE_EPOCH, or that of the commit. Each file is
written beside its place and renamed.
"""
import argparse
import contextlib
import gzip
import hashlib
import io
import os
import re
import shutil
import subprocess
import sys
import tarfile
import tempfile
import textwrap

sys.dont_write_bytecode = True
import axioms  # noqa: E402
import layout  # noqa: E402
import verdict  # noqa: E402

ROOT = layout.ROOT
BUILT = os.path.join(ROOT, "crates", "monitor", "out", "monitor")
PACKAGE = "possibly"
SHORT = "verified monitor for global predicates of distributed computations"
LONG = """\
 People who test and debug distributed programs record what each process
 did. No clock orders the events of different processes, so whether a bad
 state occurred has two answers: possibly, and definitely. This program
 gives both, with evidence, and is proved to be right.
"""
# Where the files of the repository go below /usr, or below the prefix of install.sh.
DOCUMENTS = ["README.md", "CHANGELOG.md", "SECURITY.md", "docs/SPECIFICATION.md", "docs/RECORDING.md",
             "docs/EXPLANATIONS.md", "docs/PROMISES.md"]
EXAMPLE = ["session.json", "left.stream", "right.stream", "report"]


def run(*words, **how):
    return subprocess.run(words, check=True, capture_output=True, text=True, **how).stdout.strip()


def read(*path):
    with open(os.path.join(ROOT, *path), "rb") as file:
        return file.read()


def write(path, data, mode=0o644):
    """Writes a file whole or not at all."""
    os.makedirs(os.path.dirname(path), exist_ok=True)
    with tempfile.NamedTemporaryFile(dir=os.path.dirname(path), delete=False) as file:
        file.write(data)
    os.chmod(file.name, mode)
    os.rename(file.name, path)


def zipped(data):
    out = io.BytesIO()
    with gzip.GzipFile(fileobj=out, mode="wb", compresslevel=9, mtime=0) as file:
        file.write(data)
    return out.getvalue()


class Facts:
    """What the packages say of the program."""

    def __init__(self, program):
        self.program = program
        self.version = run(program, "--version").split()[-1]
        self.arch = {"x86_64": "amd64"}[os.uname().machine]
        self.commit = run("git", "rev-parse", "HEAD", cwd=ROOT)
        self.changed = bool(run("git", "status", "--porcelain", cwd=ROOT))
        self.time = int(os.environ.get("SOURCE_DATE_EPOCH") or run("git", "log", "-1", "--format=%ct", cwd=ROOT))
        self.maintainer = run("git", "log", "-1", "--format=%an <%ae>", cwd=ROOT)
        self.kit = run("rt", "version") if shutil.which("rt") else "unknown: no kit on this machine"
        names = re.findall(r"GLIBC_([\d.]+)", run("objdump", "-T", program))
        self.libc = max(names, key=lambda name: [int(part) for part in name.split(".")])

    def proof(self, stripped):
        """The text that says what was proved, and by what."""
        reached, total = axioms.claimed()
        rows = "".join(f"  {crate}: {count}\n" for crate, count in sorted(reached.items()))
        said = verdict.kept(self.program) or ["none is known: ./x build and ./x gate keep one of what they build"]
        changed = " with changes that are in no commit" if self.changed else ""
        return (f"program: monitor {self.version}\n"
                f"commit: {self.commit}{changed}\n"
                f"kit: {self.kit}\n"
                f"verdict: {'; '.join(said)}\n"
                f"sha256 as built: {verdict.sum_of(self.program)}\n"
                f"sha256 as packaged, without symbols: {hashlib.sha256(stripped).hexdigest()}\n"
                f"axioms: {total} contracts of C functions, by crate of the kit\n{rows}"
                "What is proved, and what is assumed: PROMISES.md beside this file. To prove it again: the repository\n"
                "at this commit, on a machine with this kit, by ./x gate.\n").encode()


def stripped_program(facts):
    """The bytes of the program without its symbols."""
    with tempfile.TemporaryDirectory() as folder:
        to = os.path.join(folder, "monitor")
        run("strip", "--strip-unneeded", "--remove-section=.comment", "-o", to, facts.program)
        with open(to, "rb") as file:
            return file.read()


def both_names(text):
    """A completion file for both names of the command."""
    return text.replace(b"complete -F _monitor monitor\n", b"complete -F _monitor monitor possibly\n").replace(
        b"#compdef monitor\n", b"#compdef monitor possibly\n")


def files_of(facts, program, is_debian):
    """The files of the package below its prefix: each with its bytes and mode, or the name it is a link to."""
    page = read("docs", "monitor.1")
    zsh = "share/zsh/vendor-completions" if is_debian else "share/zsh/site-functions"
    documents = f"share/doc/{PACKAGE}"
    pack, end = (zipped, ".gz") if is_debian else (lambda data: data, "")
    files = {
        "bin/monitor": (program, 0o755), f"bin/{PACKAGE}": "monitor",
        f"share/man/man1/monitor.1{end}": (pack(page), 0o644), f"share/man/man1/{PACKAGE}.1{end}": f"monitor.1{end}",
        "share/bash-completion/completions/monitor": (both_names(read("completions", "monitor.bash")), 0o644),
        f"share/bash-completion/completions/{PACKAGE}": "monitor",
        f"{zsh}/_monitor": (both_names(read("completions", "_monitor")), 0o644),
        "share/fish/vendor_completions.d/monitor.fish": (read("completions", "monitor.fish"), 0o644),
        f"{documents}/PROOF": (facts.proof(program), 0o644),
    }
    for name in DOCUMENTS:
        files[f"{documents}/{os.path.basename(name)}"] = (read(name), 0o644)
    for name in EXAMPLE:
        files[f"{documents}/examples/ten-lines/{name}"] = (read("examples", "ten-lines", name), 0o644)
    return files


def put(root, files):
    """Writes the files below a folder."""
    for name, what in files.items():
        path = os.path.join(root, name)
        if isinstance(what, str):
            os.makedirs(os.path.dirname(path), exist_ok=True)
            os.symlink(what, path)
        else:
            write(path, *what)
    for at, names, _ in os.walk(root):
        for name in [".", *names]:
            os.chmod(os.path.join(at, name), 0o755)


def debian_changelog(facts):
    """The entries of CHANGELOG.md in the form that Debian's packages have."""
    entries = re.findall(r"^## ([\d.]+)[^\n]*\n(.*?)(?=^## |\Z)", read("CHANGELOG.md").decode(), re.M | re.S)
    date = run("date", "-R", "-u", "-d", f"@{facts.time}", env={**os.environ, "LC_ALL": "C"})
    text = ""
    for version, body in entries:
        items = re.findall(r"^- (.*?)(?=^- |\Z)", body.strip() + "\n", re.M | re.S)
        lines = "".join(textwrap.fill(" ".join(item.split()), 78, initial_indent="  * ", subsequent_indent="    ",
                                      break_long_words=False, break_on_hyphens=False) + "\n" for item in items)
        text += f"{PACKAGE} ({version}) unstable; urgency=medium\n\n{lines}\n -- {facts.maintainer}  {date}\n\n"
    return text.rstrip("\n").encode() + b"\n"


def make_deb(facts, program, to):
    documents = f"usr/share/doc/{PACKAGE}"
    files = {f"usr/{name}": what for name, what in files_of(facts, program, True).items()}
    # Debian keeps the changes as changelog.gz, in a form of its own.
    del files[f"{documents}/CHANGELOG.md"]
    files[f"{documents}/changelog.gz"] = (zipped(debian_changelog(facts)), 0o644)
    files[f"{documents}/copyright"] = (read("packaging", "copyright"), 0o644)
    size = sum(len(what[0]) for what in files.values() if not isinstance(what, str)) // 1024 + 1
    control = (f"Package: {PACKAGE}\nVersion: {facts.version}\nArchitecture: {facts.arch}\n"
               f"Maintainer: {facts.maintainer}\nInstalled-Size: {size}\nDepends: libc6 (>= {facts.libc})\n"
               f"Section: devel\nPriority: optional\nDescription: {SHORT}\n{LONG}")
    sums = "".join(f"{hashlib.md5(what[0]).hexdigest()}  {name}\n" for name, what in sorted(files.items())
                   if not isinstance(what, str))
    files["DEBIAN/control"] = (control.encode(), 0o644)
    files["DEBIAN/md5sums"] = (sums.encode(), 0o644)
    with tempfile.TemporaryDirectory() as folder:
        put(folder, files)
        made = f"{to}.part"
        run("dpkg-deb", "--root-owner-group", "-Zxz", "--build", folder, made,
            env={**os.environ, "SOURCE_DATE_EPOCH": str(facts.time)})
        os.rename(made, to)


def make_tar(facts, program, to):
    name = os.path.basename(to).removesuffix(".tar.gz")
    files = files_of(facts, program, False)
    listed = "".join(f"{path}\n" for path in sorted(files))
    files = {f"tree/{path}": what for path, what in files.items()}
    files["FILES"] = (listed.encode(), 0o644)
    files["install.sh"] = (read("packaging", "install.sh"), 0o755)
    out = io.BytesIO()
    with tarfile.open(fileobj=out, mode="w", format=tarfile.USTAR_FORMAT) as archive:
        for path, what in sorted(files.items()):
            entry = tarfile.TarInfo(f"{name}/{path}")
            entry.mtime = facts.time
            if isinstance(what, str):
                entry.type, entry.linkname, entry.mode = tarfile.SYMTYPE, what, 0o777
                archive.addfile(entry)
            else:
                entry.size, entry.mode = len(what[0]), what[1]
                archive.addfile(entry, io.BytesIO(what[0]))
    write(to, zipped(out.getvalue()))


def make(facts, folder):
    """Makes all in a folder, and gives their names."""
    os.makedirs(folder, exist_ok=True)
    program = stripped_program(facts)
    names = [f"{PACKAGE}_{facts.version}_{facts.arch}.deb", f"{PACKAGE}-{facts.version}-linux-{facts.arch}.tar.gz",
             "PROOF"]
    make_deb(facts, program, os.path.join(folder, names[0]))
    make_tar(facts, program, os.path.join(folder, names[1]))
    write(os.path.join(folder, "PROOF"), facts.proof(program))
    sums = ""
    for name in names:
        with open(os.path.join(folder, name), "rb") as file:
            sums += f"{hashlib.sha256(file.read()).hexdigest()}  {name}\n"
    write(os.path.join(folder, "SHA256SUMS"), sums.encode())
    return [*names, "SHA256SUMS"]


# ---- what --look does

def judge(*words, cwd):
    """Whether a command line judges the stored session as it should."""
    report = run(*words, "judge", "session.json", "left.stream", "right.stream", cwd=cwd) + "\n"
    with open(os.path.join(ROOT, "examples", "ten-lines", "report"), encoding="utf-8") as file:
        return report == file.read()


def left(root):
    """The files and links below a folder."""
    return sorted(os.path.relpath(os.path.join(at, name), root) for at, _, names in os.walk(root) for name in names)


def libc_root(root):
    """Makes a folder a Debian system in which only the C library is installed."""
    for name in ("info", "updates", "triggers"):
        os.makedirs(os.path.join(root, "var/lib/dpkg", name))
    status = run("dpkg-query", "-s", "libc6") + "\n"
    write(os.path.join(root, "var/lib/dpkg/status"),
          re.sub(r"^(Depends|Recommends|Suggests|Conffiles):.*\n( .*\n)*", "", status, flags=re.M).encode() + b"\n")
    for path in re.findall(r"(/\S+) \(0x", run("ldd", BUILT)):
        os.makedirs(os.path.join(root, os.path.dirname(path)[1:]), exist_ok=True)
        shutil.copy(path, os.path.join(root, path[1:]))


def try_deb(deb, root):
    """What goes wrong when the package for Debian is installed in a system of its own, used and removed."""
    libc_root(root)
    before = left(root)
    environment = {**os.environ, "PATH": "/usr/sbin:/usr/bin:/sbin:/bin"}
    dpkg = ["dpkg", f"--root={root}", "--force-bad-path", "--log=/dev/null"]
    run(*dpkg, "-i", deb, env=environment)
    # Where no root may be changed, the program that was installed is run in the system at hand.
    can_change = subprocess.run(["chroot", "/", "true"], capture_output=True, check=False).returncode == 0
    first, at = (["chroot", root], "") if can_change else ([], root)
    example = f"{at}/usr/share/doc/{PACKAGE}/examples/ten-lines"
    for name in ("monitor", PACKAGE):
        words = [*first, f"{at}/usr/bin/{name}", "judge", *(f"{example}/{file}" for file in EXAMPLE[:3])]
        if run(*words).encode() + b"\n" != read("examples", "ten-lines", "report"):
            return f"{name} judges otherwise once it is installed"
    run(*dpkg, "--purge", PACKAGE, env=environment)
    after = [name for name in left(root) if not name.startswith("var/lib/dpkg/")]
    kept = [name for name in after if name not in before]
    return f"removed, it leaves {', '.join(kept)}" if kept else None


def try_tar(archive, folder):
    """What goes wrong when the archive is unpacked, installed below a prefix, used and removed."""
    with tarfile.open(archive) as file:
        file.extractall(folder, filter="data") if hasattr(tarfile, "data_filter") else file.extractall(folder)
    unpacked = os.path.join(folder, os.listdir(folder)[0])
    prefix = os.path.join(folder, "a prefix")
    run("sh", "install.sh", prefix, cwd=unpacked)
    example = os.path.join(prefix, "share", "doc", PACKAGE, "examples", "ten-lines")
    for name in ("monitor", PACKAGE):
        if not judge(os.path.join(prefix, "bin", name), cwd=example):
            return f"{name} judges otherwise once it is installed"
    run("sh", "install.sh", "--remove", prefix, cwd=unpacked)
    return f"removed, it leaves {', '.join(left(prefix))}" if os.path.exists(prefix) else None


def look(facts):
    """Makes the packages twice and tries them. The status."""
    if f"## {facts.version}," not in read("CHANGELOG.md").decode():
        print(f"package: CHANGELOG.md says nothing of version {facts.version}")
        return 1
    with contextlib.ExitStack() as stack:
        one, two, at, root = (stack.enter_context(tempfile.TemporaryDirectory()) for _ in range(4))
        names = make(facts, one)
        os.environ["TZ"], before = "Pacific/Auckland", os.umask(0o077)
        make(facts, two)
        os.umask(before)
        for name in names:
            with open(os.path.join(one, name), "rb") as first, open(os.path.join(two, name), "rb") as second:
                if first.read() != second.read():
                    print(f"package: {name} has other bytes when it is made again")
                    return 1
        os.chmod(root, 0o755)
        wrong = try_tar(os.path.join(one, names[1]), at)
        is_root = os.geteuid() == 0
        wrong = wrong or (try_deb(os.path.join(one, names[0]), root) if is_root else None)
        if wrong:
            print(f"package: {wrong}")
            return 1
        tried = "both installed, used and removed" if is_root else "the archive installed, used and removed (no root)"
        print(f"{len(names)} files, the same bytes twice; {tried}")
    return 0


def main():
    parser = argparse.ArgumentParser(description=__doc__, formatter_class=argparse.RawDescriptionHelpFormatter)
    parser.add_argument("--built", action="store_true", help="take the program as it stands")
    parser.add_argument("--look", action="store_true", help="compare and try the packages, and keep none")
    parser.add_argument("--out", metavar="FOLDER", default=os.path.join(ROOT, "dist"))
    given = parser.parse_args()
    if not (given.built or given.look):
        status = subprocess.run([sys.executable, os.path.join(ROOT, ".ci", "build.py")], check=False).returncode
        if status:
            return status
    if not os.path.isfile(BUILT):
        print("package: no program stands in crates/monitor/out: run ./x build", file=sys.stderr)
        return 2
    try:
        facts = Facts(BUILT)
        if given.look:
            return look(facts)
        for name in make(facts, os.path.abspath(given.out)):
            print(os.path.join(given.out, name))
    except (OSError, subprocess.CalledProcessError) as fault:
        print(f"package: {fault}\n{getattr(fault, 'stderr', None) or ''}", file=sys.stderr)
        return 3
    return 0


if __name__ == "__main__":
    sys.exit(main())
