"""Tries the gate and the hook for repositories of authorized_keys files, for recipes.py: changes that pass and that do not."""
import os
import pathlib
import shutil
import subprocess

EVERY = "port agent x11 pty rc"


def git(repository, *words, given=os.environ):
    settings = {**given, "GIT_CONFIG_GLOBAL": os.devnull, "GIT_CONFIG_SYSTEM": os.devnull}
    names = ["-c", "user.name=x", "-c", "user.email=x@example", "-c", "init.defaultBranch=main"]
    return subprocess.run(["git", *names, *words], cwd=repository, env=settings, stdout=subprocess.PIPE, stderr=subprocess.STDOUT, check=True).stdout


def gate(room, repository, settings):
    """The status, and what stands below the line that begins the list of access; all of it where there is none."""
    ran = subprocess.run([room / "gate.sh", "HEAD"], cwd=repository, env=settings, stdin=subprocess.DEVNULL, stdout=subprocess.PIPE, stderr=subprocess.PIPE, check=False)
    text = ran.stdout.decode()
    return ran.returncode, text.partition("access that this change adds or changes:\n")[2]


def gate_rows(room, tally, settings, lines, row):
    """Changes to a repository of keys: none, a key more, a key less, a wider line, one to mend, a file that cannot be read."""
    repository = room / "repository"
    (repository / "keys").mkdir(parents=True)
    ann = repository / "keys" / "ann"
    limited = f'from="10.0.0.0/8",restrict {lines["backup"]}\n'
    ann.write_text(f"{lines['laptop']}\n{limited}")
    git(repository, "init", "-q")
    git(repository, "add", "keys")
    git(repository, "commit", "-qm", "keys")
    for what, text, wanted_answer in (
        ("no change", f"{lines['laptop']}\n{limited}", (0, "")),
        ("another order, blanks, a comment", f"# c\n{limited.replace(' ', '   ', 1)}\n{lines['laptop']}\n", (0, "")),
        ("a key less", limited, (0, "")),
        ("a key more", f"{lines['laptop']}\n{limited}{lines['ci']}\n", (1, row("keys/ann", "ci", EVERY, ""))),
        ("a wider line", f"{lines['laptop']}\nrestrict {lines['backup']}\n", (1, row("keys/ann", "backup", "none", "restrict"))),
        ("a line to mend and no new access", f"{lines['laptop']}\n{limited}ssh-dss AAAA\n", (1, "")),
        ("the same key twice", f"{lines['laptop']}\n{limited}restrict {lines['laptop']}\n", (1, "")),
    ):
        ann.write_text(text)
        tally.check(f"gate: {what}", gate(room, repository, settings), wanted_answer)
    (repository / "keys" / "folder").mkdir()
    tally.check("gate: a file that cannot be read", gate(room, repository, settings), (2, ""))
    os.rmdir(repository / "keys" / "folder")
    for tool in ("jq", "git", "ssh_audit"):
        # A folder with every tool but one: what is missing does not pass.
        tools = room / f"without {tool}"
        tools.mkdir()
        for name in ("sh", "mktemp", "mkdir", "rm", "tar", "sort", "comm", "cat", "date", "jq", "git"):
            if name != tool:
                (tools / name).symlink_to(shutil.which(name))
        if tool != "ssh_audit":
            (tools / "ssh_audit").symlink_to(os.path.realpath(room / "bin" / "ssh_audit"))
        ann.write_text(f"{lines['laptop']}\n{limited}")
        tally.check(f"gate: no {tool}", gate(room, repository, {**settings, "PATH": str(tools)}), (2, ""))


def hook_rows(room, tally, settings, lines):
    """Commits under the hook: what is staged counts, and not what stands in the work tree."""
    repository = room / "hooked"
    (repository / "keys").mkdir(parents=True)
    git(repository, "init", "-q")
    (repository / ".git" / "hooks").mkdir(exist_ok=True)
    (repository / ".git" / "hooks" / "pre-commit").symlink_to(room / "staged_keys.sh")
    good, bad = f"{lines['laptop']}\n", f"{lines['laptop']}\nssh-dss AAAA\n"
    for what, name, staged, tree, passes in (
        ("nothing to fix", "keys/ann", good, good, True),
        ("nothing to fix, and a bad work tree", "keys/bob", good, bad, True),
        ("something to fix, and a good work tree", "keys/ann", bad, good, False),
        ("a name with a blank and a line break", "keys/a b\nc", bad, bad, False),
        ("a name with a dash", "keys/-n", bad, bad, False),
        ("outside keys/", "other", bad, bad, True),
        ("a file that goes", "keys/ann", None, None, True),
    ):
        path = repository / name
        if staged is None:
            path.unlink()
        else:
            path.write_text(staged)
        git(repository, "add", "-A", "--", name)
        if tree is not None:
            path.write_text(tree)
        try:
            git(repository, "commit", "-qm", what, given=settings)
            passed = True
        except subprocess.CalledProcessError:
            passed = False
            git(repository, "reset", "-q", "--hard")
        tally.check(f"hook: {what}", passed, passes)
