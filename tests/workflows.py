"""Run the shell commands of docs/guide.md, docs/git.md and docs/ci.md and the EXAMPLES of the manual pages as they are.
Type what the documents show of a terminal, and compare. Run the commands of their files for pipelines and for
pre-commit."""

import re
from collections.abc import Iterator
from fnmatch import fnmatchcase
from pathlib import Path
from typing import Any, NamedTuple

import pytest

from companion_cases import line_of_values
from companion_cases.terminal import READY, SHELL, ask
from lib.needs import needs, needs_pyyaml
from lib.paths import COMPANIONS, ROOT, sections
from lib.readme import fenced, steps_of
from lib.repository import MARKS, PASSWORDS, SETTINGS, Repository, block, vault, without_reports
from model.vaults import yaml_block

# The pages, joined.
DOCUMENT = "\n".join((ROOT / "docs" / page).read_text() for page in ("guide.md", "git.md", "ci.md"))
PLAYBOOK = '[{hosts: all, gather_facts: false, tasks: [{ansible.builtin.debug: {msg: "{{ %s }}"}}]}]'
# In place of the password manager. Its entry contains more than the password.
PASS = b"""\
#!/bin/sh
[ "$*" = "show ansible/prod" ] || exit 1
printf 'in production\\nuser: me\\n'
"""
# In place of an editor that must be told to wait.
CODE = """\
[ "$1" = --wait ] || exit 1
shift
exec "$EDITOR_OF_TEST" "$@"
"""
# A vault and a file with blocks in most recipes and examples.
VAULT, BLOCKS = "group_vars/all/vault.yml", "host_vars/web1.yml"
FIRST_LINE = "$ANSIBLE_VAULT;1.2;AES256;prod"
VIEW = f"ansible-vault view --require-id-match --vault-id prod@prod.pass {VAULT}"
CONFIGURED = {"ansible.cfg": SETTINGS.encode()}
KEPT = block("other", b"kept")
UNLABELED = yaml_block(vault(b"correct horse", "old.pass", ""), b"db_password")
# Two branches change the vault: the base, their side and ours; and the merged text.
SIDES, MERGED = (b"a: 1\nb: 2\nc: 3\n", b"a: 1\nb: 2\nc: 4\n", b"a: 0\nb: 2\nc: 3\n"), "a: 0\nb: 2\nc: 4\n"


@pytest.fixture
def repository(tmp_path: Path, program: str) -> Repository:
    needs("git")
    repository = Repository(tmp_path, program)
    repository.put(".gitattributes", MARKS.encode())
    return repository


def chapters() -> dict[str, str]:
    """Return the text below each heading of the document."""
    _, *parts = re.split(r"^## (.+)$", DOCUMENT, flags=re.MULTILINE)
    texts = dict(zip(parts[::2], parts[1::2]))
    assert 2 * len(texts) == len(parts), "no two pages have the same heading"
    return texts


def recipes() -> dict[str, str]:
    """Return the shell commands below each heading of the document."""
    unfenced = {
        title: re.sub(r"^```\w+\n(?:.*\n)*?```$", "", text, flags=re.MULTILINE) for title, text in chapters().items()
    }
    lines = {title: re.findall(r"^    (.*)$", text, re.MULTILINE) for title, text in unfenced.items()}
    return {title: "\n".join(of_title) + "\n" for title, of_title in lines.items() if of_title}


def recordings() -> dict[str, str]:
    """Return what the document shows of a terminal, below each heading."""
    shown = {title: "".join(fenced(text, "console")) for title, text in chapters().items()}
    return {title: text for title, text in shown.items() if text}


def examples(name: str) -> dict[str, str]:
    """Return the shell commands of each of a page's EXAMPLES, by the first three words of the text before them."""
    display = r"(?:\A|^\.Pp)\n((?:(?!\.Pp$).+\n)+?)\.Bd .*\n((?:.*\n)+?)\.Ed$"
    found = re.findall(display, sections(ROOT / "man" / f"{name}.1")["EXAMPLES"], re.MULTILINE)
    return {" ".join(words.split()[:3]): shown(text) for words, text in found}


def shown(text: str) -> str:
    """Return what a display of a page shows, without the prompts."""
    for spelling, character in ((r"\(aq", "'"), (r"\(ha", "^"), (r"\e", "\\")):
        text = text.replace(spelling, character)
    return re.sub(r"^\$ ", "", text, flags=re.MULTILINE)


def playbook(expression: str) -> dict[str, bytes]:
    """Return a playbook that shows the value of this expression, and its inventory."""
    return {"inventory": b"web1 ansible_connection=local\n", "playbook.yml": (PLAYBOOK % expression).encode()}


class Recipe(NamedTuple):
    """What happens before some commands, and what they do. In the outputs, a star matches any text."""

    before: dict[str, bytes]
    # Commands that prepare the rest, and the arguments of sed if an editor is needed.
    prepare: str = ":"
    sed: str = ""
    printed: str = ""
    # Commands that show what is left, and their output.
    after: str = ":"
    left: str = ""


RECIPES = {
    "Name your passwords once": Recipe(
        CONFIGURED | playbook("shared") | {VAULT: b"shared: staple\n", "host_vars/web1/secrets.yml": b"port: 1\n"},
        printed='shared: staple\n*"msg": "staple"\n*',
        after=f"head -qn 1 {VAULT} host_vars/web1/secrets.yml",
        left=f"{FIRST_LINE}\n{FIRST_LINE}\n",
    ),
    "Set up a clone": Recipe(
        CONFIGURED
        | {VAULT: vault(b"a: first\n"), "vault.yml": vault(b"a: shown\n"), "b.yml": vault(b"b: 1\n", "new.pass", "")},
        prepare="rm -r ~/.vault; git add -A",
        printed="*\n2 decrypted, 0 failed, 1 with other labels (default 1)\na: first\n",
        after="stat -c %a ~/.vault ~/.vault/prod.pass; git commit -qm one; git show",
        left="700\n600\n*\n+a: shown\n*",
    ),
    "Vaults and values for playbooks": Recipe(
        playbook("[shared, port, db_password] | join(', ')")
        | {"plain.yml": b"shared: staple\n", "group_vars/all/.keep": b"", BLOCKS: b"port: 5432\n"},
        printed='*"msg": "staple, 5432, correct horse"\n*',
    ),
    "Edit a vault": Recipe(
        {VAULT: vault(b"password: first\n")}, sed="s/first/second/", after=VIEW, left="password: second\n"
    ),
    "Change one value in a YAML file": Recipe(
        CONFIGURED | {VAULT: vault(b"port: 5432\n"), BLOCKS: b"port: 1\n" + block("db_password", b"horse") + KEPT},
        sed="-e 's/horse/staple/' -e '$a new: !vault |-\\n  a third'",
        printed=f"{line_of_values(2)}port: 1\ndb_password: !vault |-\n  horse\nother: !vault |-\n  kept\nstaple",
        after=f"for each in {BLOCKS} {VAULT}; do ansible-vault-textconv $each; done",
        left=f"{line_of_values(3)}port: 1\ndb_password: !vault |-\n  {'[A-Za-z0-9+/]' * 32}\nother: !vault |-\n  kept\n"
        "new: !vault |-\n  a third\n# ansible-vault: encrypted, label prod\nport: 5433\n",
    ),
    "Change a password everywhere": Recipe(
        {"vars/a.yml": vault(b"a"), "b.yml": block("secret", b"b"), "c.yml": vault(b"c", "old.pass", "")},
        prepare="rm ~/.vault/new.pass",
        printed="*\n2 rotated, 0 already under the new password, 1 with other labels (default 1), 0 failed\n",
        after="""ansible-vault view --vault-id prod@"$HOME"/.vault/new.pass vars/a.yml
            stat -c %a ~/.vault/new.pass; base64 --decode < ~/.vault/new.pass | wc -c""",
        left="a600\n32\n",
    ),
    "Check that everything can be decrypted": Recipe(
        {"vars/a.yml": vault(b"a", "new.pass"), "b.yml": block("secret", b"b", "new.pass")},
        printed="./b.yml:2: secret: prod: decrypted by *\n./vars/a.yml: prod: decrypted by *\n2 decrypted, 0 failed\n",
    ),
    "Mark the files to be encrypted": Recipe(
        {".gitattributes": b""},
        printed="group_vars/all/vault: diff: ansible-vault\n*\ngroup_vars/all/vars.yml: diff: unspecified\n",
        after="git check-attr diff group_vars/prod/vault/db.yml roles/a/vars/b.vault.yml a/host_vars/b/secret",
        left="*: diff: ansible-vault\n*: diff: ansible-vault\n*: diff: ansible-vault\n",
    ),
    # At first the file is not encrypted, then it is.
    "See differences in git": Recipe(
        {"../1": b"db_password: a\n", "../2": vault(b"db_password: b\n")},
        prepare=f"""mkdir -p group_vars/all
            for each in 1 2; do mv ../$each {VAULT}; git add .; git commit -qm $each; done""",
        printed=f"*\n# ansible-vault: encrypted, label prod\ndb_password: b\n{VAULT}:db_password: b\n*"
        f"\n+{FIRST_LINE}\n*\n+++ b/.gitattributes\n*",
        after=f"""exec 2> /dev/null
            git blame -s {VAULT} | sed 's/.*) //'; git log --format=%s -S 'db_password: b'
            git log -p --format= | grep '^[-+][#d]'""",
        left="# ansible-vault: encrypted, label prod\ndb_password: b\n2\n"
        "-# ansible-vault: not encrypted\n-db_password: a\n"
        "+# ansible-vault: encrypted, label prod\n+db_password: b\n"
        "+# ansible-vault: not encrypted\n+db_password: a\n",
    ),
    "Use a password manager": Recipe(
        {"../tools/pass": PASS, "vault.yml": vault(b"password: shown\n")},
        prepare="chmod +x ../tools/pass; git add -A; git commit -qm one",
        printed="*\n+password: shown\npassword: shown\n",
    ),
    "Keep plaintext out of commits": Recipe(
        {"c.vault.yml": b"password: plain\n"},
        printed="*",
        after="git add .; ! git commit -qm one 2>&1",
        left="ansible-vault-hook: c.vault.yml is not encrypted\n*",
    ),
    "Encrypt a file": Recipe(
        {"plain.yml": b"plain: text\n", "group_vars/all/.keep": b""},
        after=f"head -n 1 {VAULT}; cat other.yml",
        left=f"{FIRST_LINE}\nplain: text\n",
    ),
    "Make a value": Recipe(
        {"vars.yml": b"first: 1\n"},
        after="ansible-vault-textconv --vault-id prod@prod.pass --value db_password vars.yml",
        left="correct horse",
    ),
}
# What happens before and after the commands that the document shows at a terminal.
RECORDED = {
    "Vaults and values for playbooks": Recipe(
        {BLOCKS: b"port: 5432\n"},
        after=f"ansible-vault-textconv --vault-id prod@prod.pass --value db_password {BLOCKS}",
        left="correct horse",
    ),
    "Add missing labels": Recipe(
        {"group_vars/dev/vault.yml": vault(b"b", "old.pass", ""), "host_vars/dev1.yml": UNLABELED}
        | {VAULT: vault(b"a", "old.pass", ""), BLOCKS: UNLABELED},
        prepare="rm ~/.vault/prod.pass",
        after=f"head -qn 1 {VAULT} group_vars/dev/vault.yml; ls ~/.vault",
        left=f"{FIRST_LINE}\n$ANSIBLE_VAULT;1.2;AES256;dev\n*dev.pass\n*prod.pass\n",
    ),
}
# The question there, and what is typed.
QUESTION, ANSWER = "String to encrypt (hidden): ", b"correct horse\n"
# The commands by their titles: those of the document, and those of the program's page and of the companions' pages.
COMMANDS = recipes() | examples("ansible-vault")
OF_COMPANIONS = [(name, title) for name in COMPANIONS for title in examples(name)]
# The titles of the commands that have a test of their own.
MERGE = "Merge"
PIPELINE = "Run the checks in a pipeline"
TYPED = ["Type a password", "Type a password,"]


def test_each_is_run() -> None:
    assert sorted(COMMANDS) == sorted([*RECIPES, MERGE, PIPELINE, *TYPED])
    assert sorted(recordings()) == sorted(RECORDED)
    assert sorted(ready_files()) == sorted([FOR_PRE_COMMIT, *FOR_PIPELINES])
    assert {name for name, _ in OF_COMPANIONS} == {*COMPANIONS}
    assert f"```ini\n{SETTINGS}```" in DOCUMENT, "the document has the settings"


@pytest.mark.parametrize("title", RECIPES)
def test_recipe(repository: Repository, title: str) -> None:
    recipe = RECIPES[title]
    if "playbook.yml" in recipe.before:
        needs("ansible-playbook")
    for name, content in recipe.before.items():
        repository.put(name, content)
    repository.shell(recipe.prepare)
    editor = repository.script(f'sed -i {recipe.sed} "$1"')
    printed = repository.shown(COMMANDS[title], EDITOR=editor, secret="correct horse")
    left = repository.shown(recipe.after)
    assert fnmatchcase(printed, recipe.printed), f"what it prints: {printed}"
    assert fnmatchcase(left, recipe.left), f"what is left: {left}"


def typed(recording: str) -> Iterator[tuple[str, bytes]]:
    """Yield the commands of a recording, and the answer to the question, with what is shown before each."""
    for step in steps_of(recording):
        yield READY, f"{step.command}\n".encode()
        if QUESTION.strip() in step.wanted:
            yield QUESTION, ANSWER
    yield READY, b"exit\n"


# What a busy machine shows for a moment.
PROGRESS = re.compile(r"ansible-vault-\w+: file \d+ of \d+, \d+ values +")


@pytest.mark.parametrize("title", RECORDED)
def test_recording(repository: Repository, title: str) -> None:
    """The document shows what a terminal shows, with dots for random digits."""
    recipe, recording = RECORDED[title], recordings()[title]
    for name, content in recipe.before.items():
        repository.put(name, content)
    repository.shell(recipe.prepare)
    shown = ask(repository, *SHELL, answers=[*typed(recording)], PS2="").shown.replace(READY, "$ ")
    lines = re.sub(" +$", "", PROGRESS.sub("", shown), flags=re.MULTILINE)
    pattern = ".*".join(map(re.escape, f"{recording}$ exit\nexit\n".split("...")))
    assert re.fullmatch(pattern, lines, re.DOTALL), lines
    assert fnmatchcase(repository.shown(recipe.after), recipe.left)


@pytest.mark.parametrize("title", TYPED)
def test_typed(repository: Repository, title: str) -> None:
    for name in (VAULT, "vault.yml"):
        repository.put(name, vault(b"shown\n", "old.pass", ""))
    for password, is_right in (("the old one", True), ("another", False)):
        screen = repository.pasted(f"{COMMANDS[title].rstrip()}; exit\n", password)
        assert ("shown\r\n" in screen) == is_right, "only the right password shows the vault"
        assert password not in screen, "what is typed is not shown"


def commit_sides(repository: Repository, password: str = "prod.pass") -> None:
    """Commit a vault in three versions: the base, theirs on a branch, and ours."""
    for text, before in zip(SIDES, (":", "git checkout -qb branch", "git checkout -q -")):
        repository.shell(before)
        repository.put(VAULT, vault(text, password))
        repository.shell("git add -A && git commit -qm change")


# The commands that merge as the document's `git merge` does, and the text of the vault then.
MERGING = {
    "git merge --no-edit branch": MERGED,
    "git rebase branch": MERGED,
    "git cherry-pick branch": MERGED,
    "git reset -q --soft HEAD^ && git stash -q && git merge -q branch && git stash pop": MERGED,
    "git merge --no-edit branch && git revert --no-edit branch": SIDES[2].decode(),
}


@pytest.mark.parametrize("merging, text", MERGING.items(), ids=MERGING)
def test_merge(repository: Repository, merging: str, text: str) -> None:
    commit_sides(repository)
    commands, _, _ = COMMANDS[MERGE].partition("\nansible-vault-edit ")
    install, merge = commands.split("\n")
    assert merge in MERGING
    assert repository.shell(f"{install} && {merging}").returncode == 0, "git merges what does not conflict"
    assert repository.shown(VIEW) == text, "what the vault has then"


def test_pipeline(repository: Repository) -> None:
    needs("ansible-playbook")
    vaults = {VAULT: vault(b"shared: staple\n", "ci.pass"), "dev.vault.yml": vault(b"a: 1\n", label="dev")}
    for name, content in (vaults | playbook("shared")).items():
        repository.put(name, content)
    repository.shell("git add -A && git commit -qm one && git update-ref refs/remotes/origin/main HEAD")
    shell, password = COMMANDS[PIPELINE], PASSWORDS["ci.pass"].decode()
    printed = repository.shown(f"set -e\n{shell}", VAULT_PASSWORD=password)
    wanted = '*\n1 decrypted, 0 failed, 1 with other labels (dev 1)\n*"msg": "staple"\n*'
    assert fnmatchcase(printed, wanted), "vaults are counted, and the playbook is run with the same password"
    assert repository.get("../secrets.yml") == b"shared: staple\n", "and a vault is decrypted"


# The paths of the files in the document.
FOR_PRE_COMMIT, FOR_PIPELINES = ".pre-commit-config.yaml", [".github/workflows/vaults.yml", ".gitlab-ci.yml"]
# What stands there for a clone of this project.
ADDRESS = "https://git.example.org/ansible-vault.git"


def ready_files() -> dict[str, str]:
    """Return the files that a reader can copy, by the path in their first line."""
    found = [block.partition("\n") for block in fenced(DOCUMENT, "yaml")]
    return {first.removeprefix("# "): text for first, _, text in found if first.startswith("# .")}


def commands_of(name: str) -> list[str]:
    """Return the commands that a pipeline runs, in their order."""
    import yaml

    job = yaml.safe_load(ready_files()[name])
    if "vaults" in job:
        return [*job["vaults"]["before_script"], *job["vaults"]["script"]]
    return [step["run"] for step in job["jobs"]["vaults"]["steps"] if "run" in step]


@pytest.fixture
def address(repository: Repository) -> dict[str, str]:
    """Return the variables that lead git from the address to a clone of this project, whose commit is `COMMIT`."""
    source = repository.path / "source"
    files = " ".join(str(ROOT / name) for name in ("companions", ".pre-commit-hooks.yaml"))
    made = f"mkdir {source} && cp -r {files} {source} && cd {source} && git init -q && git add -A && git commit -qm one"
    commit = repository.shown(f"{made} && git rev-parse HEAD").strip()
    key = f"url.{source}.insteadOf"
    return {"GIT_CONFIG_COUNT": "1", "GIT_CONFIG_KEY_0": key, "GIT_CONFIG_VALUE_0": ADDRESS, "COMMIT": commit}


# What later commits make of a vault, and the status of the pipeline.
PUSHED: dict[str, tuple[list[bytes], int]] = {
    "a vault": ([vault(b"a: 2\n")], 0),
    "plaintext": ([b"a: 2\n"], 1),
    "plaintext, and then a vault again": ([b"a: 2\n", vault(b"a: 3\n")], 1),
}


@pytest.mark.parametrize("name", FOR_PIPELINES)
@pytest.mark.parametrize("pushed, status", PUSHED.values(), ids=PUSHED)
def test_ready_pipeline(
    repository: Repository, address: dict[str, str], name: str, pushed: list[bytes], status: int
) -> None:
    """The commands of the file fail where a commit had plaintext, in a clone as a pipeline makes it."""
    needs_pyyaml()
    repository.script('exec "$@"', "tools/sudo")
    repository.script("exit 0", "tools/apt-get")
    for content in (vault(b"a: 1\n"), *pushed):
        repository.put("vault.yml", content)
        repository.shown("git add -A && git commit -qm change")
    since = repository.shown(f"git clone -q . ../pipeline/work && git rev-parse HEAD~{len(pushed)}").strip()
    shell = "\n".join(["set -e", *commands_of(name)])
    done = repository.shell(shell, "bash", "../pipeline/work", SINCE=since, **address)
    assert (done.returncode, "vault.yml is not " in done.stderr) == (status, status == 1), done


# What a pipeline has for a pull request and for a push, where these come after the commit BASE.
ZEROS = "0" * 40
ON_GITHUB = [
    {"github.event.pull_request.base.sha": "BASE", "github.event.pull_request.head.sha": "HEAD", "github.sha": "HEAD"},
    {"github.event.before": "BASE", "github.event.after": "HEAD", "github.sha": "HEAD"},
]
ON_GITLAB = [
    {
        "CI_PIPELINE_SOURCE": "merge_request_event",
        "CI_MERGE_REQUEST_DIFF_BASE_SHA": "BASE",
        "CI_COMMIT_BEFORE_SHA": ZEROS,
        "CI_COMMIT_SHA": "HEAD",
    },
    {
        "CI_PIPELINE_SOURCE": "push",
        "CI_COMMIT_BRANCH": "main",
        "CI_DEFAULT_BRANCH": "main",
        "CI_COMMIT_BEFORE_SHA": "BASE",
        "CI_COMMIT_SHA": "HEAD",
    },
]


def begin_on_github(job: dict[str, Any], variables: dict[str, str]) -> str:
    """Return what SINCE becomes: the first of its alternatives that is there."""
    names = job["jobs"]["vaults"]["env"]["SINCE"].removeprefix("${{").removesuffix("}}").split("||")
    return next(variables[name.strip()] for name in names if name.strip() in variables)


def begin_on_gitlab(job: dict[str, Any], variables: dict[str, str]) -> str:
    """Return what SINCE becomes: that of the first rule whose conditions hold."""
    for rule in job["vaults"]["rules"]:
        pairs = [condition.split(" == ") for condition in rule["if"].split(" && ")]
        if all(expand(left, variables) == expand(right.strip('"'), variables) for left, right in pairs):
            return expand(rule["variables"]["SINCE"], variables)
    return "no rule"


def expand(text: str, variables: dict[str, str]) -> str:
    return variables.get(text[1:], "") if text.startswith("$") else text


def test_beginning_of_pipelines() -> None:
    """Whatever starts a pipeline, it checks each commit from the one before, and not from the last one on."""
    needs_pyyaml()
    import yaml

    jobs = [yaml.safe_load(ready_files()[name]) for name in FOR_PIPELINES]
    github, gitlab = sorted(jobs, key=lambda job: "vaults" in job)
    assert [begin_on_github(github, variables) for variables in ON_GITHUB] == ["BASE"] * 2
    assert [begin_on_gitlab(gitlab, variables) for variables in ON_GITLAB] == ["BASE"] * 2


def test_ready_pre_commit(repository: Repository, address: dict[str, str]) -> None:
    needs("pre-commit")
    repository.put(FOR_PRE_COMMIT, ready_files()[FOR_PRE_COMMIT].replace("COMMIT", address["COMMIT"]).encode())
    [install] = re.findall("`(pre-commit install .*?)`", DOCUMENT)
    variables = address | {"PRE_COMMIT_HOME": str(repository.path / "pre-commit")}
    repository.put("vault.yml", vault(b"a: 1\n"))
    done = repository.shell(f"{install} && git add -A && git commit -qm one", **variables)
    assert done.returncode == 0, done.stdout + done.stderr
    repository.put("vault.yml", b"a: 1\n")
    done = repository.shell("git commit -qam two", **variables)
    assert (done.returncode, "vault.yml is not encrypted" in done.stdout + done.stderr) == (1, True), done


def prepare_examples(repository: Repository, password: str) -> str:
    """Create what the examples on the companions' pages work on, and return the editor."""
    files = {"a.yml": vault(b"a: 1\n", password), "b.yml": vault(b"b: 1\n", password)}
    files[BLOCKS] = block("db_password", b"correct horse", password)
    for name, content in (CONFIGURED | files).items():
        repository.put(name, content)
    repository.put("get-pass", b"#!/bin/sh\ncat prod.pass\n", 0o755)
    commit_sides(repository, password=password)
    repository.shell("git update-ref refs/remotes/origin/main HEAD^")
    repository.script(CODE, "tools/code")
    return repository.script("sed -i -e 's/horse/staple/' -e 's/a: ./a: 2/' \"$1\"")


@pytest.mark.parametrize("name, title", OF_COMPANIONS)
def test_companion_example(repository: Repository, name: str, title: str) -> None:
    """Each example ends as expected, and prints nothing on standard error. If it asks for a password, type it."""
    shell = examples(name)[title]
    password = "old.pass" if name == "ansible-vault-rotate" else "new.pass" if "dropped" in shell else "prod.pass"
    editor = prepare_examples(repository, password)
    if "prompt" in shell or "--ask-" in shell:
        typed = repository.pasted(shell.rstrip() + " && echo d''one; exit\n", PASSWORDS["prod.pass"].decode())
        assert "done\r\n" in typed
        return
    if "HEAD^2" in shell:
        repository.shell("git merge branch; git commit -qam merged")
        assert b"<<<<<<<" in repository.get(VAULT), "git alone tears the vault"
    ran = repository.shell(shell, EDITOR=editor, EDITOR_OF_TEST=editor, secret="correct horse", GIT_EDITOR="true")
    assert ran.returncode == (1 if "--dry-run" in shell else 0), ran
    assert without_reports(ran.stderr) == "", "nothing fails"
    if name == "ansible-vault-merge":
        assert repository.shown(VIEW) == MERGED, "it has the changes of both sides"
