"""Commits that leak a vault, most of which the hook refuses."""

from companion_cases import sealed
from companion_cases.hook.around_vaults import (
    API,
    AWS,
    CERTIFICATE,
    CONFIG,
    DB,
    ENV,
    Files,
    KEY,
    KEYSTORE,
    NOISE,
    POINTER,
    PORT,
    SMTP,
    SSH_KEY,
    TASKS,
    USERS,
    VALUES,
    vault,
)

# Each leak, and the file that is to be refused.
LEAKS: dict[str, tuple[Files, Files, str]] = {
    # In its own place.
    "decrypted": ({"vault.yml": vault(DB)}, {"vault.yml": DB}, "vault.yml"),
    "decrypted and edited": ({"vault.yml": vault(DB)}, {"vault.yml": DB + PORT}, "vault.yml"),
    "its values": ({"vault.yml": vault(DB)}, {"vault.yml": VALUES}, "vault.yml"),
    "a list": ({"users.yml": vault(USERS)}, {"users.yml": USERS}, "users.yml"),
    "a key": ({"files/tls.key": vault(KEY)}, {"files/tls.key": KEY}, "files/tls.key"),
    "in git-lfs": ({"vault.yml": vault(DB)}, {"vault.yml": POINTER}, "vault.yml"),
    "text around an expression": ({"vault.yml": vault(DB)}, {"vault.yml": b"pw: 'x{{ y }}'\n"}, "vault.yml"),
    # What Ansible reads in its place.
    ".yaml": ({"vault.yml": vault(DB)}, {"vault.yaml": DB}, "vault.yaml"),
    ".yaml, edited": ({"vault.yml": vault(DB)}, {"vault.yaml": DB + PORT}, "vault.yaml"),
    ".json": ({"vault.yml": vault(API)}, {"vault.json": b'{"vault_api_token": "8f14e45fceea"}\n'}, "vault.json"),
    "no suffix": ({"group_vars/db.yml": vault(DB)}, {"group_vars/db": DB + PORT}, "group_vars/db"),
    "a suffix": ({"group_vars/db": vault(DB)}, {"group_vars/db.yml": DB + PORT}, "group_vars/db.yml"),
    "another case": (
        {"group_vars/all/Vault.yml": vault(DB)},
        {"group_vars/all/vault.yml": DB},
        "group_vars/all/vault.yml",
    ),
    "another case of a directory": ({"Group_Vars/db.yml": vault(DB)}, {"group_vars/db.yml": DB}, "group_vars/db.yml"),
    "main.json": ({"roles/a/vars/main.yml": vault(DB)}, {"roles/a/vars/main.json": CONFIG}, "roles/a/vars/main.json"),
    # A copy or another name beside it.
    ".bak": ({"vault.yml": vault(DB)}, {"vault.yml.bak": DB}, "vault.yml.bak"),
    ".dec": (
        {"group_vars/all/vault.yml": vault(API)},
        {"group_vars/all/vault.yml.dec": API},
        "group_vars/all/vault.yml.dec",
    ),
    ".txt": ({"vault.yml": vault(SMTP)}, {"vault.txt": SMTP}, "vault.txt"),
    "an editor's copy": ({"vault.yml": vault(AWS)}, {"vault.yml~": AWS}, "vault.yml~"),
    ".orig": ({"vault.yml": vault(AWS)}, {"vault.yml.orig": AWS}, "vault.yml.orig"),
    ".old, and edited a little": (
        {"vault.yml": vault(AWS)},
        {"vault.yml.old": AWS.replace(b"AKIA", b"ASIA")},
        "vault.yml.old",
    ),
    "an example that has the secrets": ({"vault.yml": vault(SMTP)}, {"vault.yml.example": SMTP}, "vault.yml.example"),
    ".pem": ({"files/tls.key": vault(KEY)}, {"files/tls.pem": KEY}, "files/tls.pem"),
    "a key without suffix": ({"files/id_rsa.key": vault(SSH_KEY)}, {"files/id_rsa": SSH_KEY}, "files/id_rsa"),
    ".env.txt": ({"app.env": vault(ENV)}, {"app.env.txt": ENV}, "app.env.txt"),
    "a bundle as a certificate": (
        {"haproxy.pem": vault(KEY + CERTIFICATE)},
        {"haproxy.crt": KEY + CERTIFICATE},
        "haproxy.crt",
    ),
    "a certificate before its key": (
        {"haproxy.pem": vault(CERTIFICATE + KEY)},
        {"ssl/haproxy.pem": CERTIFICATE + KEY},
        "ssl/haproxy.pem",
    ),
    "a template of its text": ({"files/app.env": vault(ENV)}, {"templates/app.env.j2": ENV}, "templates/app.env.j2"),
    # Elsewhere.
    "another directory": (
        {"group_vars/prod/vault.yml": vault(DB)},
        {"group_vars/live/vault.yml": DB},
        "group_vars/live/vault.yml",
    ),
    "a deeper directory": (
        {"group_vars/prod/vault.yml": vault(API)},
        {"inventories/prod/group_vars/all/vault.yml": API},
        "inventories/prod/group_vars/all/vault.yml",
    ),
    "the top": ({"inventories/prod/secrets.yml": vault(API)}, {"secrets.yml": API}, "secrets.yml"),
    "another case elsewhere": ({"a/Secrets.yml": vault(AWS)}, {"b/secrets.yml": AWS}, "b/secrets.yml"),
    "a key elsewhere": ({"files/tls.key": vault(KEY)}, {"roles/web/files/tls.key": KEY}, "roles/web/files/tls.key"),
    "an SSH key elsewhere": ({"id_ed25519": vault(SSH_KEY)}, {"files/id_ed25519": SSH_KEY}, "files/id_ed25519"),
    "an environment elsewhere": ({"app.env": vault(ENV)}, {"deploy/app.env": ENV}, "deploy/app.env"),
    "JSON elsewhere": (
        {"roles/a/files/config.json": vault(CONFIG)},
        {"config/config.json": CONFIG},
        "config/config.json",
    ),
    "a keystore elsewhere": ({"files/app.jks": vault(KEYSTORE)}, {"ssl/app.jks": KEYSTORE}, "ssl/app.jks"),
    "another suffix elsewhere": (
        {"group_vars/all/vault.yml": vault(API)},
        {"backup/vault.txt": API},
        "backup/vault.txt",
    ),
    "a renamed role": (
        {"roles/a/vars/main.yml": vault(SMTP)},
        {"roles/b/vars/main.yml": SMTP},
        "roles/b/vars/main.yml",
    ),
    "a renamed role, with other files": (
        {"roles/a/defaults/main.yml": vault(AWS), "roles/a/tasks/main.yml": TASKS},
        {"roles/b/defaults/main.yml": AWS, "roles/b/tasks/main.yml": TASKS, "roles/b/meta/main.yml": NOISE},
        "roles/b/defaults/main.yml",
    ),
    "defaults instead of variables": (
        {"roles/a/vars/main.yml": vault(API)},
        {"roles/a/defaults/main.yml": API},
        "roles/a/defaults/main.yml",
    ),
    "one of two": (
        {"a/x.yml": vault(DB), "b/x.yml": vault(API)},
        {"c/a/x.yml": vault(DB), "c/b/x.yml": API},
        "c/b/x.yml",
    ),
    "the other of two": (
        {"a/x.yml": vault(DB), "b/x.yml": vault(API)},
        {"c/a/x.yml": DB, "c/b/x.yml": sealed("new", API)},
        "c/a/x.yml",
    ),
    "one of three roles": (
        {f"roles/{role}/vars/main.yml": vault(text) for role, text in (("a", DB), ("b", API), ("c", AWS))},
        {"r/a/vars/main.yml": vault(DB), "r/b/vars/main.yml": API, "r/c/vars/main.yml": vault(AWS)},
        "r/b/vars/main.yml",
    ),
    "seven hosts in another directory": (
        {f"host_vars/h{number}/vault.yml": vault(API * number) for number in range(1, 8)},
        {f"live/host_vars/h{number}/vault.yml": API * number for number in range(1, 8)},
        "live/host_vars/h7/vault.yml",
    ),
    "a lock file of git-lfs": ({"files/app.jks": vault(KEYSTORE)}, {"ssl/app.jks": POINTER}, "ssl/app.jks"),
    "one value changed": ({"a/db.yml": vault(DB)}, {"b/db.yml": DB.replace(b"Ahng4ooph2", b"kei8Ohghoo")}, "b/db.yml"),
    # A file becomes a directory, or the reverse.
    "main.yml in a directory": (
        {"group_vars/db.yml": vault(DB)},
        {"group_vars/db/main.yml": DB},
        "group_vars/db/main.yml",
    ),
    "vars.yml in a directory": (
        {"group_vars/all.yml": vault(API)},
        {"group_vars/all/x.yml": API},
        "group_vars/all/x.yml",
    ),
    "a directory of a file without suffix": (
        {"group_vars/db": vault(DB)},
        {"group_vars/db/x.yml": DB},
        "group_vars/db/x.yml",
    ),
    "a file for a directory": ({"group_vars/db/vault.yml": vault(DB)}, {"group_vars/db.yml": DB}, "group_vars/db.yml"),
    "a .yaml file for a directory": (
        {"group_vars/db/vault.yml": vault(DB)},
        {"group_vars/db.yaml": DB},
        "group_vars/db.yaml",
    ),
    "no suffix for a directory": ({"group_vars/db/vault.yml": vault(DB)}, {"group_vars/db": DB}, "group_vars/db"),
    "a directory for .yaml": ({"group_vars/db.yaml": vault(AWS)}, {"group_vars/db/x.yml": AWS}, "group_vars/db/x.yml"),
    "a host's directory": (
        {"host_vars/web1.yml": vault(API)},
        {"host_vars/web1/vault.yml": API},
        "host_vars/web1/vault.yml",
    ),
    "a host with dots": (
        {"host_vars/db.example.org.yml": vault(API)},
        {"host_vars/db.example.org/main.yml": API},
        "host_vars/db.example.org/main.yml",
    ),
    # With an edit in the same commit.
    "a directory, and a key more": (
        {"group_vars/all.yml": vault(DB)},
        {"group_vars/all/main.yml": DB + PORT},
        "group_vars/all/main.yml",
    ),
    "two files in a directory": (
        {"group_vars/db.yml": vault(DB + API)},
        {"group_vars/db/db.yml": DB, "group_vars/db/api.yml": API},
        "group_vars/db/db.yml",
    ),
    "another directory, and a key more": ({"a/vault.yml": vault(API)}, {"b/vault.yml": API + PORT}, "b/vault.yml"),
    "a copy, and a key less": ({"vault.yml": vault(SMTP)}, {"vault.yml.bak": SMTP[21:]}, "vault.yml.bak"),
    # Another name.
    "a renamed host": ({"host_vars/web1.yml": vault(API)}, {"host_vars/web01.yml": API}, "host_vars/web01.yml"),
    "another name beside it": (
        {"group_vars/db/vault.yml": vault(DB)},
        {"group_vars/db/secrets.yml": DB},
        "group_vars/db/secrets.yml",
    ),
    "another directory of another group": (
        {"group_vars/all.yml": vault(API)},
        {"inventories/prod/group_vars/all/main.yml": API},
        "inventories/prod/group_vars/all/main.yml",
    ),
    # Beside a vault that stays.
    "a copy of a vault that stays": ({}, {"group_vars/web.yml.dec": SMTP}, "group_vars/web.yml.dec"),
    "a text beside a vault that stays": ({}, {"group_vars/web.txt": SMTP}, "group_vars/web.txt"),
    "a copy of a vault that changes": (
        {"vault.yml": vault(DB)},
        {"vault.yml": vault(DB + PORT), "vault.yml.bak": DB},
        "vault.yml.bak",
    ),
    "a copy of a new vault": ({}, {"new/vault.yml": vault(DB), "new/vault.yml.dec": DB}, "new/vault.yml.dec"),
    # Elsewhere, while the vault stays.
    "a copy by the name of a vault": (
        {"files/vcenter.json": vault(CONFIG)},
        {"files/vcenter.json": vault(CONFIG), "tmp/vcenter.json": CONFIG},
        "tmp/vcenter.json",
    ),
    "another environment's copy": (
        {"environments/prod/db/secrets.yml": vault(DB)},
        {"environments/prod/db/secrets.yml": vault(DB), "environments/staging/db/secrets.yml": DB},
        "environments/staging/db/secrets.yml",
    ),
    # What the hook cannot know.
    "a list elsewhere": ({"vars/users.yml": vault(USERS)}, {"roles/a/vars/users.yml": USERS}, "roles/a/vars/users.yml"),
    "half of a split": (
        {"group_vars/db.yml": vault(DB)},
        {"group_vars/db/vars.yml": vault(NOISE), "group_vars/db/vault.yml": DB},
        "group_vars/db/vault.yml",
    ),
    "a file that was there": (
        {"group_vars/db.yml": vault(DB), "vars/db.yml": NOISE},
        {"vars/db.yml": NOISE + DB},
        "vars/db.yml",
    ),
    "a comment": ({"vault.yml": vault(DB)}, {"vault.yml": b"# " + DB.replace(b"\n", b"\n# ") + b"\n"}, "vault.yml"),
    "a key of a mapping": (
        {"vault.yml": vault(DB)},
        {"vault.yml": b"passwords: {Ahng4ooph2: , eiYai0aeKe3i: }\n"},
        "vault.yml",
    ),
}
