"""The Debian packages of a release, by debhelper: what lies in a tree is packed as release/debian says. Nothing is built."""

import email.utils
import os
import re
import shutil
import subprocess

HERE = os.path.dirname(os.path.abspath(__file__))
TOP = os.path.dirname(HERE)
#: without the library of rings these are not made
OF_LIBRARY = ("libwozgirt0", "libwozgirt-dev")
#: what has to be installed to make packages, each with its Debian package
TOOLS = {"dpkg-buildpackage": "dpkg-dev", "dh": "debhelper", "dh_python3": "dh-python"}
REVISION = 1
#: the package before these, which had all of them in one, and when
SINGLE, WHEN = "0.1.0", 1796006903


def read(*names):
    with open(os.path.join(*names), encoding="utf-8") as file:
        return file.read()


def lacking():
    """The Debian packages that have to be installed first."""
    return [package for tool, package in TOOLS.items() if not shutil.which(tool)]


def control(has_library):
    """The list of packages."""
    paragraphs = read(HERE, "debian/control").split("\n\n")
    return "\n\n".join(it for it in paragraphs if has_library or not re.match(rf"Package: ({'|'.join(OF_LIBRARY)})\n", it)).rstrip("\n") + "\n"


def changelog(version, date):
    maintainer = re.search("^Maintainer: (.*)$", control(True), re.MULTILINE)[1]
    entries = ((f"{version}-{REVISION}", "What each version brought is in changelog.gz.", date), (SINGLE, "One package.", WHEN))
    return "\n".join(f"wozgirt ({number}) unstable; urgency=medium\n\n  * {text}\n\n -- {maintainer}  {email.utils.formatdate(when)}\n"
                     for number, text, when in entries)


def make_packages(folder, out, version, date, has_library):
    """Makes the packages of what lies in `files` of the folder, and moves them to `out`. Returns their names."""
    shutil.copytree(f"{HERE}/debian", f"{folder}/debian")
    shutil.copyfile(f"{HERE}/copyright", f"{folder}/debian/copyright")
    shutil.copyfile(f"{TOP}/CHANGELOG.md", f"{folder}/CHANGELOG.md")
    for name, text in (("control", control(has_library)), ("changelog", changelog(version, date))):
        with open(f"{folder}/debian/{name}", "w", encoding="utf-8") as file:
            file.write(text)
    ran = subprocess.run(["dpkg-buildpackage", "-b", "-us", "-uc", "-nc", "-d"], cwd=folder, env=dict(os.environ, SOURCE_DATE_EPOCH=str(date)),
                         stdin=subprocess.DEVNULL, stdout=subprocess.PIPE, stderr=subprocess.STDOUT, text=True, check=False)
    if ran.returncode:
        raise SystemExit(f"{ran.stdout}the Debian packages are not made")
    names = sorted(it for it in os.listdir(os.path.dirname(folder)) if it.endswith(".deb"))
    for name in names:
        shutil.move(f"{os.path.dirname(folder)}/{name}", f"{out}/{name}")
    return names
