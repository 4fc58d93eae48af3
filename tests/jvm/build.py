"""Builds the agent library and the driver, with the JDK of the `java` on the path and the C compiler `cc`."""

import pathlib
import re
import shutil
import subprocess

HERE = pathlib.Path(__file__).resolve().parent
BUILT = HERE / "build"
LIBRARY = BUILT / "libwalks.so"
CLASSES = BUILT / "classes"
OLDEST = 17


class Missing(Exception):
    """What the kit needs and does not find."""


def settings():
    """The version and the home of the `java` on the path."""
    if not shutil.which("java"):
        raise Missing(f"no `java` on the path: this needs a JDK of version {OLDEST} or later")
    shown = subprocess.run(["java", "-XshowSettings:properties", "-version"], capture_output=True, text=True).stderr
    names = ("java.specification.version", "java.home")
    found = [re.search(rf"^ *{re.escape(name)} = (.*)$", shown, re.MULTILINE) for name in names]
    if not all(found):
        raise Missing("`java -XshowSettings:properties -version` tells no version and no home")
    return found[0][1], pathlib.Path(found[1][1])


def home():
    """The JDK's folder, which has all that is needed."""
    version, folder = settings()
    if not version.isdigit() or int(version) < OLDEST:
        raise Missing(f"`java` is of version {version}: this needs a JDK of version {OLDEST} or later")
    for name in ("bin/javac", "include/jvmti.h"):
        if not folder.joinpath(name).exists():
            raise Missing(f"no {name} in {folder}: this needs a JDK, and not a runtime alone")
    if not shutil.which("cc"):
        raise Missing("no `cc` on the path: this needs a C compiler")
    return folder


def run(words):
    done = subprocess.run(words, stdout=subprocess.PIPE, stderr=subprocess.STDOUT, text=True)
    if done.returncode:
        raise Missing(f"{words[0]} failed:\n{done.stdout}")


def build_library(folder, made, sources, *more):
    """Builds an agent library of C files, with the headers of the JDK in a folder."""
    made.parent.mkdir(parents=True, exist_ok=True)
    includes = [folder / "include", *{path.parent for path in folder.glob("include/*/jni_md.h")}]
    flags = ["-O1", "-Wall", "-Wextra", "-shared", "-fPIC", "-pthread", *(f"-I{path}" for path in includes)]
    run(["cc", *flags, "-o", made, *sorted(sources), *more])


def build():
    """Builds both anew."""
    folder = home()
    CLASSES.mkdir(parents=True, exist_ok=True)
    build_library(folder, LIBRARY, HERE.glob("agent/*.c"))
    run([folder / "bin/javac", "-Xlint", "-g:lines", "-d", CLASSES, *sorted(HERE.glob("driver/*.java"))])
