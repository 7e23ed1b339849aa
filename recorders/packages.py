#!/usr/bin/env python3
"""packages.py [--write]: looks whether the recorders can be installed as packages of their languages. Each is built and
installed without a network into an empty project, whose program records two events; the stream has to be the same in
all languages. The folders of the recorders are copied first, so that nothing is left in them.

Each package has the version of the program, which stands in crates/app_arguments/src/commands.rt, and Go's module the
path in go/place, by which Go fetches it from where the repository is. With --write both are put into all files that
have them. What can't be tried since a tool is missing is named in the last line. The status is 1 if
anything is wrong."""
import concurrent.futures
import glob
import os
import re
import shutil
import subprocess
import sys
import tempfile

HERE = os.path.dirname(os.path.abspath(__file__))
SOURCE = os.path.join(HERE, "..", "crates", "app_arguments", "src", "commands.rt")
# Where a package says its version. Go's module has none in a file: it is that of a tag.
VERSIONS = {"python/pyproject.toml": r'^version = "(.*)"$', "javascript/package.json": r'^  "version": "(.*)",$',
            "rust/Cargo.toml": r'^version = "(.*)"$', "c/monitor_recorder.pc": r"^Version: (.*)$",
            "java/pom.xml": r"^  <version>(.*)</version>$"}
# The path of Go's module, and the files that have it too.
PLACE, GO_MODULE = "go/place", "go/go.mod"
WITH_PLACE = ["README.md", "go/README.md", GO_MODULE, "go/**/*.go"]
STREAM = """{"process":"left"}
{"set":{"inside":1}}
{"send":"left-1","set":{"inside":0}}
{"end":true}
"""
PYTHON = """from monitor_http import record_client
from monitor_recorder import Recorder
record_client()
with Recorder.to_file("left", "left.stream") as left:
    left.event(inside=1)
    left.send(inside=0)
"""
JAVASCRIPT = """import { Recorder } from "monitor-recorder";
import { recordClients } from "monitor-recorder/http";
recordClients();
const left = Recorder.toFile("left", "left.stream");
left.event({ inside: 1 });
left.send({ inside: 0 });
left.end();
"""
GO = """package main

import (
	"net/http"

	"PLACE"
	"PLACE/httprec"
)

func main() {
	http.DefaultClient.Transport = httprec.Transport(nil, nil)
	left, err := record.ToFile("left", "left.stream")
	if err == nil {
		defer left.Close()
		err = left.Event(record.Set("inside", 1))
	}
	if err == nil {
		_, err = left.Send(record.Set("inside", 0))
	}
	if err == nil {
		err = left.End()
	}
	if err != nil {
		panic(err)
	}
}
"""
JAVA = """import static monitor.Recorder.set;

import java.net.http.HttpClient;
import java.nio.file.Path;
import monitor.Recorder;
import monitor.http.RecordingClient;

final class Main {
    public static void main(String[] arguments) throws Exception {
        HttpClient client = RecordingClient.over(HttpClient.newBuilder(), null);
        try (Recorder left = Recorder.toFile("left", Path.of("left.stream"))) {
            left.event(set("inside", 1));
            left.send(set("inside", 0));
            left.end();
        }
    }
}
"""
JAVA_PROJECT = """<project>
  <modelVersion>4.0.0</modelVersion>
  <groupId>program.example</groupId>
  <artifactId>program</artifactId>
  <version>0</version>
  <properties>
    <maven.compiler.release>17</maven.compiler.release>
    <project.build.sourceEncoding>UTF-8</project.build.sourceEncoding>
  </properties>
  <dependencies>
    <dependency>
      <groupId>monitor.example</groupId>
      <artifactId>monitor-recorder</artifactId>
      <version>%s</version>
    </dependency>
  </dependencies>
  <build>
    <plugins>
      <plugin>
        <artifactId>maven-compiler-plugin</artifactId>
        <version>3.10.1</version>
      </plugin>
    </plugins>
  </build>
</project>
"""
# Debian's packages put what Maven needs into this folder, in place of what it would fetch.
MAVEN_FOLDER = "/usr/share/maven-repo"
MAVEN_NEEDS = [*(f"org/apache/maven/plugins/maven-{name}-plugin"
                 for name in ("compiler", "install", "jar", "resources", "surefire")),
               "jakarta/servlet/jakarta.servlet-api/5.0.0"]
MAVEN_SETTINGS = f"""<settings>
  <mirrors>
    <mirror>
      <id>debian</id>
      <mirrorOf>*</mirrorOf>
      <url>file://{MAVEN_FOLDER}</url>
    </mirror>
  </mirrors>
</settings>
"""
RUST = """use monitor_recorder::{Error, Recorder};

fn main() -> Result<(), Error> {
    let left = Recorder::to_file("left", "left.stream")?;
    left.event(&[("inside", 1)])?;
    left.send(&[("inside", 0)])?;
    left.end()
}
"""
C = """#include <monitor_recorder.h>

int main(void)
{
    monitor_recorder *left;
    char id[MONITOR_ID_ROOM];
    return monitor_to_file("left", "left.stream", &left) != MONITOR_RECORDED
        || monitor_event(left, MONITOR_SET({"inside", 1})) != MONITOR_RECORDED
        || monitor_send(left, id, MONITOR_SET({"inside", 0})) != MONITOR_RECORDED
        || monitor_close(left) != MONITOR_RECORDED;
}
"""


class Failed(Exception):
    pass


class Missing(Exception):
    pass


class Project:
    """An empty folder for a program that uses a package, and a copy of the package beside it."""

    def __init__(self, folder, language):
        self.at = os.path.join(folder, "program")
        self.package = os.path.join(folder, "package")
        os.mkdir(self.at)
        unwanted = shutil.ignore_patterns("target", "__pycache__", "Cargo.lock")
        shutil.copytree(os.path.join(HERE, language), self.package, ignore=unwanted)

    def write(self, name, text):
        path = os.path.join(self.at, name)
        os.makedirs(os.path.dirname(path), exist_ok=True)
        with open(path, "w", encoding="utf-8") as file:
            file.write(text)

    def run(self, *words, **environment):
        done = subprocess.run(words, cwd=self.at, env={**os.environ, **environment}, stdout=subprocess.PIPE,
                              stderr=subprocess.STDOUT, encoding="utf-8", errors="replace", timeout=300)
        if done.returncode:
            raise Failed(f"{' '.join(words)} ends with {done.returncode}:\n{done.stdout}")
        return done.stdout.strip()


def need(*tools):
    for tool in tools:
        if shutil.which(tool) is None:
            raise Missing(f"no {tool}")


def python_with_setuptools():
    """A Python that can build a package without a network: pip would fetch setuptools and wheel otherwise."""
    for python in (sys.executable, "/usr/bin/python3"):
        look = [python, "-c", "import setuptools as s, wheel, pip; assert int(s.__version__.split('.')[0]) >= 61"]
        if os.path.exists(python) and subprocess.run(look, capture_output=True).returncode == 0:
            return python
    raise Missing("no Python with pip, wheel, and setuptools 61 or later")


def try_python(project):
    python = python_with_setuptools()
    project.run(python, "-m", "pip", "install", "--quiet", "--no-index", "--no-build-isolation", "--no-cache-dir",
                "--disable-pip-version-check", "--target", "installed", project.package)
    project.write("main.py", PYTHON)
    project.run(python, "main.py", PYTHONPATH="installed")


def try_javascript(project):
    need("node", "npm")
    cache = os.path.join(project.at, ".cache")
    project.write("package.json", '{"name":"program","version":"0.0.0","private":true}\n')
    packed = project.run("npm", "pack", "--silent", f"--cache={cache}", project.package)
    project.run("npm", "install", "--offline", "--no-audit", "--no-fund", f"--cache={cache}", f"./{packed}")
    project.write("main.mts" if shutil.which("tsc") else "main.mjs", JAVASCRIPT)
    if shutil.which("tsc"):
        project.run("tsc", "--strict", "--module", "node16", "--moduleResolution", "node16", "--target", "es2022",
                    "main.mts")
    project.run("node", "main.mjs")


def try_go(project):
    need("go")
    place = contents(PLACE).strip()
    project.write("go.mod", f"module program.example\n\ngo 1.19\n\nrequire {place} v0.0.0\n\n"
                            f"replace {place} => ../package\n")
    project.write("main.go", GO.replace("PLACE", place))
    project.run("go", "run", ".", GOPROXY="off", GOFLAGS="-mod=mod")


def try_java(project):
    need("mvn", "javac", "java")
    for name in MAVEN_NEEDS:
        if not os.path.exists(os.path.join(MAVEN_FOLDER, name)):
            raise Missing(f"no {name} in {MAVEN_FOLDER}")
    repository = os.path.join(project.at, "repository")
    project.write("settings.xml", MAVEN_SETTINGS)
    project.write("pom.xml", JAVA_PROJECT % version())
    project.write("src/main/java/Main.java", JAVA)
    maven = ["mvn", "--offline", "-Daether.offline.protocols=file", "--batch-mode", "--quiet",
             "--settings", "settings.xml", f"-Dmaven.repo.local={repository}"]
    quick = "-XX:TieredStopAtLevel=1 -XX:+UseSerialGC"
    project.run(*maven, "--file", os.path.join(project.package, "pom.xml"), "install", MAVEN_OPTS=quick)
    project.run(*maven, "compile", MAVEN_OPTS=quick)
    jar = os.path.join(repository, "monitor", "example", "monitor-recorder", version(),
                       f"monitor-recorder-{version()}.jar")
    project.run("java", "-cp", f"target/classes:{jar}", "Main")


def try_rust(project):
    need("cargo")
    project.write("Cargo.toml", '[package]\nname = "program"\nversion = "0.0.0"\nedition = "2021"\n\n[dependencies]\n'
                                'monitor_recorder = { path = "../package" }\n')
    project.write("src/main.rs", RUST)
    project.run("cargo", "run", "--quiet", "--offline", CARGO_TARGET_DIR=os.path.join(project.at, "target"))


def try_c(project):
    need("cc", "make", "pkg-config")
    prefix = os.path.join(project.at, "installed")
    project.run("make", "--silent", "-C", project.package, "install", f"PREFIX={prefix}")
    project.write("main.c", C)
    flags = project.run("pkg-config", "--cflags", "--libs", "monitor_recorder",
                        PKG_CONFIG_PATH=os.path.join(prefix, "lib", "pkgconfig")).split()
    project.run("cc", "-std=c11", "-Wall", "-Wextra", "-Werror", "-o", "main", "main.c", *flags)
    project.run("./main")


TRIED = {"python": try_python, "javascript": try_javascript, "go": try_go, "java": try_java, "rust": try_rust,
         "c": try_c}


def try_package(language):
    """What is wrong with a package, and what is missing to try it: None if nothing is."""
    try:
        with tempfile.TemporaryDirectory() as folder:
            project = Project(folder, language)
            TRIED[language](project)
            with open(os.path.join(project.at, "left.stream"), encoding="utf-8") as file:
                found = file.read()
    except Missing as error:
        return None, f"{language} ({error})"
    except (Failed, OSError, subprocess.TimeoutExpired) as error:
        return f"{language}: {error}", None
    return None if found == STREAM else f"{language}: its program recorded\n{found}and not\n{STREAM}", None


def contents(name):
    with open(os.path.join(HERE, name), encoding="utf-8") as file:
        return file.read()


def version():
    return re.search(r'^const VERSION: &str = "(.*)";$', contents(SOURCE), re.M)[1]


def wrong_place(write):
    """What is wrong with the path of Go's module, or nothing if it is to be written."""
    place, module = contents(PLACE).strip(), re.search(r"^module (\S+)$", contents(GO_MODULE), re.M)[1]
    if module == place:
        return
    if not write:
        yield f"{GO_MODULE} has the path {module}, and {PLACE} {place}: packages.py --write mends it"
        return
    for pattern in WITH_PLACE:
        for path in glob.glob(os.path.join(HERE, pattern), recursive=True):
            text = contents(path)
            if module in text:
                with open(path, "w", encoding="utf-8") as file:
                    file.write(text.replace(module, place))


def wrong_versions(write):
    """What is wrong with the versions of the packages, or nothing if they are to be written."""
    for name, pattern in VERSIONS.items():
        path = os.path.join(HERE, name)
        with open(path, encoding="utf-8") as file:
            text = file.read()
        found = re.search(pattern, text, re.M)
        if found and write:
            with open(path, "w", encoding="utf-8") as file:
                file.write(text[:found.start(1)] + version() + text[found.end(1):])
        elif not found or found[1] != version():
            yield f"{name} has version {found and found[1]}, and the program {version()}: packages.py --write mends it"


def main(words):
    if words not in ([], ["--write"]):
        print(__doc__, file=sys.stderr)
        return 2
    wrong = [*wrong_versions(words == ["--write"]), *wrong_place(words == ["--write"])]
    with concurrent.futures.ThreadPoolExecutor() as pool:
        found = list(pool.map(try_package, TRIED))
    wrong += [why for why, _ in found if why]
    left_out = [missing for _, missing in found if missing]
    print(*wrong, sep="\n", end="\n" if wrong else "")
    print(f"packages: {len(TRIED) - len(left_out)} tried, {len(wrong)} wrong; left out: "
          f"{', '.join(left_out) or 'nothing'}")
    return bool(wrong)


if __name__ == "__main__":
    sys.exit(main(sys.argv[1:]))
