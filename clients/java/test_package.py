#!/usr/bin/env python3
"""Makes the package of the client for Java, and uses it from a small project of Maven, without network.

    PYTHONPATH=tests clients/java/test_package.py [PROGRAM]

tests/clients runs it. It needs a JDK, and the packages maven, libmaven-compiler-plugin-java, libmaven-resources-plugin-java
and junit5 of Debian. The last line is `N passed, M failed`.
"""
import hashlib
import os
import shutil
import subprocess
import sys
import unittest
import zipfile

from harness import servers, suite
from harness.places import JAVA, read

PROGRAM = os.path.realpath(suite.named_program())
# Where Debian's packages put what they bring for Maven.
DEBIAN = "/usr/share/maven-repo"
SECONDS = 300


def ran(words, where):
    ended = subprocess.run(words, cwd=where, stdin=subprocess.DEVNULL, stdout=subprocess.PIPE, stderr=subprocess.STDOUT, text=True,
                           errors="replace", timeout=SECONDS)
    if ended.returncode:
        raise AssertionError(f"{words}: status {ended.returncode}: {ended.stdout[-3000:]}")
    return ended.stdout


class Package(unittest.TestCase):
    @classmethod
    def setUpClass(cls):
        cls.room = cls.enterClassContext(servers.temporary_directory())
        client = os.path.join(cls.room, "java")
        shutil.copytree(JAVA, client, ignore=shutil.ignore_patterns("out"))
        cls.said = ran([os.path.join(client, "build"), "package"], cls.room)
        cls.version = read(os.path.join(JAVA, "VERSION")).strip()
        cls.repository = os.path.join(client, "out", "repository")
        cls.folder = os.path.join(cls.repository, "dchm", "dchm-client", cls.version)
        cls.name = f"dchm-client-{cls.version}"

    def test_the_version_is_that_of_the_server(self):
        self.assertEqual(ran([PROGRAM, "--version"], self.room).split("\n")[0], "dchm " + self.version)

    def test_there_are_the_jars_and_a_pom_with_their_sums(self):
        self.assertEqual(self.said, "", "a warning")
        wanted = [self.name + end for end in (".jar", "-sources.jar", "-javadoc.jar", ".pom")]
        self.assertEqual(sorted(os.listdir(self.folder)), sorted(wanted + [name + ".sha1" for name in wanted]))
        for name in wanted:
            with open(os.path.join(self.folder, name), "rb") as file:
                self.assertEqual(hashlib.sha1(file.read()).hexdigest(), read(os.path.join(self.folder, name + ".sha1")).strip())
        for end, inside in ((".jar", "DchmMap.class"), ("-sources.jar", "DchmMap.java"), ("-javadoc.jar", "DchmMap.html")):
            with zipfile.ZipFile(os.path.join(self.folder, self.name + end)) as jar:
                self.assertIn("dchm/client/" + inside, jar.namelist())
        with zipfile.ZipFile(os.path.join(self.folder, self.name + ".jar")) as jar:
            manifest = jar.read("META-INF/MANIFEST.MF").decode().splitlines()
        self.assertIn("Implementation-Version: " + self.version, manifest)
        self.assertIn("Automatic-Module-Name: dchm.client", manifest)

    def test_a_project_of_maven_uses_it_without_network(self):
        project, local = os.path.join(self.room, "project"), os.path.join(self.room, "local")
        shutil.copytree(os.path.join(JAVA, "project"), project)
        shutil.copytree(DEBIAN, local, copy_function=os.symlink)
        shutil.copytree(self.repository, local, dirs_exist_ok=True)
        ran(["mvn", "-q", "-o", "-B", "-Dmaven.repo.local=" + local, "compile"], project)
        path = os.pathsep.join((os.path.join(project, "target", "classes"), os.path.join(self.folder, self.name + ".jar")))
        program = ["java", "-cp", path, "app.App"]
        port = servers.free_port()
        self.assertEqual(ran([*program, str(port)], self.room), f"dchm-client {self.version}\nno server\n")
        servers.init(PROGRAM, os.path.join(self.room, "map"))
        with servers.dchm(PROGRAM, os.path.join(self.room, "map"), 2) as (_, port):
            for runs in (1, 2):
                self.assertEqual(ran([*program, str(port)], self.room), f"dchm-client {self.version}\n{runs}\n")


if __name__ == "__main__":
    sys.exit(suite.run_tests())
