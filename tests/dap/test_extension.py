"""The extension for VS Code: a package that is whole, and whose debugger is the adapter."""
import json
import subprocess
import sys
import tempfile
import unittest
import zipfile
from xml.etree import ElementTree

import header
import places

SCHEMA = "{http://schemas.microsoft.com/developer/vsx-schema/2011}"
TYPES = {"string": str, "number": int, "boolean": bool, "array": list, "object": dict}
OPTIONS = {"attach": {"host", "port", "stopAll", "stopOnEntry", "sourceContent", "pathMappings"},
           "launch": {"program", "runtimeExecutable", "runtimeArgs", "cwd", "env", "stopAll", "stopOnEntry"}}


class Extension(unittest.TestCase):
    def setUp(self):
        package = zipfile.ZipFile(places.EXTENSION)
        self.addCleanup(package.close)
        self.package, self.names = package, package.namelist()
        self.json = json.loads(package.read("extension/package.json"))
        self.debugger, = self.json["contributes"]["debuggers"]

    def test_files(self):
        self.assertIsNone(self.package.testzip())
        self.assertEqual(sorted(self.names), ["[Content_Types].xml", "extension.vsixmanifest", "extension/README.md", "extension/cq-dap.pyz",
                                              "extension/package.json"])
        types = ElementTree.fromstring(self.package.read("[Content_Types].xml"))
        self.assertEqual({f".{name.rsplit('.', 1)[1]}" for name in self.names} - {".xml"}, {one.get("Extension") for one in types})

    def test_manifest_says_what_the_json_says(self):
        manifest = ElementTree.fromstring(self.package.read("extension.vsixmanifest"))
        identity = manifest.find(f"{SCHEMA}Metadata/{SCHEMA}Identity")
        self.assertEqual((identity.get("Id"), identity.get("Publisher"), identity.get("Version")),
                         (self.json["name"], self.json["publisher"], self.json["version"]))
        self.assertEqual(self.json["version"], ".".join(map(str, header.version())))
        for asset in manifest.iter(f"{SCHEMA}Asset"):
            self.assertIn(asset.get("Path"), self.names)
        engine = next(one.get("Value") for one in manifest.iter(f"{SCHEMA}Property") if one.get("Id").endswith(".Engine"))
        self.assertEqual(engine, self.json["engines"]["vscode"])

    def test_it_has_no_code_of_its_own(self):
        for name in "main", "browser", "scripts", "dependencies":
            self.assertNotIn(name, self.json)
        self.assertEqual(self.json["contributes"]["breakpoints"], [{"language": "lua"}, {"language": "python"}])

    def test_its_program_is_the_adapter(self):
        self.assertEqual((self.debugger["runtime"], self.debugger["program"]), ("python3", "./cq-dap.pyz"))
        with tempfile.TemporaryDirectory() as room:
            program = self.package.extract("extension/cq-dap.pyz", room)
            request = b'{"seq": 1, "type": "request", "command": "threads"}'
            done = subprocess.run([sys.executable, program], input=b"Content-Length: %d\r\n\r\n" % len(request) + request, capture_output=True,
                                  timeout=60, check=True)
        self.assertIn(b'"threads": []', done.stdout)

    def test_attributes_are_those_that_the_adapter_takes(self):
        for how, names in OPTIONS.items():
            attributes = self.debugger["configurationAttributes"][how]
            self.assertEqual(set(attributes["properties"]), names)
            self.assertLessEqual(set(attributes["required"]), names)

    def test_snippets_and_first_configurations(self):
        """Each has what is required, and nothing that is unknown."""
        snippets = [one["body"] for one in self.debugger["configurationSnippets"]]
        self.assertEqual({one["request"] for one in snippets}, {"launch", "attach"})
        for one in snippets + self.debugger["initialConfigurations"]:
            attributes = self.debugger["configurationAttributes"][one["request"]]
            own = set(one) - {"type", "request", "name"}
            self.assertEqual(one["type"], self.debugger["type"])
            self.assertLessEqual(set(attributes["required"]), own)
            self.assertLessEqual(own, set(attributes["properties"]))
            for name in own:
                kinds = attributes["properties"][name]["type"]
                self.assertIn(type(one[name]), [TYPES[kind] for kind in ([kinds] if isinstance(kinds, str) else kinds)])
