#!/usr/bin/env python3
"""Makes out/cq-dap, the adapter in one file that Python runs, and out/cebdyraq-debug.vsix, the extension for VS Code that has it.

    build.py
"""

import json
import pathlib
import sys
import zipapp
import zipfile
from xml.sax.saxutils import quoteattr

sys.dont_write_bytecode = True

HERE = pathlib.Path(__file__).resolve().parent
sys.path.append(str(HERE.parent.parent / "ci"))

import header

OUT = HERE / "out"
ADAPTER, EXTENSION = OUT / "cq-dap", OUT / "cebdyraq-debug.vsix"
PROGRAM = "cq-dap.pyz"  # as the extension has it
TYPES = {"json": "application/json", "md": "text/markdown", "pyz": "application/octet-stream", "vsixmanifest": "text/xml"}
CONTENT_TYPES = """<?xml version="1.0" encoding="utf-8"?>
<Types xmlns="http://schemas.openxmlformats.org/package/2006/content-types">{}</Types>
"""
MANIFEST = """<?xml version="1.0" encoding="utf-8"?>
<PackageManifest Version="2.0.0" xmlns="http://schemas.microsoft.com/developer/vsx-schema/2011">
  <Metadata>
    <Identity Language="en-US" Id={name} Version={version} Publisher={publisher}/>
    <DisplayName>{title}</DisplayName>
    <Description xml:space="preserve">{description}</Description>
    <Categories>{categories}</Categories>
    <Properties>
      <Property Id="Microsoft.VisualStudio.Code.Engine" Value={engine}/>
      <Property Id="Microsoft.VisualStudio.Code.ExtensionKind" Value={kind}/>
    </Properties>
  </Metadata>
  <Installation><InstallationTarget Id="Microsoft.VisualStudio.Code"/></Installation>
  <Dependencies/>
  <Assets>
    <Asset Type="Microsoft.VisualStudio.Code.Manifest" Path="extension/package.json" Addressable="true"/>
    <Asset Type="Microsoft.VisualStudio.Services.Content.Details" Path="extension/README.md" Addressable="true"/>
  </Assets>
</PackageManifest>
"""


def is_source(path):
    return path.parts[0] == "cq_dap" and path.suffix == ".py"


def make_adapter():
    zipapp.create_archive(HERE, ADAPTER, interpreter="/usr/bin/env python3", main="cq_dap.__main__:main", filter=is_source, compressed=True)
    ADAPTER.chmod(0o755)


def package():
    """The extension's package.json, with the library's version."""
    return {**json.loads((HERE / "vscode/package.json").read_text()), "version": ".".join(map(str, header.version()))}


def manifest(of):
    return MANIFEST.format(name=quoteattr(of["name"]), version=quoteattr(of["version"]), publisher=quoteattr(of["publisher"]),
                           title=of["displayName"], description=of["description"], categories=",".join(of["categories"]),
                           engine=quoteattr(of["engines"]["vscode"]), kind=quoteattr(",".join(of["extensionKind"])))


def make_extension():
    of = package()
    defaults = "".join(f'<Default Extension=".{name}" ContentType="{kind}"/>' for name, kind in TYPES.items())
    with zipfile.ZipFile(EXTENSION, "w", zipfile.ZIP_DEFLATED) as made:
        made.writestr("[Content_Types].xml", CONTENT_TYPES.format(defaults))
        made.writestr("extension.vsixmanifest", manifest(of))
        made.writestr("extension/package.json", json.dumps(of, indent=2) + "\n")
        made.write(HERE / "README.md", "extension/README.md")
        made.write(ADAPTER, f"extension/{PROGRAM}")


def main():
    OUT.mkdir(exist_ok=True)
    make_adapter()
    make_extension()


if __name__ == "__main__":
    main()
