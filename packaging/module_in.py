#!/usr/bin/env python3
"""`module_in.py PAGE OUT` writes the WebAssembly module that stands within the playground's page. Its checksum has to
be the one that the page names."""

import base64
import hashlib
import re
import sys


def module_in(text: str) -> bytes:
    within = re.search(r'<script type="text/plain" id="module">(.*?)</script>', text, re.S)
    named = re.search(r"SHA-256 <code>([0-9a-f]{64})</code>", text)
    if not within or not named:
        sys.exit("module_in: the page has no module, or names no checksum of it")
    module = base64.b64decode(within[1])
    if hashlib.sha256(module).hexdigest() != named[1]:
        sys.exit("module_in: the page's module isn't that of its checksum")
    return module


def main(page: str, out: str) -> None:
    with open(page, encoding="utf-8") as it:
        module = module_in(it.read())
    with open(out, "wb") as it:
        it.write(module)


if __name__ == "__main__":
    main(*sys.argv[1:])
