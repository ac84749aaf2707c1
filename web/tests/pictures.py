"""pictures.py: takes the four pictures of web/README.md anew, in docs/web, from web/playground.html. It needs what
web/install installs, and pngquant, which makes the files small. It takes some seconds. Look at them before committing.
"""

import subprocess

from page_test import PAGE, WEB, start

PICTURES = {
    "tour-light": ("tour-9", 1280, 760, "light"),
    "example-dark": ("shop", 1280, 860, "dark"),
    "phone-light": ("initial", 400, 1000, "light"),
    "phone-dark": ("tour-4", 400, 1000, "dark"),
}


def main():
    browser = start()
    folder = WEB.parent / "docs" / "web"
    folder.mkdir(exist_ok=True)
    for picture, (name, width, height, scheme) in PICTURES.items():
        size = {"width": width, "height": height, "deviceScaleFactor": 1, "mobile": False}
        media = {"features": [{"name": "prefers-color-scheme", "value": scheme}]}
        browser.execute_cdp_cmd("Emulation.setDeviceMetricsOverride", size)
        browser.execute_cdp_cmd("Emulation.setEmulatedMedia", media)
        browser.get("about:blank")
        browser.get(f"{PAGE}#{name}")
        browser.implicitly_wait(10)
        browser.find_element("css selector", ".picture svg")
        file = folder / f"{picture}.png"
        browser.save_screenshot(str(file))
        subprocess.run(["pngquant", "--force", "--nofs", "--output", file, "200", file], check=True)
    browser.quit()


main()
