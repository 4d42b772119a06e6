"""Two real browsers, without a window: Debian's Chromium by selenium, Debian's Firefox by its Marionette port."""
import base64
import json
import socket
import subprocess
import tempfile
import time
from pathlib import Path

DOWN, UP, PAUSE = {"type": "pointerDown", "button": 0}, {"type": "pointerUp", "button": 0}, {"type": "pause"}

# The errors of Firefox's console, which is emptied. An even flag is an error, an odd one a warning.
COMPLAINTS = """const told = Services.console.getMessageArray(); Services.console.reset();
  return told.filter((it) => it instanceof Ci.nsIScriptError && it.flags % 2 === 0 && /^(file|blob):/.test(it.sourceName))
    .map((it) => it.errorMessage)"""


class Browser:
    """Beside these, both can `open`, `run`, `click`, `choose_files`, `drag`, `touch`, `keys`, `size`, `shot`."""

    def wait(self, script, seconds=120):
        """What a script answers, as soon as that is true."""
        end = time.time() + seconds
        while time.time() < end:
            found = self.run(script)
            if found:
                return found
            time.sleep(0.05)
        raise SystemExit(f"after {seconds} s still not: {script}; the page says: {self.said()}")

    def said(self):
        return self.run("return document.getElementById('status').textContent")


class Chromium(Browser):
    name, sizes = "Chromium", ((1300, 900), (390, 800))

    def __init__(self, width=1300, height=900):
        from selenium import webdriver
        from selenium.webdriver.chrome.service import Service

        options = webdriver.ChromeOptions()
        options.binary_location = "/usr/bin/chromium"
        for word in ("--headless=new", "--no-sandbox", "--disable-gpu", "--hide-scrollbars"):
            options.add_argument(word)
        options.set_capability("goog:loggingPrefs", {"browser": "ALL"})
        self.driver = webdriver.Chrome(options=options, service=Service("/usr/bin/chromedriver"))
        self.driver.set_script_timeout(300)
        self.size(width, height)

    def size(self, width, height):
        facts = {"width": width, "height": height, "deviceScaleFactor": 1, "mobile": width < 500}
        self.driver.execute_cdp_cmd("Emulation.setDeviceMetricsOverride", facts)

    def open(self, address):
        self.driver.get("about:blank")
        self.driver.get(address)

    def run(self, script, *values):
        return self.driver.execute_script(script, *values)

    def find(self, selector):
        from selenium.webdriver.common.by import By

        return self.driver.find_element(By.CSS_SELECTOR, selector)

    def click(self, selector):
        self.find(selector).click()

    def choose_files(self, selector, paths):
        self.find(selector).send_keys("\n".join(map(str, paths)))

    def drag(self, selector, points):
        """A stroke through points, in pixels from the element's middle."""
        from selenium.webdriver.common.action_chains import ActionChains

        element, chain = self.find(selector), ActionChains(self.driver, duration=20)
        chain.move_to_element_with_offset(element, *points[0]).click_and_hold()
        for point in points[1:]:
            chain.move_to_element_with_offset(element, *point)
        chain.release().perform()

    def touch(self, selector, points, other):
        """The same by a finger, beside which another one is laid down."""
        box = self.run("const b = document.querySelector(arguments[0]).getBoundingClientRect();"
                       " return [b.x + b.width / 2, b.y + b.height / 2]", selector)
        first, *rest = [{"x": box[0] + x, "y": box[1] + y, "id": 0} for x, y in points]
        second = {"x": box[0] + other[0], "y": box[1] + other[1], "id": 1}
        for kind, fingers in [("touchStart", [first]), ("touchStart", [first, second]),
                              *(("touchMove", [it, second]) for it in rest), ("touchEnd", [])]:
            self.driver.execute_cdp_cmd("Input.dispatchTouchEvent", {"type": kind, "touchPoints": fingers})

    def keys(self, selector, *keys):
        element = self.find(selector)
        for key in keys:
            element.send_keys(key)

    def shot(self, path):
        self.driver.save_screenshot(str(path))

    def complaints(self):
        """What the browser's console says is wrong."""
        return [entry["message"] for entry in self.driver.get_log("browser") if entry["level"] == "SEVERE"]

    def close(self):
        self.driver.quit()


class Firefox(Browser):
    name, sizes = "Firefox", ((1300, 900),)  # no window of it is as narrow as a telephone

    def __init__(self, width=1300, height=900):
        self.profile = tempfile.TemporaryDirectory()
        port = free_port()
        Path(self.profile.name, "user.js").write_text(f'user_pref("marionette.port", {port});\n')
        self.process = subprocess.Popen(
            ["firefox-esr", "--headless", "--no-remote", "--marionette", "--remote-allow-system-access", "--profile",
             self.profile.name],
            stdout=subprocess.DEVNULL, stderr=subprocess.DEVNULL)
        self.wire, self.count = self.connected(port), 0
        self.hear()
        self.ask("WebDriver:NewSession", capabilities={})
        self.ask("WebDriver:SetTimeouts", script=300000)
        self.size(width, height)

    def connected(self, port):
        for _ in range(300):
            try:
                return socket.create_connection(("127.0.0.1", port), 400)
            except OSError:
                time.sleep(0.2)
        raise SystemExit("Firefox opened no Marionette port in 60 s")

    def hear(self):
        size = b""
        while not size.endswith(b":"):
            size += self.wire.recv(1)
        left, data = int(size[:-1]), b""
        while len(data) < left:
            data += self.wire.recv(left - len(data))
        return json.loads(data)

    def ask(self, command, **values):
        self.count += 1
        words = json.dumps([0, self.count, command, values]).encode()
        self.wire.sendall(b"%d:%s" % (len(words), words))
        _, _, wrong, answer = self.hear()
        if wrong:
            raise SystemExit(f"Firefox, {command}: {wrong['message']}")
        return answer

    def open(self, address):
        self.ask("WebDriver:Navigate", url="about:blank")
        self.ask("WebDriver:Navigate", url=address)

    def run(self, script, *values):
        # by the page's own eval: a sandbox does not see what a script of the page declares
        text = f"JSON.stringify((function () {{ {script} }}).apply(null, {json.dumps(values)}) ?? null)"
        words = "return (window.wrappedJSObject ?? window).eval(arguments[0])"
        return json.loads(self.ask("WebDriver:ExecuteScript", script=words, args=[text])["value"])

    def size(self, width, height):
        """Sets the window so that the page in it has a size."""
        self.ask("WebDriver:SetWindowRect", width=width, height=height)
        inner = self.ask("WebDriver:ExecuteScript", script="return [innerWidth, innerHeight]", args=[])["value"]
        self.ask("WebDriver:SetWindowRect", width=2 * width - inner[0], height=2 * height - inner[1])

    def find(self, selector):
        found = self.ask("WebDriver:FindElement", using="css selector", value=selector)["value"]
        return found, *found.values()

    def click(self, selector):
        self.ask("WebDriver:ElementClick", id=self.find(selector)[1])

    def choose_files(self, selector, paths):
        self.ask("WebDriver:ElementSendKeys", id=self.find(selector)[1], text="\n".join(map(str, paths)))

    def keys(self, selector, *keys):
        self.ask("WebDriver:ElementSendKeys", id=self.find(selector)[1], text="".join(keys))

    def act(self, **pointers):
        """What pointers do side by side: of each its kind, and its steps."""
        self.ask("WebDriver:PerformActions", actions=[
            {"type": "pointer", "id": name, "parameters": {"pointerType": kind}, "actions": steps}
            for name, (kind, steps) in pointers.items()])
        self.ask("WebDriver:ReleaseActions")

    def stroke(self, selector, points):
        origin = self.find(selector)[0]
        first, *rest = [{"type": "pointerMove", "duration": 20, "origin": origin, "x": round(x), "y": round(y)}
                        for x, y in points]
        return [first, DOWN, *rest, UP]

    def drag(self, selector, points):
        self.act(mouse=("mouse", self.stroke(selector, points)))

    def touch(self, selector, points, other):
        first, down, *rest, up = self.stroke(selector, points)
        second, _, _ = self.stroke(selector, [other])
        pauses = [PAUSE] * len(rest)
        self.act(one=("touch", [first, down, PAUSE, PAUSE, *rest, up]),
                 two=("touch", [PAUSE, PAUSE, second, DOWN, *pauses, UP]))

    def shot(self, path):
        Path(path).write_bytes(base64.b64decode(self.ask("WebDriver:TakeScreenshot", full=False)["value"]))

    def complaints(self):
        """What the browser's console says is wrong in the page."""
        self.ask("Marionette:SetContext", value="chrome")
        found = self.ask("WebDriver:ExecuteScript", script=COMPLAINTS, args=[])["value"]
        self.ask("Marionette:SetContext", value="content")
        return found

    def close(self):
        try:
            self.ask("Marionette:Quit", flags=["eForceQuit"])
            self.process.wait(20)
        finally:
            if self.process.poll() is None:
                self.process.kill()
            self.profile.cleanup()


def free_port():
    with socket.socket() as probe:
        probe.bind(("127.0.0.1", 0))
        return probe.getsockname()[1]
