"""Chromium without a window, driven by chromedriver's HTTP interface (W3C WebDriver). All waits are bounded; it ends what it started."""
import atexit
import base64
import json
import os
import shutil
import signal
import socket
import subprocess
import time
import urllib.error
import urllib.request

CHROMIUM, DRIVER = shutil.which('chromium'), shutil.which('chromedriver')
# How long a call may take, and how long the driver may take to begin. Seconds.
PATIENCE, START = 120, 30
ELEMENT = 'element-6066-11e4-a52e-4f735466cecf'


class Browser:
    """A browser with one page. `folder` is where it keeps what it writes; nothing of it stays."""

    def __init__(self, folder, width=1280, height=900):
        with socket.socket() as free:
            free.bind(('127.0.0.1', 0))
            port = free.getsockname()[1]
        self._base = 'http://127.0.0.1:%d' % port
        self._open = urllib.request.build_opener(urllib.request.ProxyHandler({})).open
        places = dict(os.environ, TMPDIR=folder, HOME=folder, XDG_CONFIG_HOME=folder, XDG_CACHE_HOME=folder)
        self._process = subprocess.Popen([DRIVER, '--port=%d' % port, '--silent'], env=places, stdin=subprocess.DEVNULL,
                                         stdout=subprocess.DEVNULL, stderr=subprocess.DEVNULL, start_new_session=True)
        self._session = ''
        atexit.register(self.close)
        try:
            self._wait_for_driver()
            self._begin(width, height)
        except BaseException:
            self.close()
            raise

    def _wait_for_driver(self):
        end = time.monotonic() + START
        while True:
            try:
                if self._call('GET', '/status')['ready']:
                    return
            except OSError:
                if time.monotonic() > end:
                    raise
            time.sleep(0.1)

    def _begin(self, width, height):
        words = ['--headless=new', '--no-sandbox', '--disable-gpu', '--disable-dev-shm-usage', '--no-first-run', '--hide-scrollbars',
                 '--disable-background-networking', '--force-device-scale-factor=1', '--window-size=%d,%d' % (width, height)]
        options = {'browserName': 'chrome', 'goog:chromeOptions': {'binary': CHROMIUM, 'args': words},
                   'goog:loggingPrefs': {'browser': 'ALL', 'performance': 'ALL'}}
        answer = self._call('POST', '/session', {'capabilities': {'alwaysMatch': options}})
        self._session = '/session/' + answer['sessionId']

    def _call(self, method, path, data=None):
        body = None if data is None else json.dumps(data).encode()
        request = urllib.request.Request(self._base + path, body, {'Content-Type': 'application/json'}, method=method)
        try:
            with self._open(request, timeout=PATIENCE) as answer:
                return json.loads(answer.read().decode())['value']
        except urllib.error.HTTPError as fault:
            raise AssertionError(json.loads(fault.read().decode())['value']['message'].split('\n')[0]) from None

    def call(self, method, path, data=None):
        """A command of the session."""
        return self._call(method, self._session + path, data)

    def open(self, path):
        """Opens a file."""
        self.call('POST', '/url', {'url': 'file://' + os.path.abspath(path)})

    def run(self, script, *words):
        """What a script returns."""
        return self.call('POST', '/execute/sync', {'script': script, 'args': list(words)})

    def find(self, selector):
        """The elements of a selector."""
        return self.call('POST', '/elements', {'using': 'css selector', 'value': selector})

    def click(self, selector, at=0):
        """Clicks an element, as a reader would."""
        self.call('POST', '/element/%s/click' % self.find(selector)[at][ELEMENT], {})

    def keys(self, selector, text):
        """Types into an element."""
        self.call('POST', '/element/%s/value' % self.find(selector)[0][ELEMENT], {'text': text})

    def drag(self, selector, share, to):
        """Drags with the mouse, in an element that goes from left to right: from a share of its width to another."""
        element = self.find(selector)[0]
        self.run('arguments[0].scrollIntoView({block: "center"})', element)
        box = self.run('const box = arguments[0].getBoundingClientRect(); return [box.left, box.top, box.width, box.height]', element)
        places = [(round(box[0] + 8 + part * (box[2] - 16)), round(box[1] + box[3] / 2)) for part in (share, (share + to) / 2, to)]
        moves = [{'type': 'pointerMove', 'duration': 0, 'x': x, 'y': y} for x, y in places]
        steps = [moves[0], {'type': 'pointerDown', 'button': 0}, moves[1], moves[2], {'type': 'pointerUp', 'button': 0}]
        self.call('POST', '/actions', {'actions': [{'type': 'pointer', 'id': 'mouse', 'parameters': {'pointerType': 'mouse'}, 'actions': steps}]})

    def resize(self, width, height):
        """Gives the page so many pixels."""
        self.call('POST', '/goog/cdp/execute', {'cmd': 'Emulation.setDeviceMetricsOverride', 'params': {
            'width': width, 'height': height, 'deviceScaleFactor': 1, 'mobile': False}})

    def picture(self, path, whole=False):
        """Writes a screenshot: of what is seen, or of the whole page."""
        answer = self.call('POST', '/goog/cdp/execute', {'cmd': 'Page.captureScreenshot', 'params': {
            'format': 'png', 'captureBeyondViewport': whole}})
        with open(path, 'wb') as out:
            out.write(base64.b64decode(answer['data']))

    def printed(self):
        """The page as it is printed: the bytes of a PDF."""
        return base64.b64decode(self.call('POST', '/print', {'page': {'width': 21.0, 'height': 29.7}}))

    def console(self):
        """What stands in the console since the last call."""
        return [entry['message'] for entry in self.call('POST', '/se/log', {'type': 'browser'})]

    def requests(self):
        """The addresses that were asked for since the last call."""
        entries = [json.loads(entry['message'])['message'] for entry in self.call('POST', '/se/log', {'type': 'performance'})]
        return [entry['params']['request']['url'] for entry in entries if entry['method'] == 'Network.requestWillBeSent']

    def close(self):
        """Ends the browser and its driver, which stand in a group of their own."""
        atexit.unregister(self.close)
        try:
            if self._session:
                self.call('DELETE', '')
        except (AssertionError, OSError):
            pass
        os.killpg(self._process.pid, signal.SIGKILL)
        self._process.wait(PATIENCE)
