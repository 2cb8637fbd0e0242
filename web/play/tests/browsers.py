"""Browsers for web/play/test: Chromium by Debian's chromium-driver and Selenium, Firefox by its own Marionette protocol."""
import base64
import json
import os
import shutil
import socket
import subprocess
import sys
import tempfile
import time

try:
    from selenium import webdriver
except ImportError:
    sys.path.append('/usr/lib/python3/dist-packages')  # Debian's, where another Python stands before its own
    try:
        from selenium import webdriver
    except ImportError:
        webdriver = None

ELEMENT = 'element-6066-11e4-a52e-4f735466cecf'
KEYS = {'Enter': '\ue007', 'ArrowLeft': '\ue012', 'ArrowUp': '\ue013', 'ArrowRight': '\ue014', 'ArrowDown': '\ue015', 'Tab': '\ue004',
        'Home': '\ue011', 'End': '\ue010'}


class Browser:
    """What both can do. A subclass has `send(command, values)`, which gives the value, and `quit`."""

    def __init__(self):
        self.downloads = tempfile.mkdtemp()

    def open(self, address):
        self.send('get', {'url': address})

    def run(self, script, *values):
        return self.send('executeScript', {'script': script, 'args': list(values)})

    def element(self, selector):
        return self.send('findElement', {'using': 'css selector', 'value': selector})[ELEMENT]

    def click(self, selector, seconds=60):
        """Clicks what is in sight, until that gets the click: what the page writes meanwhile may move it, or lay something over it."""
        end = time.time() + seconds
        while True:
            # Firefox runs each script apart from the page's own names, so the page's element says it.
            self.run('const element = document.querySelector(arguments[0]), { dataset } = document.documentElement;'
                     'element.scrollIntoView({ block: "center" }); dataset.clicked = "no";'
                     'element.addEventListener("click", () => { dataset.clicked = "yes"; }, { once: true, capture: true })', selector)
            try:
                self.send('clickElement', {'id': self.element(selector)})
                if time.time() > end or self.gets_click():
                    return
            except Exception as fault:
                if 'not clickable' not in str(fault) or time.time() > end:
                    raise

    def gets_click(self):
        """Whether the click came to the element, or went to another page; on a busy machine it may be late."""
        end = time.time() + 15
        while self.run('return document.documentElement.dataset.clicked === "no"'):
            if time.time() > end:
                return False
            time.sleep(0.02)
        return True

    def write(self, selector, text):
        """Types into a field, or gives a file to one."""
        self.send('sendKeysToElement', {'id': self.element(selector), 'text': text, 'value': list(text)})

    def fill(self, selector, text):
        """Types in the place of what stands in a field, and goes on to the next."""
        self.run('const field = document.querySelector(arguments[0]); field.focus(); field.select()', selector)
        self.write(selector, text + KEYS['Tab'])

    def choose(self, selector, value):
        number = self.run('const { options } = document.querySelector(arguments[0]);'
                          'return [...options].findIndex((each) => each.value === arguments[1])', selector, value)
        self.send('clickElement', {'id': self.element('%s option:nth-child(%d)' % (selector, number + 1))})

    def press(self, *keys):
        steps = [{'type': kind, 'value': KEYS.get(key, key)} for key in keys for kind in ('keyDown', 'keyUp')]
        self.act([{'type': 'key', 'id': 'keyboard', 'actions': steps}])

    def move(self, x, y, click=False, kind='mouse'):
        """Moves the pointer to a place of the window; a click where that is asked for."""
        steps = [{'type': 'pointerMove', 'duration': 0, 'x': round(x), 'y': round(y), 'origin': 'viewport'}]
        if click:
            steps += [{'type': 'pointerDown', 'button': 0}, {'type': 'pointerUp', 'button': 0}]
        self.act([{'type': 'pointer', 'id': kind, 'parameters': {'pointerType': kind}, 'actions': steps}])

    def act(self, actions):
        self.send('actions', {'actions': actions})

    def size(self, width, height):
        self.send('setWindowRect', {'x': 0, 'y': 0, 'width': width, 'height': height})

    def fit(self, width, height):
        """Gives the page, without what the browser shows around it, this size."""
        self.size(width, height)
        self.wait('innerWidth > 0')
        time.sleep(0.5)
        more = self.run('return [outerWidth - innerWidth, outerHeight - innerHeight]')
        self.size(width + more[0], height + more[1])
        self.wait('innerWidth === %d && innerHeight === %d' % (width, height), 20)

    def shot(self, path):
        with open(path, 'wb') as file:
            file.write(base64.b64decode(self.send('screenshot', {'full': False})))

    def wait(self, script, seconds=180):
        """Waits until a script gives something true; gives it."""
        end = time.time() + seconds
        while time.time() < end:
            found = self.run('return ' + script)
            if found:
                return found
            time.sleep(0.05)
        raise AssertionError('it never came: ' + script)


class Chromium(Browser):
    name = 'Chromium'

    @staticmethod
    def missing():
        wanted = {'chromium': 'chromium', 'chromedriver': 'chromium-driver'}
        absent = [package for program, package in wanted.items() if not shutil.which(program)]
        return absent + ([] if webdriver else ['python3-selenium'])

    def __init__(self, width=1280, height=900, phone=None):
        super().__init__()
        from selenium.webdriver.chrome.service import Service
        options = webdriver.ChromeOptions()
        options.binary_location = shutil.which('chromium')
        for word in ['--headless=new', '--no-sandbox', '--hide-scrollbars', '--window-size=%d,%d' % (width, height)]:
            options.add_argument(word)
        options.set_capability('goog:loggingPrefs', {'browser': 'ALL'})
        options.add_experimental_option('prefs', {'download.default_directory': self.downloads})
        if phone:
            options.add_experimental_option('mobileEmulation', {'deviceMetrics': phone})
        self.driver = webdriver.Chrome(service=Service(shutil.which('chromedriver')), options=options)
        self.driver.set_script_timeout(300)

    def send(self, command, values):
        name = {'executeScript': 'w3cExecuteScript'}.get(command, command)
        return self.driver.execute(name, values)['value']

    def command(self, name, values):
        return self.driver.execute_cdp_cmd(name, values)

    def colours(self, name):
        """What the system prefers."""
        self.command('Emulation.setEmulatedMedia', {'features': [{'name': 'prefers-color-scheme', 'value': name}]})

    def told(self):
        """What stands on the console, but for a hint on how a test reads pixels."""
        told = [each['message'] for each in self.driver.get_log('browser')]
        return [each for each in told if 'readback operations' not in each]

    def element(self, selector):
        found = self.send('findElement', {'using': 'css selector', 'value': selector})
        return found.id if hasattr(found, 'id') else found[ELEMENT]

    def quit(self):
        self.driver.quit()
        shutil.rmtree(self.downloads, ignore_errors=True)


# Commands of Marionette by Selenium's names.
MARIONETTE = {
    'get': 'WebDriver:Navigate', 'executeScript': 'WebDriver:ExecuteScript', 'findElement': 'WebDriver:FindElement',
    'clickElement': 'WebDriver:ElementClick', 'sendKeysToElement': 'WebDriver:ElementSendKeys',
    'actions': 'WebDriver:PerformActions',
    'setWindowRect': 'WebDriver:SetWindowRect', 'screenshot': 'WebDriver:TakeScreenshot',
}
SETTINGS = {
    'browser.download.folderList': 2, 'browser.download.useDownloadDir': True, 'browser.shell.checkDefaultBrowser': False,
    'browser.aboutwelcome.enabled': False, 'datareporting.policy.dataSubmissionEnabled': False,
    'app.update.disabledForTesting': True, 'toolkit.telemetry.reportingpolicy.firstRun': False,
    'browser.startup.homepage_override.mstone': 'ignore', 'browser.startup.page': 0, 'ui.systemUsesDarkTheme': 0,
}
# As on a phone: a finger that hovers over nothing. A window is as narrow as its style sheet lets it be.
FINGER = {'ui.primaryPointerCapabilities': 1, 'ui.allPointerCapabilities': 1, 'ui.useOverlayScrollbars': 1,
          'widget.gtk.overlay-scrollbars.enabled': True, 'toolkit.legacyUserProfileCustomizations.stylesheets': True}
NARROW = ':root { min-width: 0 !important; min-height: 0 !important; }\n'


class Firefox(Browser):
    name = 'Firefox'

    @staticmethod
    def missing():
        return [] if shutil.which('firefox-esr') or shutil.which('firefox') else ['firefox-esr']

    def __init__(self, width=1280, height=900, phone=None):
        super().__init__()
        self.profile = tempfile.mkdtemp()
        with socket.socket() as free:
            free.bind(('127.0.0.1', 0))
            port = free.getsockname()[1]
        settings = dict(SETTINGS, **{'marionette.port': port, 'browser.download.dir': self.downloads})
        if phone:
            settings.update(FINGER, **{'layout.css.devPixelsPerPx': str(phone['pixelRatio'])})
            os.mkdir(os.path.join(self.profile, 'chrome'))
            with open(os.path.join(self.profile, 'chrome', 'userChrome.css'), 'w') as file:
                file.write(NARROW)
        with open(os.path.join(self.profile, 'user.js'), 'w') as file:
            file.writelines('user_pref(%s, %s);\n' % (json.dumps(key), json.dumps(value)) for key, value in settings.items())
        program = shutil.which('firefox-esr') or shutil.which('firefox')
        self.process = subprocess.Popen(
            [program, '--headless', '--marionette', '--no-remote', '--profile', self.profile, 'about:blank'],
            stdout=subprocess.DEVNULL, stderr=subprocess.DEVNULL, env=dict(os.environ, HOME=self.profile))
        self.number = 0
        self.connect(port)
        self.ask('WebDriver:NewSession', {'capabilities': {'alwaysMatch': {'timeouts': {'script': 300000}}}})
        if phone:
            self.fit(phone['width'], phone['height'])
        else:
            self.size(width, height)

    def connect(self, port):
        end = time.time() + 90
        while True:
            try:
                self.socket = socket.create_connection(('127.0.0.1', port), timeout=600)
                self.stream = self.socket.makefile('rb')
                self.read()
                return
            except OSError:
                if time.time() > end:
                    raise
                time.sleep(0.2)

    def read(self):
        length = b''
        while not length.endswith(b':'):
            byte = self.stream.read(1)
            if not byte:
                raise OSError('Firefox ended the connection')
            length += byte
        return json.loads(self.stream.read(int(length[:-1])))

    def ask(self, name, values):
        self.number += 1
        message = json.dumps([0, self.number, name, values]).encode()
        self.socket.sendall(b'%d:%s' % (len(message), message))
        _, _, error, result = self.read()
        if error:
            raise AssertionError('%s: %s' % (name, error['message']))
        return result.get('value') if isinstance(result, dict) and set(result) == {'value'} else result

    def send(self, command, values):
        return self.ask(MARIONETTE[command], values)

    def told(self):
        return []

    def quit(self):
        try:
            self.ask('Marionette:Quit', {'flags': ['eForceQuit']})
            self.process.wait(30)
        except (AssertionError, OSError, subprocess.TimeoutExpired):
            self.process.kill()
        shutil.rmtree(self.profile, ignore_errors=True)
        shutil.rmtree(self.downloads, ignore_errors=True)
