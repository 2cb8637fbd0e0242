"""Runs pages in the browsers of this machine, headless, and takes what they post back. It needs no driver: a page posts its answer
to the server that it came from."""
import contextlib
import http.server
import os
import shutil
import subprocess
import sys
import tempfile
import threading

sys.path.append(os.path.join(os.path.dirname(os.path.dirname(os.path.abspath(__file__))), 'gate'))
from runner import Failure, read  # noqa: E402

KINDS = {'.js': 'text/javascript', '.html': 'text/html; charset=utf-8', '.wasm': 'application/wasm', '.css': 'text/css'}
CHROMIUM = ['--headless=new', '--no-sandbox', '--disable-gpu', '--disable-dev-shm-usage', '--no-first-run', '--disable-extensions',
            '--disable-background-networking', '--disable-component-update']
PREFERENCES = ['datareporting.policy.dataSubmissionEnabled', 'browser.shell.checkDefaultBrowser', 'app.normandy.enabled',
               'toolkit.telemetry.enabled', 'browser.aboutwelcome.enabled']


def browsers():
    """The browsers that are there, by name; of one that isn't there, None."""
    firefox = shutil.which('firefox-esr') or shutil.which('firefox')
    return {'chromium': shutil.which('chromium') or shutil.which('chromium-browser'), 'firefox': firefox}


def command(name, path, profile, address, words=(), has_screen=False):
    if name == 'chromium':
        return [path] + CHROMIUM + list(words) + ['--user-data-dir=' + profile, address]
    with open(os.path.join(profile, 'user.js'), 'w') as file:
        file.writelines('user_pref("%s", false);\n' % each for each in PREFERENCES)
        file.write('user_pref("webgl.force-enabled", true);\n')
    return [path] + ([] if has_screen else ['--headless']) + ['--no-remote', '--profile', profile, address]


@contextlib.contextmanager
def screen():
    """A screen by Xvfb, without which Firefox draws nothing by WebGL. Gives the environment for it; None where there is no Xvfb."""
    if shutil.which('Xvfb') is None:
        yield None
        return
    words = ['Xvfb', '-displayfd', '1', '-screen', '0', '1280x900x24']
    running = subprocess.Popen(words, stdout=subprocess.PIPE, stderr=subprocess.DEVNULL, text=True)
    try:
        yield {'DISPLAY': ':' + running.stdout.readline().strip()}
    finally:
        running.terminate()
        running.wait()


class Server:
    """Serves a folder and some pages that are only in memory, on this machine alone, and keeps what is posted."""

    def __init__(self, folder, pages):
        self.folder, self.pages, self.answer, self.has_answer = os.path.realpath(folder), pages, None, threading.Event()
        server = self

        class Handler(http.server.BaseHTTPRequestHandler):
            def do_GET(self):
                content = server.content(self.path.split('?')[0])
                self.send_response(404 if content is None else 200)
                self.send_header('Content-Type', KINDS.get(os.path.splitext(self.path.split('?')[0])[1], 'text/plain; charset=utf-8'))
                self.send_header('Content-Length', str(len(content or b'')))
                # So that the page is by itself: then a browser gives it fine times.
                self.send_header('Cross-Origin-Opener-Policy', 'same-origin')
                self.send_header('Cross-Origin-Embedder-Policy', 'require-corp')
                self.end_headers()
                self.wfile.write(content or b'')

            def do_POST(self):
                server.answer = self.rfile.read(int(self.headers['Content-Length'])).decode()
                self.send_response(204)
                self.end_headers()
                server.has_answer.set()

            def log_message(self, *_):
                pass

        self.http = http.server.ThreadingHTTPServer(('127.0.0.1', 0), Handler)
        threading.Thread(target=self.http.serve_forever, daemon=True).start()

    def content(self, path):
        if path in self.pages:
            return self.pages[path].encode()
        place = os.path.realpath(self.folder + path)
        if not place.startswith(self.folder + os.sep) or not os.path.isfile(place):
            return None
        with open(place, 'rb') as file:
            return file.read()

    def address(self, path):
        return 'http://127.0.0.1:%d%s' % (self.http.server_port, path)


def answer(name, path, folder, page, pages=(), seconds=300, words=(), environment=None):
    """What a page posts, as text, that a browser opened; `pages` are served from memory, and all else from the folder. `page` is a path
    on the server, or gives an address by the server. `words` are more ones for Chromium, and `environment` is that of a screen."""
    server = Server(folder, dict(pages))
    address = page(server) if callable(page) else server.address(page)
    with tempfile.TemporaryDirectory(ignore_cleanup_errors=True) as profile:
        log = os.path.join(profile, 'log')
        with open(log, 'w') as file:
            running = subprocess.Popen(command(name, path, profile, address, words, environment is not None), stdout=file,
                                       stderr=file, env=dict(os.environ, HOME=profile, **(environment or {})))
        try:
            if not server.has_answer.wait(seconds):
                raise Failure('%s posted no answer in %d seconds\n%s' % (name, seconds, read(log)[-1000:]))
        finally:
            running.terminate()
            try:
                running.wait(10)
            except subprocess.TimeoutExpired:
                running.kill()
                running.wait()
            server.http.shutdown()
            server.http.server_close()
    return server.answer
