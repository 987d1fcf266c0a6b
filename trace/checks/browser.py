"""A headless browser for tests: starts Chromium, and speaks its DevTools protocol over a WebSocket. Standard library only."""
from __future__ import annotations

import base64
import json
import os
import shutil
import signal
import socket
import struct
import subprocess
import sys
import tempfile
import time
from typing import Dict, List, Optional
from urllib.parse import urlparse

NAMES = ('chromium', 'chromium-browser', 'google-chrome', 'google-chrome-stable')
SECONDS = 300           # that a busy machine may take for one answer


def program() -> Optional[str]:
    return next(filter(None, map(shutil.which, NAMES)), None)


class Socket:
    """A WebSocket's client: texts alone, as far as DevTools needs it (RFC 6455)."""

    def __init__(self, address: str) -> None:
        place = urlparse(address)
        self._socket = socket.create_connection((place.hostname or '', place.port or 80), SECONDS)
        key = base64.b64encode(os.urandom(16)).decode()
        self._socket.sendall((f'GET {place.path} HTTP/1.1\r\nHost: {place.netloc}\r\nUpgrade: websocket\r\nConnection: Upgrade\r\n'
                              f'Sec-WebSocket-Key: {key}\r\nSec-WebSocket-Version: 13\r\n\r\n').encode())
        self._read = self._socket.makefile('rb')
        while self._read.readline().strip():
            pass

    def send(self, text: str) -> None:
        data, mask = text.encode(), os.urandom(4)
        size = struct.pack('>BQ', 0xff, len(data)) if len(data) > 65535 else struct.pack('>BH', 0xfe, len(data))
        if len(data) < 126:
            size = bytes([0x80 | len(data)])
        self._socket.sendall(b'\x81' + size + mask + bytes(byte ^ mask[n % 4] for n, byte in enumerate(data)))

    def receive(self) -> str:
        """The next text, of as many frames as it has."""
        found = b''
        while True:
            first, size = self._read.read(2)
            if size == 126:
                size, = struct.unpack('>H', self._read.read(2))
            elif size == 127:
                size, = struct.unpack('>Q', self._read.read(8))
            found += self._read.read(size)
            if first & 0x80:
                return found.decode()

    def close(self) -> None:
        self._socket.close()


class Browser:
    """One page of a browser; `with Browser() as it`."""

    def __init__(self, width: int = 1280, height: int = 900, is_dark: bool = False) -> None:
        signal.signal(signal.SIGTERM, lambda *_: sys.exit(1))       # so that the browser ends with what started it
        self._folder = tempfile.mkdtemp()
        words = [str(program()), '--headless=new', '--no-sandbox', '--disable-gpu', '--no-first-run',
                 '--disable-extensions', '--hide-scrollbars', '--mute-audio',
                 '--disable-background-timer-throttling', '--disable-renderer-backgrounding', '--disable-backgrounding-occluded-windows',
                 f'--user-data-dir={self._folder}', '--remote-debugging-port=0', f'--window-size={width},{height}', 'about:blank']
        self._process = subprocess.Popen(words, stdout=subprocess.DEVNULL, stderr=subprocess.DEVNULL)
        self._count = 0
        self.errors: List[str] = []
        self._socket = Socket(self._page_address())
        self.ask('Page.enable')
        self.ask('Runtime.enable')
        self.be(width, height, is_dark)

    def _page_address(self) -> str:
        """The address that the browser has noted in its folder, of its one page."""
        note = os.path.join(self._folder, 'DevToolsActivePort')
        until = time.monotonic() + SECONDS
        while time.monotonic() < until and not (os.path.exists(note) and os.path.getsize(note)):
            time.sleep(0.05)
        with open(note, encoding='ascii') as file:
            port, path = file.read().split('\n')[:2]
        whole = Socket(f'ws://127.0.0.1:{port}{path}')
        whole.send(json.dumps({'id': 1, 'method': 'Target.getTargets'}))
        while True:
            said = json.loads(whole.receive())
            if said.get('id') == 1:
                break
        whole.close()
        page = next(it['targetId'] for it in said['result']['targetInfos'] if it['type'] == 'page')
        return f'ws://127.0.0.1:{port}/devtools/page/{page}'

    def be(self, width: int, height: int, is_dark: bool) -> None:
        """Is so wide and high, and light or dark."""
        self.ask('Emulation.setDeviceMetricsOverride', width=width, height=height, deviceScaleFactor=1, mobile=width < 600)
        self.ask('Emulation.setEmulatedMedia', features=[{'name': 'prefers-color-scheme', 'value': 'dark' if is_dark else 'light'}])

    def ask(self, method: str, **words: object) -> Dict[str, object]:
        """What the browser answers; errors of the page that it tells meanwhile are kept."""
        self._count += 1
        self._socket.send(json.dumps({'id': self._count, 'method': method, 'params': words}))
        while True:
            said = json.loads(self._socket.receive())
            if said.get('method') == 'Runtime.exceptionThrown':
                self.errors.append(json.dumps(said['params']['exceptionDetails'])[:500])
            if said.get('id') == self._count:
                if 'error' in said:
                    raise RuntimeError(f'{method}: {said["error"]}')
                return said['result']

    def open(self, path: str, fragment: str = '') -> None:
        self.ask('Page.navigate', url='about:blank')
        self.ask('Page.navigate', url=f'file://{os.path.realpath(path)}{fragment}')
        until = time.monotonic() + SECONDS
        while time.monotonic() < until and self.run("document.readyState === 'complete' && location.protocol === 'file:'") is not True:
            time.sleep(0.05)

    def run(self, expression: str) -> object:
        """The value of an expression in the page."""
        said = self.ask('Runtime.evaluate', expression=expression, returnByValue=True, awaitPromise=True)
        if 'exceptionDetails' in said:
            raise RuntimeError(json.dumps(said['exceptionDetails'])[:800])
        return said['result'].get('value')      # type: ignore[attr-defined]

    def press(self, key: str, shift: bool = False) -> None:
        text = key if len(key) == 1 else ''
        for kind in ('keyDown', 'keyUp'):
            self.ask('Input.dispatchKeyEvent', type=kind, key=key, text=text if kind == 'keyDown' else '', modifiers=8 if shift else 0)

    def picture(self, path: str, is_whole: bool = False) -> None:
        data = self.ask('Page.captureScreenshot', format='png', captureBeyondViewport=is_whole)['data']
        with open(path, 'wb') as file:
            file.write(base64.b64decode(str(data)))

    def close(self) -> None:
        self._socket.close()
        self._process.terminate()
        try:
            self._process.wait(10)
        except subprocess.TimeoutExpired:
            self._process.kill()
            self._process.wait(10)
        shutil.rmtree(self._folder, ignore_errors=True)

    def __enter__(self) -> Browser:
        return self

    def __exit__(self, *_: object) -> None:
        self.close()
