"""A headless Chromium over the DevTools protocol, with Python's standard library alone: commands, events, real key events, pictures."""
import base64
import collections
import json
import os
import re
import shutil
import socket
import struct
import subprocess
import tempfile
import time
import zlib

NAMES = ('chromium', 'chromium-browser', 'google-chrome', 'google-chrome-stable')


def found():
    """The browser's path, or None."""
    return next((path for path in map(shutil.which, NAMES) if path), None)


def unfiltered(kind, line, above, step):
    """A line of a PNG without its filter."""
    out = bytearray(line)
    for i in range(len(out)):
        left, up, corner = (out[i - step] if i >= step else 0), above[i], (above[i - step] if i >= step else 0)
        if kind == 4:
            guess = left + up - corner
            near = min((abs(guess - left), 0, left), (abs(guess - up), 1, up), (abs(guess - corner), 2, corner))[2]
        else:
            near = (0, left, up, (left + up) // 2)[kind]
        out[i] = (out[i] + near) & 255
    return out


def indexed(png):
    """A picture with at most 256 colours, those that it has most: a file of a third of the size."""
    width, height, depth, colours = struct.unpack('>IIBB', png[16:26])
    step, data, at = {2: 3, 6: 4}[colours], b'', 8
    while at < len(png):
        size, name = struct.unpack('>I4s', png[at:at + 8])
        data += png[at + 8:at + 8 + size] if name == b'IDAT' else b''
        at += 12 + size
    raw, lines, above = zlib.decompress(data), [], bytearray(width * step)
    for y in range(height):
        start = y * (width * step + 1)
        above = unfiltered(raw[start], raw[start + 1:start + 1 + width * step], above, step) if raw[start] else bytearray(raw[start + 1:start + 1 + width * step])
        lines.append([bytes(above[i:i + 3]) for i in range(0, len(above), step)])
    most = [colour for colour, _ in collections.Counter(pixel for line in lines for pixel in line).most_common(256)]
    places = {colour: i for i, colour in enumerate(most)}
    for colour in {pixel for line in lines for pixel in line} - set(most):
        places[colour] = min(range(len(most)), key=lambda i: sum((a - b) ** 2 for a, b in zip(colour, most[i])))
    packed = zlib.compress(b''.join(b'\0' + bytes(places[pixel] for pixel in line) for line in lines), 9)
    parts = [(b'IHDR', struct.pack('>IIBBBBB', width, height, 8, 3, 0, 0, 0)), (b'PLTE', b''.join(most)), (b'IDAT', packed), (b'IEND', b'')]
    return b'\x89PNG\r\n\x1a\n' + b''.join(struct.pack('>I', len(body)) + name + body + struct.pack('>I', zlib.crc32(name + body)) for name, body in parts)


class Socket:
    """A WebSocket to a server on this machine."""

    def __init__(self, address):
        host, port, path = re.match(r'ws://([^:/]+):(\d+)(/.*)', address).groups()
        self.socket = socket.create_connection((host, int(port)), timeout=60)
        key = base64.b64encode(os.urandom(16)).decode()
        self.socket.sendall(('GET %s HTTP/1.1\r\nHost: %s:%s\r\nUpgrade: websocket\r\nConnection: Upgrade\r\nSec-WebSocket-Key: %s\r\nSec-WebSocket-Version: 13\r\n\r\n'
                             % (path, host, port, key)).encode())
        self.data = b''
        while b'\r\n\r\n' not in self.data:
            self.data += self.socket.recv(65536)
        head, self.data = self.data.split(b'\r\n\r\n', 1)
        if b' 101 ' not in head.split(b'\r\n')[0]:
            raise OSError('no WebSocket: %s' % head[:80])

    def send(self, text):
        data, mask = text.encode(), os.urandom(4)
        size = bytes([128 | len(data)]) if len(data) < 126 else b'\xfe' + struct.pack('>H', len(data)) if len(data) < 65536 else b'\xff' + struct.pack('>Q', len(data))
        repeated = (mask * (len(data) // 4 + 1))[:len(data)]
        masked = (int.from_bytes(data, 'big') ^ int.from_bytes(repeated, 'big')).to_bytes(len(data), 'big') if data else b''
        self.socket.sendall(b'\x81' + size + mask + masked)

    def bytes(self, count):
        while len(self.data) < count:
            more = self.socket.recv(1 << 20)
            if not more:
                raise OSError('the browser closed the connection')
            self.data += more
        taken, self.data = self.data[:count], self.data[count:]
        return taken

    def receive(self):
        """The next message, put together of its frames."""
        whole = b''
        while True:
            first, second = self.bytes(2)
            size = second & 127
            size = struct.unpack('>H', self.bytes(2))[0] if size == 126 else struct.unpack('>Q', self.bytes(8))[0] if size == 127 else size
            data = self.bytes(size)
            if first & 15 < 3:
                whole += data
                if first & 128:
                    return whole.decode()


class Browser:
    """A browser with one page. What the page's console says, and what goes wrong in it, is kept in `faults`."""

    def __init__(self, width=1400, height=900, *options):
        self.folder = tempfile.mkdtemp()
        self.process = subprocess.Popen([found(), '--headless=new', '--no-sandbox', '--disable-gpu', '--disable-dev-shm-usage', '--no-first-run', '--disable-extensions', '--hide-scrollbars',
                                         '--remote-debugging-port=0', '--user-data-dir=' + self.folder, '--window-size=%d,%d' % (width, height), *options, 'about:blank'],
                                        stdout=subprocess.DEVNULL, stderr=subprocess.PIPE)
        address = None
        while not address:
            line = self.process.stderr.readline().decode('utf-8', 'replace')
            if not line:
                raise OSError('the browser did not start')
            address = re.search(r'ws://\S+', line)
        self.socket, self.last, self.events, self.faults, self.session = Socket(address[0]), 0, [], [], None
        target = next(one for one in self.ask('Target.getTargets')['targetInfos'] if one['type'] == 'page')
        self.session = self.ask('Target.attachToTarget', targetId=target['targetId'], flatten=True)['sessionId']
        for name in ('Page', 'Runtime', 'Log'):
            self.ask(name + '.enable')
        self.size(width, height)

    def close(self):
        try:
            self.session = None
            self.ask('Browser.close')
        except OSError:
            pass
        self.process.wait(20)
        shutil.rmtree(self.folder, ignore_errors=True)

    def downloads(self, folder):
        """Where files go that the page saves."""
        session, self.session = self.session, None
        self.ask('Browser.setDownloadBehavior', behavior='allow', downloadPath=str(folder))
        self.session = session

    def choose(self, selector, path):
        """A file chosen in a field for files."""
        root = self.ask('DOM.getDocument')['root']['nodeId']
        node = self.ask('DOM.querySelector', nodeId=root, selector=selector)['nodeId']
        self.ask('DOM.setFileInputFiles', files=[str(path)], nodeId=node)

    def ask(self, method, **given):
        self.last += 1
        message = {'id': self.last, 'method': method, 'params': given}
        if self.session:
            message['sessionId'] = self.session
        self.socket.send(json.dumps(message))
        while True:
            answer = json.loads(self.socket.receive())
            if answer.get('id') == self.last:
                if 'error' in answer:
                    raise OSError('%s: %s' % (method, answer['error']['message']))
                return answer['result']
            self.seen(answer)

    def seen(self, event):
        self.events.append(event)
        name, given = event.get('method'), event.get('params', {})
        if name == 'Runtime.exceptionThrown':
            self.faults.append(given['exceptionDetails'].get('exception', {}).get('description', str(given)))
        elif name == 'Runtime.consoleAPICalled' and given['type'] in ('error', 'assert', 'warning'):
            self.faults.append(str([one.get('value', one.get('description')) for one in given['args']]))
        elif name == 'Log.entryAdded' and given['entry']['level'] in ('error', 'warning'):
            self.faults.append(given['entry']['text'])

    def size(self, width, height, ratio=1):
        self.ask('Emulation.setDeviceMetricsOverride', width=width, height=height, deviceScaleFactor=ratio, mobile=False)

    def open(self, address, ready):
        self.ask('Page.navigate', url=address)
        self.until(ready)

    def run(self, text):
        """The value of an expression in the page."""
        answer = self.ask('Runtime.evaluate', expression=text, awaitPromise=True, returnByValue=True)
        if 'exceptionDetails' in answer:
            raise OSError(answer['exceptionDetails'].get('exception', {}).get('description', text))
        return answer['result'].get('value')

    def until(self, text, seconds=20):
        end = time.time() + seconds
        while time.time() < end:
            try:
                if self.run(text):
                    return
            except OSError:
                pass  # the page is being loaded
            time.sleep(0.03)
        raise OSError('it did not come true: %s' % text)

    def key(self, key, shift=False):
        """A key pressed and let go, as a keyboard does it."""
        text = key if len(key) == 1 else ''
        codes = {' ': 32, 'ArrowLeft': 37, 'ArrowRight': 39, 'Home': 36, 'End': 35, 'PageUp': 33, 'PageDown': 34, 'Escape': 27, 'Enter': 13, 'Tab': 9}
        code = codes.get(key, ord(key.upper()) if text else 0)
        given = {'key': key, 'windowsVirtualKeyCode': code, 'modifiers': 8 if shift else 0}
        self.ask('Input.dispatchKeyEvent', type='keyDown', **given, **({'text': '\r' if key == 'Enter' else text} if text or key == 'Enter' else {}))
        self.ask('Input.dispatchKeyEvent', type='keyUp', **given)

    def click(self, selector, shift=False):
        """A click with the mouse in the middle of an element."""
        box = self.run('(() => {const e = document.querySelector(%s); e.scrollIntoView({block: "nearest"}); const b = e.getBoundingClientRect(); return [b.x + b.width / 2, b.y + b.height / 2];})()'
                       % json.dumps(selector))
        for kind in ('mouseMoved', 'mousePressed', 'mouseReleased'):
            self.ask('Input.dispatchMouseEvent', type=kind, x=box[0], y=box[1], button='none' if kind == 'mouseMoved' else 'left', clickCount=0 if kind == 'mouseMoved' else 1, modifiers=8 if shift else 0)

    def type(self, selector, text):
        """Text typed into a field in the place of what is there."""
        self.run('(() => {const e = document.querySelector(%s); e.focus(); e.select();})()' % json.dumps(selector))
        self.ask('Input.insertText', text=text)

    def picture(self, path):
        with open(path, 'wb') as file:
            file.write(indexed(base64.b64decode(self.ask('Page.captureScreenshot', format='png')['data'])))
