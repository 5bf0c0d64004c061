"""Messages to the language server, as bytes."""
import json


def frame(message):
    body = json.dumps(message).encode()
    return b'Content-Length: %d\r\n\r\n' % len(body) + body


def request(number, method, params=None):
    return frame({'jsonrpc': '2.0', 'id': number, 'method': method, 'params': params or {}})


def notice(method, params=None):
    return frame({'jsonrpc': '2.0', 'method': method, 'params': params or {}})


def opened(text):
    return notice('textDocument/didOpen', {'textDocument': {'uri': 'u', 'languageId': 'sql', 'version': 1, 'text': text}})


def hover(number, line):
    return request(number, 'textDocument/hover', {'textDocument': {'uri': 'u'}, 'position': {'line': line, 'character': 3}})


INIT, DOWN, EXIT = request(1, 'initialize'), request(99, 'shutdown'), notice('exit')
