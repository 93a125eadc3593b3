"""A headless Chromium on the loopback, for tests of pages.

    websocket    messages over a web socket (RFC 6455), as a client
    browser      a Chromium that is started, and pages in it, by the DevTools protocol
"""
