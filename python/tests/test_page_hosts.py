"""The page that answers by itself asks nothing of any host: its own policy doesn't let it, nor its worker."""

import pytest
import socket
from collections.abc import Iterator

from page_of_file import FilePage

OF_DOCUMENT = """((host) => new Promise((done) => {
  const made = (name, more) => document.body.append(Object.assign(document.createElement(name), more));
  const violated = [];
  const tried = {
    "img-src": () => made("img", { src: host }),
    "script-src-elem": () => made("script", { src: host }),
    "style-src-elem": () => made("link", { rel: "stylesheet", href: host }),
    "frame-src": () => made("iframe", { src: host }),
    "object-src": () => made("object", { data: host }),
    "media-src": () => made("video", { src: host }),
    "connect-src": () => new WebSocket(host.replace("http", "ws")),
    "form-action": () => {
      made("form", { action: host, method: "post", id: "of-test" });
      document.getElementById("of-test").submit();
    },
  };
  document.addEventListener("securitypolicyviolation", ({ effectiveDirective }) => {
    violated.push(effectiveDirective);
    if (violated.length === Object.keys(tried).length) done(violated);
  });
  Object.values(tried).forEach((one) => one());
  setTimeout(() => done(violated), 5000);
}))"""
"""Tries to ask a host for something in each way that a document has, and gives which were refused by the policy."""
OF_WORKER = """((host) => new Promise((done) => {
  const source = `(async () => {
    const refused = [];
    await fetch(HOST).catch(() => refused.push("fetch"));
    try { importScripts(HOST); } catch { refused.push("importScripts"); }
    const request = new XMLHttpRequest();
    request.open("GET", HOST, false);
    try { request.send(); } catch { refused.push("XMLHttpRequest"); }
    postMessage(refused);
  })()`.replaceAll("HOST", JSON.stringify(host));
  const worker = new Worker(URL.createObjectURL(new Blob([source], { type: "text/javascript" })));
  worker.onmessage = ({ data }) => done(data);
}))"""
"""The same for a worker."""


@pytest.fixture
def host() -> Iterator[socket.socket]:
    """Somebody who listens."""
    with socket.create_server(("127.0.0.1", 0)) as listening:
        listening.setblocking(False)
        yield listening


def is_asked(host: socket.socket) -> bool:
    """Whether anybody was there."""
    try:
        host.accept()[0].close()
    except BlockingIOError:
        return False
    return True


def test_no_way_leads_to_a_host(alone: FilePage, host: socket.socket) -> None:
    alone.begin()
    address = f"'http://127.0.0.1:{host.getsockname()[1]}/'"
    violated = alone.value(f"{OF_DOCUMENT}({address})")
    assert len(violated) == len(set(violated)) == 8
    assert alone.value(f"{OF_WORKER}({address})") == ["fetch", "importScripts", "XMLHttpRequest"]
    assert not is_asked(host)
