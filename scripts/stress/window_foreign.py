"""What is asked of `weltiyo web` by others than its page: by programs with one header that is wrong, and by other pages of the same browser, which
send what a browser lets them send, to the window and to the table server's own port. Each is refused, and no table is changed."""
import http.client
import http.server
import json
import threading

INSERT = '{"cmd":"insert","table":"item","row":{"name":"foreign","stock":1}}'
BODY = json.dumps({"lines": [INSERT]})
RESOLVED = "evil.example"
"""A name that the tests' browser is told to find at 127.0.0.1, as DNS rebinding does."""


class Answered(Exception):
    """Something was answered that isn't to be."""


def asked(port, method="POST", path="/ask", body=BODY, **headers):
    """The status and the headers of an answer. A header that is None isn't sent."""
    stream = http.client.HTTPConnection("127.0.0.1", port, timeout=20)
    try:
        stream.putrequest(method, path, skip_host=True, skip_accept_encoding=True)
        for name, value in headers.items():
            for it in value if isinstance(value, list) else [value]:
                if it is not None:
                    stream.putheader(name.replace("_", "-"), it)
        stream.endheaders(body.encode() if body is not None and headers.get("Content_Length") else None)
        answer = stream.getresponse()
        return answer.status, dict(answer.getheaders()), answer.read()
    finally:
        stream.close()


def own(web):
    """The headers of the page's own question."""
    return {"Host": f"127.0.0.1:{web.port}", "Origin": f"http://127.0.0.1:{web.port}", "Content_Type": "application/json",
            "Authorization": f"Bearer {web.token}", "Content_Length": str(len(BODY))}


def wrong_ones(web):
    """Questions with one thing that is wrong: what, the status that is wanted, and what differs from the page's own."""
    other = web.port + 1 if web.port < 65535 else 1025
    return [
        ("no Host", 403, {"Host": None}), ("another Host", 403, {"Host": f"{RESOLVED}:{web.port}"}), ("Host of another port", 403, {"Host": f"127.0.0.1:{other}"}),
        ("Host without a port", 403, {"Host": "127.0.0.1"}), ("a page of another name that leads here", 403, {"Host": f"{RESOLVED}:{web.port}", "Origin": f"http://{RESOLVED}:{web.port}"}),
        ("two Hosts", 403, {"Host": [f"127.0.0.1:{web.port}", f"{RESOLVED}:{web.port}"]}),
        ("no Origin", 403, {"Origin": None}), ("Origin null", 403, {"Origin": "null"}), ("another Origin", 403, {"Origin": "http://evil.example"}),
        ("Origin of another port", 403, {"Origin": f"http://127.0.0.1:{other}"}), ("Origin of another name for this host", 403, {"Origin": f"http://localhost:{web.port}"}),
        ("Origin by https", 403, {"Origin": f"https://127.0.0.1:{web.port}"}), ("a page that says it is another site", 403, {"Sec_Fetch_Site": "cross-site"}),
        ("a page of the same site and another port", 403, {"Sec_Fetch_Site": "same-site"}), ("no content type", 415, {"Content_Type": None}),
        ("a form's content type", 415, {"Content_Type": "application/x-www-form-urlencoded"}), ("plain text", 415, {"Content_Type": "text/plain"}),
        ("plain text beside JSON", 415, {"Content_Type": "text/plain; application/json"}), ("two content types", 415, {"Content_Type": ["text/plain", "application/json"]}),
        ("no token", 401, {"Authorization": None}), ("an empty token", 401, {"Authorization": "Bearer "}), ("another token", 401, {"Authorization": f"Bearer {'A' * len(web.token)}"}),
        ("a part of the token", 401, {"Authorization": f"Bearer {web.token[:-1]}"}), ("a token that isn't ASCII", 401, {"Authorization": "Bearer \u00e9"}),
        ("no length", 413, {"Content_Length": None}), ("a length that is none", 413, {"Content_Length": "+5"}), ("a length beyond the limit", 413, {"Content_Length": "9999999"}),
    ]


def by_programs(web):
    mine = own(web)
    for about, wanted, differs in wrong_ones(web):
        status, headers, _ = asked(web.port, **{**mine, **differs})
        expect(about, status, wanted, headers)
    for method, path, wanted in (("GET", "/ask", 404), ("GET", "/../../etc/passwd", 404), ("GET", "/?x", 404), ("OPTIONS", "/ask", 501), ("PUT", "/ask", 501), ("POST", "/", 404)):
        status, headers, _ = asked(web.port, method, path, **mine)
        expect(f"{method} {path}", status, wanted, headers)
    status, _, body = asked(web.port, "GET", "/", None, Host=f"127.0.0.1:{web.port}")
    if status != 200 or web.token.encode() in body:
        raise Answered(f"the page itself: {status}, and it knows the token" if status == 200 else f"the page itself: {status}")
    return len(wrong_ones(web)) + 6


def expect(about, status, wanted, headers):
    if status != wanted:
        raise Answered(f"{about}: answered with {status}, and {wanted} was wanted")
    allowing = [it for it in headers if it.lower().startswith("access-control-")]
    if allowing:
        raise Answered(f"{about}: other pages are let in by {allowing}")


PAGE = b"<!DOCTYPE html><title>another page</title><p>another page"


class Other(http.server.BaseHTTPRequestHandler):
    def do_GET(self):
        self.send_response(200)
        self.send_header("Content-Type", "text/html")
        self.send_header("Content-Length", str(len(PAGE)))
        self.end_headers()
        self.wfile.write(PAGE)

    def log_message(self, *_):
        pass


SENDS = """
const [target, token, body, done] = arguments;
const headers = [{ "Content-Type": "text/plain" }, { "Content-Type": "application/json", Authorization: `Bearer ${token}` }];
const sent = async (how) => { try { const it = await fetch(target + "/ask", how); return it.type === "opaque" ? "unseen" : `answered ${it.status}`; } catch { return "refused"; } };
(async () => {
  const said = {};
  said["plain text, unseen"] = await sent({ method: "POST", mode: "no-cors", headers: headers[0], body });
  said["plain text with the token's cookie or not"] = await sent({ method: "POST", mode: "no-cors", credentials: "include", headers: headers[0], body });
  said["JSON with the very token"] = await sent({ method: "POST", headers: headers[1], body });
  said["reading the page"] = await fetch(target + "/").then((it) => `answered ${it.status}`, () => "refused");
  said["a beacon"] = navigator.sendBeacon(target + "/ask", new Blob([body], { type: "text/plain" })) ? "unseen" : "refused";
  const frame = document.createElement("iframe"); frame.name = "hidden"; frame.src = target + "/#" + token; document.body.append(frame);
  await new Promise((go) => { frame.onload = go; setTimeout(go, 3000); });
  const form = document.createElement("form");
  Object.assign(form, { method: "POST", action: target + "/ask", enctype: "text/plain", target: "hidden" });
  const field = document.createElement("input"); field.name = body.slice(0, -2) + ',"x":"'; field.value = '"}'; form.append(field); document.body.append(form);
  form.submit();
  await new Promise((go) => setTimeout(go, 400));
  done(said);
})();
"""
TO_THE_SERVER = """
const [target, body, done] = arguments;
(async () => {
  const how = { method: "POST", mode: "no-cors", headers: { "Content-Type": "text/plain" }, body }, ends = () => "ended";
  await fetch(target + "/", how).then(ends, ends);
  await fetch(target + "/" + "a".repeat(100000), how).then(ends, ends);
  await fetch(target + "/", { ...how, mode: "cors" }).then(ends, ends);
  await fetch(target + "/", { method: "PATCH", body }).then(ends, ends);
  await fetch(target.replace("http:", "https:") + "/", { ...how, signal: AbortSignal.timeout(2000) }).then(ends, ends);
  await fetch(target + "/?" + encodeURIComponent(body)).then(ends, ends);
  await new Promise((go) => { const it = new WebSocket(target.replace("http:", "ws:") + "/"); it.onclose = it.onerror = go; });
  navigator.sendBeacon(target + "/", new Blob([body], { type: "text/plain" }));
  const frame = document.createElement("iframe"); frame.name = "direct"; document.body.append(frame);
  const form = document.createElement("form");
  Object.assign(form, { method: "POST", action: target + "/", enctype: "text/plain", target: "direct" });
  const field = document.createElement("textarea"); field.name = "a"; field.value = body; form.append(field); document.body.append(form);
  form.submit();
  await new Promise((go) => { frame.onload = go; setTimeout(go, 3000); });
  done(9);
})();
"""
"""Each way that a page has to send lines to a port of this host: they stand in the request's body, or behind a line of it."""
REBOUND = """
const [token, body, done] = arguments;
fetch("/ask", { method: "POST", headers: { "Content-Type": "application/json", Authorization: `Bearer ${token}` }, body })
  .then(async (it) => done(`${it.status} ${await it.text()}`), (error) => done(String(error)));
"""


def by_pages(browser, web):
    """Pages of another port of this host, by both of its names; and one of another name that leads here."""
    other = http.server.ThreadingHTTPServer(("127.0.0.1", 0), Other)
    threading.Thread(target=other.serve_forever, daemon=True).start()
    try:
        for host in ("127.0.0.1", "localhost"):
            browser.go(f"http://{host}:{other.server_port}/")
            said = browser.run_later(SENDS, f"http://127.0.0.1:{web.port}", web.token, BODY)
            for about, found in said.items():
                if found not in ("unseen", "refused"):
                    raise Answered(f"{about}, from {host}: {found}")
            if browser.tells and not any("frame" in text.lower() for _, text in browser.said()):
                raise Answered(f"the page is shown in a frame of {host}")
        browser.go(f"http://{RESOLVED}:{web.port}/")
        shown = browser.run("return document.body.textContent")
        found = browser.run_later(REBOUND, web.token, BODY)
        if "names another place" not in shown or not found.startswith("403"):
            raise Answered(f"a name that leads here: {shown!r}, {found!r}")
    finally:
        other.shutdown()
        other.server_close()
    return len(said)


def to_the_server(browser, port):
    """A page of another port, and one of a name that leads to the server's own port."""
    other = http.server.ThreadingHTTPServer(("127.0.0.1", 0), Other)
    threading.Thread(target=other.serve_forever, daemon=True).start()
    try:
        browser.go(f"http://127.0.0.1:{other.server_port}/")
        return sum(browser.run_later(TO_THE_SERVER, f"http://{host}:{port}", f"\n{INSERT}\n") for host in ("127.0.0.1", RESOLVED))
    finally:
        other.shutdown()
        other.server_close()


def tried(browser, web, server, size):
    """`server` is the table server's port; `size` tells how many rows the table has that all these questions would insert into."""
    before = size()
    programs = by_programs(web)
    pages = by_pages(browser, web)
    if size() != before:
        raise Answered("a row was inserted by the window")
    direct = to_the_server(browser, server)
    if size() != before:
        raise Answered("a row was inserted")
    status, _, body = asked(web.port, **own(web))
    if status != 200 or size() != before + 1:
        raise Answered(f"the page's own question: {status} {body!r}")
    return f"{programs} wrong questions of programs, {pages} of pages at two names, a frame, a form and a rebound name refused, and {direct} to the server's port; the same line from the page itself is answered"
