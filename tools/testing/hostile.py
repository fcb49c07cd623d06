"""Texts that would make a browser ask for something, or run a script, where a page put them into its markup as they are."""

import http.server
import threading

# {u} is the address that each of them would ask for.
TEXTS = (
    '<script>fetch("{u}")</script>',
    "<script src={u}></script>",
    "<img src={u}>",
    "<IMG SRC={u}>",
    "<img/src={u}/>",
    "<img srcset={u}>",
    '<img src=x onerror=fetch("{u}")>',
    '"><img src={u}>',
    "'><img src={u}>",
    "</title><img src={u}>",
    "</style><img src={u}>",
    "</script><img src={u}>",
    "</textarea><img src={u}>",
    "</option><img src={u}>",
    "</select><img src={u}>",
    "</svg><img src={u}>",
    "</code><img src={u}>",
    "</td><img src={u}>",
    "--><img src={u}>",
    "<!--><img src={u}>",
    "]]><img src={u}>",
    "<![CDATA[><img src={u}>",
    "<?xml?><img src={u}>",
    "<math><mtext><img src={u}>",
    "<noscript><img src={u}>",
    "<xmp></xmp><img src={u}>",
    '<svg onload=fetch("{u}")>',
    "<svg><image href={u}>",
    "<svg><script href={u}>",
    '<style>@import "{u}"',
    "<style>*{{background:url({u})}}",
    "<link rel=stylesheet href={u}>",
    "<link rel=prefetch href={u}>",
    "<iframe src={u}>",
    "<object data={u}>",
    "<embed src={u}>",
    "<video autoplay src={u}>",
    "<audio autoplay src={u}>",
    "<picture><source srcset={u}><img>",
    '<input autofocus onfocus=fetch("{u}")>',
    "<body background={u}>",
    "<table background={u}>",
    "<meta http-equiv=refresh content=0;{u}>",
    "<base href={u}>",
    "<form action={u}><button>",
    '<a href=javascript:fetch("{u}")>x',
    '<details open ontoggle=fetch("{u}")>',
    '" onmouseover=fetch("{u}") x="',
    "' onfocus=fetch('{u}') autofocus x='",
    '" style="background:url({u})',
    '"; }} }} body{{background:url({u})}} x{{"',
    "\\22;}} body{{background:url({u})}}",
    '${{fetch("{u}")}}',
    "{{{{fetch('{u}')}}}}",
    "&lt;img src={u}&gt;",
    "&#60;img src={u}&#62;",
    "\\u003cimg src={u}\\u003e",
    "\\x3cimg src={u}\\x3e",
    "%3Cimg src={u}%3E",
    "\uff1cimg src={u}\uff1e",
    'javascript:fetch("{u}")',
    "data:text/html,<img src={u}>",
    "`-fetch('{u}')-`",
    "');fetch('{u}');('",
    '");fetch("{u}");("',
    '\\");fetch("{u}");//',
    '*/fetch("{u}")/*',
)
# What a reader may do on a page: click, choose and type everywhere.
DEEDS = """
for (const one of document.querySelectorAll("details")) one.open = true;
for (const one of document.querySelectorAll("button, .button, [data-case], [data-circuit], [data-customer], summary, label, input, td, g"))
  for (const kind of ["mouseover", "click", "keydown"]) one.dispatchEvent(new Event(kind, {bubbles: true}));
for (const one of document.querySelectorAll("select"))
  for (let place = 0; place < one.options.length; place++) { one.selectedIndex = place; one.dispatchEvent(new Event("change", {bubbles: true})); }
for (const one of document.querySelectorAll("input")) { one.value = "1"; one.dispatchEvent(new Event("input", {bubbles: true})); }
"""


class Listener:
    """A server of this machine that notes which paths are asked for."""

    def __init__(self):
        self.asked = asked = set()

        class Handler(http.server.BaseHTTPRequestHandler):
            def do_GET(self):
                asked.add(self.path)
                self.send_response(404)
                self.end_headers()

            def log_message(self, *_):
                pass

        self.server = http.server.ThreadingHTTPServer(("127.0.0.1", 0), Handler)
        threading.Thread(target=self.server.serve_forever, daemon=True).start()
        self.address = f"http://127.1:{self.server.server_port}"

    def texts(self):
        """Each text, with an address of its own."""
        return [text.format(u=f"{self.address}/{number}") for number, text in enumerate(TEXTS)]

    def file_names(self):
        """The same as names of files, which have no slash."""
        address = self.address.replace("//", "")
        return [text.format(u=address) for text in TEXTS if "/" not in text.format(u="")]

    def close(self):
        self.server.shutdown()
        self.server.server_close()
