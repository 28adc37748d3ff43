"""HTML in a normal form, in which two texts are equal if a browser shows the same: as the CommonMark project's own tests compare them."""
import html.parser
import re

BLOCKS = set("article header aside hgroup blockquote hr iframe body li map button object canvas ol caption output col p colgroup pre dd "
             "progress div section dl table td dt tbody embed textarea fieldset tfoot figcaption th figure thead footer tr form ul h1 h2 "
             "h3 h4 h5 h6 video script style".split())


class Normal(html.parser.HTMLParser):
    """Writes HTML in the normal form into `out`; `last` is the kind of the last piece."""

    def __init__(self):
        super().__init__(convert_charrefs=False)
        self.out, self.is_verbatim, self.last = [], False, "start"

    def put(self, text, kind):
        """Adds a piece."""
        self.out.append(text)
        self.last = kind

    def strip_end(self):
        """Removes the white space at the end."""
        while self.out and not self.out[-1].strip():
            self.out.pop()
        if self.out:
            self.out[-1] = self.out[-1].rstrip()

    def handle_starttag(self, tag, attributes):
        if tag in BLOCKS:
            self.strip_end()
        self.is_verbatim = self.is_verbatim or tag == "pre"
        said = "".join(f" {name}" if value is None else f' {name}="{html.escape(value)}"' for name, value in sorted(attributes))
        self.put(f"<{tag}{said}>", "block" if tag in BLOCKS else "inline")

    def handle_startendtag(self, tag, attributes):
        self.handle_starttag(tag, attributes)

    def handle_endtag(self, tag):
        if tag == "pre":
            self.is_verbatim = False
        elif tag in BLOCKS:
            self.strip_end()
        self.put(f"</{tag}>", "block" if tag in BLOCKS else "inline")

    def handle_data(self, data):
        if not self.is_verbatim:
            data = re.sub(r"\s+", " ", data)
            if self.last in ("block", "start"):
                data = data.lstrip()
        if data:
            self.put(html.escape(data, quote=False), "text")

    def handle_entityref(self, name):
        self.put(html.escape(html.unescape(f"&{name};")), "text")

    def handle_charref(self, name):
        self.put(html.escape(html.unescape(f"&#{name};")), "text")

    def handle_comment(self, data):
        self.put(f"<!--{data}-->", "inline")

    def handle_decl(self, data):
        self.put(f"<!{data}>", "inline")

    def unknown_decl(self, data):
        self.put(f"<![{data}]>", "inline")

    def handle_pi(self, data):
        self.put(f"<?{data}>", "inline")


def normal(text):
    """The normal form: spaces collapsed outside `pre`, no spaces beside blocks, attributes in order, entities as characters."""
    reader = Normal()
    reader.feed(text)
    reader.close()
    return "".join(reader.out).strip().replace("&quot;", '"').replace("&#x27;", "'")
