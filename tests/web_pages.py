"""The pages for people as they should be, made of what an archive has. Nothing here is taken from the program but its style, scripts and
policy, whose digests test_web_pages.py computes."""
import html
import pathlib
import re
import urllib.parse

from tests.program import ROOT

MOST_ROWS = 200
TREE, SERVED = "tree", "served"


def constant(name):
    """The text of a constant of the frame, which has no escapes."""
    source = pathlib.Path(ROOT, "crates/pages/src/frame.rt").read_text(encoding="utf-8")
    return re.search(rf'const {name}: &str =\s*"([^"\\]*)";', source)[1]


def text(value):
    return html.escape(value).replace("&#x27;", "&#39;")


def link(path, value):
    return f'<a href="{text(urllib.parse.quote(path, safe="/"))}">{text(value)}</a>'


def page(name, title, here, body, up=""):
    places = ("Suites", "index.html"), ("Uploads", "uploads.html")
    links = "".join(f'<a href="{up}{path}"{" aria-current=" + chr(34) + "page" + chr(34) if word == here else ""}>{word}</a>' for word, path in places)
    return (
        '<!doctype html>\n<html lang="en">\n<head>\n<meta charset="utf-8">\n'
        f'<meta http-equiv="Content-Security-Policy" content="{constant("POLICY")}">\n'
        '<meta name="viewport" content="width=device-width, initial-scale=1">\n'
        f'<title>{text(title)}</title>\n<link rel="icon" href="data:,">\n<style>{constant("STYLE")}</style>\n</head>\n<body>\n'
        f"<header><div><b>{text(name)}</b><nav>{links}</nav></div></header>\n<main>\n<h1>{text(title)}</h1>\n"
        f"{body}</main>\n<footer>Boqitsel</footer>\n</body>\n</html>\n"
    )


def script(name):
    return f"<script>{constant(name)}</script>\n"


def fact(word, value):
    return f"<div><dt>{word}</dt><dd>{text(value)}</dd></div>"


def words(values):
    return "".join(f" {it}" for it in values)


def suite_box(suite, site, key):
    """A suite: a dict with codename, architectures, components, packages, sources and date, perhaps also other and description."""
    code, components = suite["codename"], words(suite["components"])
    url = '<span class="url">URL/</span>'
    option, field = ("trusted=yes", "Trusted: yes")
    if key:
        option, field = f"signed-by=/usr/share/keyrings/{text(key)}", f"Signed-By: /usr/share/keyrings/{text(key)}"
    kinds = ["deb", "deb-src"] if "source" in suite["architectures"] else ["deb"]
    path = f"dists/{code}/index.html" if site == TREE else f"suites/{code}/index.html"
    other = f' <span class="dim">({text(suite["other"])})</span>' if "other" in suite else ""
    description = f'<p>{text(suite["description"])}</p>\n' if "description" in suite else ""
    facts = fact("Packages", str(suite["packages"])) + fact("Sources", str(suite["sources"]))
    facts += fact("Architectures", words(suite["architectures"])) + fact("Components", components) + fact("Changed", suite["date"])
    lines = "".join(f"{kind} [{option}] {url} {text(code)}{text(components)}\n" for kind in kinds)
    return (
        f'<section class="suite">\n<h2>{link(path, code)}{other}</h2>\n{description}<dl>{facts}</dl>\n<pre>{lines}</pre>\n'
        f'<pre>Types: {" ".join(kinds)}\nURIs: {url}\nSuites: {text(code)}\nComponents:{text(components)}\n{field}\n</pre>\n</section>\n'
    )


def index_page(name, suites, site=TREE, key=None, is_here=False):
    body = (
        '<p class="dim">To install from a suite, write its lines into a file of <code>/etc/apt/sources.list.d</code> that ends in <code>.list</code>, '
        "or its paragraph into one that ends in <code>.sources</code>.</p>\n"
    )
    if key:
        body += (
            f'<p class="dim">The Releases are signed. Store the key, {link(key, key) if is_here else text(key)}, '
            f"as <code>/usr/share/keyrings/{text(key)}</code>.</p>\n"
        )
    return page(name, "Suites", "Suites", body + "".join(suite_box(it, site, key) for it in suites) + script("SCRIPT"))


def upload(name, site):
    return f'<td class="name">{text(name) if site == TREE else link(f"why/{name}", name)}</td>'


def table(names):
    return f'<div class="wide"><table>\n<thead><tr>{"".join(f"<th>{it}</th>" for it in names)}</tr></thead>\n<tbody>\n'


def more(site, path, count):
    return f"<p>{count - MOST_ROWS} more: {link(path, path)}</p>\n" if site == SERVED and count > MOST_ROWS else ""


def waiting_row(name, lacks, site):
    tag = f'<span class="tag wait">{len(lacks)} missing</span>' if lacks else '<span class="tag good">whole</span>'
    names = "".join(f"<code>{text(it)}</code> " for it in lacks) or "None: the next run judges it."
    return f"<tr><td>{tag}</td>{upload(name, site)}<td>{names}</td></tr>\n"


def judged_row(word, name, means, site):
    kind = "good" if word == "accepted" else "bad"
    return f'<tr><td><span class="tag {kind}">{word}</span></td>{upload(name, site)}<td>{means}</td></tr>\n'


def uploads_page(name, waiting, judged, means, site=TREE):
    """Of uploads that wait, each a name with the names that it lacks, and of verdicts in the order of judging, each a word with a name."""
    most = MOST_ROWS if site == SERVED else None
    body = f'<h2>Waiting <span class="dim">{len(waiting)}</span></h2>\n'
    if waiting:
        rows = "".join(waiting_row(it, lacks, site) for it, lacks in waiting[:most])
        body += f'{table(["State", "Upload", "Files that it lacks"])}{rows}</tbody>\n</table></div>\n{more(site, "queue", len(waiting))}'
    else:
        body += "<p>Nothing waits.</p>\n"
    body += f'<h2>Judged, the latest first <span class="dim">{len(judged)}</span></h2>\n'
    if judged:
        rows = "".join(judged_row(word, it, means[word], site) for word, it in judged[::-1][:most])
        body += f'{table(["Verdict", "Upload", "What it means"])}{rows}</tbody>\n</table></div>\n{more(site, "verdicts", len(judged))}'
    else:
        body += "<p>Nothing was judged yet.</p>\n"
    return page(name, "Uploads", "Uploads", body)


def meanings():
    """What each verdict means, as markup, by docs/FAULTS.md."""
    rows = re.findall(r"^\| `(accepted|refused \d+)` \| (.*?) \| ", pathlib.Path(ROOT, "docs/FAULTS.md").read_text(encoding="utf-8"), re.M)
    return {word: re.sub(r"`([^`]*)`", r"<code>\1</code>", html.escape(means, quote=False)) for word, means in rows}


def size(count):
    if count < 1000:
        return f"{count} bytes"
    unit, each = ("kB", 1000) if count < 1_000_000 else ("MB", 1_000_000)
    return f"{count // each}.{count * 10 // each % 10} {unit}"


def file_part(path, count):
    return f'<div class="name">{link(path, path.rpartition("/")[2]).replace(chr(34), chr(34) + "../../", 1)} <span class="dim">{size(count)}</span></div>'


def item_row(item):
    synopsis = f'<div class="dim">{text(item["synopsis"])}</div>' if "synopsis" in item else ""
    files = "".join(file_part(*it) for it in item["files"])
    return (
        f'<tr class="{item["kind"]}"><td><b>{text(item["package"])}</b>{synopsis}</td><td class="name">{text(item["version"])}</td>'
        f'<td>{text(item["architecture"])}</td><td>{text(item["component"])}</td><td class="name">{text(item["source"])}</td><td>{files}</td></tr>\n'
    )


def suite_page(name, suite, items):
    description = f'<p>{text(suite["description"])}</p>\n' if "description" in suite else ""
    facts = fact("Packages", str(suite["packages"])) + fact("Sources", str(suite["sources"]))
    names = ["Package", "Version", "Architecture", "Component", "Source", "Files"]
    body = (
        f'{description}<dl>{facts}</dl>\n<p><input type="search" placeholder="Filter" aria-label="Filter" hidden></p>\n'
        f'{table(names)}{"".join(map(item_row, items))}</tbody>\n</table></div>\n{script("FILTER")}'
    )
    return page(name, suite["codename"], "Suites", body, "../../")
